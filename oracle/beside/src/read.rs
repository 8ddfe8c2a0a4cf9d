//! Records read for the lean run: one look at a record's length, then each field at its place. No form is checked.

use std::time::Duration;

use given::sends::{ApsAckData, Confirm, Schedule, TxPriority};
use given::types::{Eui64, Nwk};
use given::{Ieee802154Address, Instant};
use run::event::{Routed, extended};

const PRIORITIES: [TxPriority; 6] = [
    TxPriority::Background,
    TxPriority::UserLow,
    TxPriority::UserNormal,
    TxPriority::UserHigh,
    TxPriority::UserCritical,
    TxPriority::StackCritical,
];

/// The rest of a trace.
pub struct Rest<'a>(pub &'a [u8]);

impl<'a> Rest<'a> {
    /// The kind of the next record, where there is one.
    pub fn kind(&mut self) -> Option<u8> {
        let (kind, rest) = self.0.split_first()?;
        self.0 = rest;
        Some(*kind)
    }

    /// The body of a record, whose length its kind fixes.
    #[inline(always)]
    pub fn body<const N: usize>(&mut self) -> Body<'a, N> {
        let (body, rest) = self.0.split_first_chunk().expect("the lean run is for whole traces");
        self.0 = rest;
        Body(body)
    }
}

/// A body, its fields read by their places.
#[derive(Clone, Copy)]
pub struct Body<'a, const N: usize>(&'a [u8; N]);

impl<const N: usize> Body<'_, N> {
    #[inline(always)]
    fn bytes<const M: usize>(&self, at: usize) -> [u8; M] {
        *self.0[at..].first_chunk().expect("a field is inside its body")
    }

    pub fn u8(&self, at: usize) -> u8 {
        self.0[at]
    }

    #[inline(always)]
    pub fn u16(&self, at: usize) -> u16 {
        u16::from_le_bytes(self.bytes(at))
    }

    #[inline(always)]
    pub fn u32(&self, at: usize) -> u32 {
        u32::from_le_bytes(self.bytes(at))
    }

    #[inline(always)]
    pub fn u64(&self, at: usize) -> u64 {
        u64::from_le_bytes(self.bytes(at))
    }

    #[inline(always)]
    pub fn nwk(&self, at: usize) -> Nwk {
        Nwk(self.u16(at))
    }

    /// A microsecond of the Rust stands for a millisecond of a trace.
    #[inline(always)]
    pub fn time(&self, at: usize) -> Instant {
        Instant::from_micros(self.u64(at))
    }

    #[inline(always)]
    pub fn span(&self, at: usize) -> Duration {
        Duration::from_micros(self.u32(at).into())
    }

    #[inline(always)]
    pub fn priority(&self, at: usize) -> TxPriority {
        PRIORITIES[usize::from(self.u8(at))]
    }

    #[inline(always)]
    pub fn address(&self, at: usize) -> Option<Ieee802154Address> {
        match self.u8(at) {
            0 => None,
            1 => Some(Ieee802154Address::Nwk(self.nwk(at + 1))),
            _ => Some(Ieee802154Address::Eui64(extended(self.u64(at + 1)))),
        }
    }

    /// A flag and the extended address that it speaks of.
    #[inline(always)]
    pub fn maybe_extended(&self, at: usize) -> Option<Eui64> {
        (self.u8(at) != 0).then(|| extended(self.u64(at + 1)))
    }

    #[inline(always)]
    pub fn maybe_nwk(&self, at: usize) -> Option<Nwk> {
        (self.u8(at) != 0).then(|| self.nwk(at + 1))
    }

    #[inline(always)]
    pub fn key(&self, at: usize) -> ApsAckData {
        let there = |bit: u8| self.u8(at) & bit != 0;
        ApsAckData {
            src: self.nwk(at + 1),
            destination_endpoint: there(1).then_some(self.u8(at + 3)),
            cluster_id: there(2).then_some(self.u16(at + 4)),
            profile_id: there(4).then_some(self.u16(at + 6)),
            source_endpoint: there(8).then_some(self.u8(at + 8)),
            counter: self.u8(at + 9),
        }
    }

    #[inline(always)]
    pub fn confirm(&self, at: usize) -> Confirm {
        match self.u8(at) {
            0 => Confirm::OnHandoff,
            _ => Confirm::ApsAck { ack: self.key(at + 1), wait: self.span(at + 11) },
        }
    }

    #[inline(always)]
    pub fn schedule(&self, at: usize) -> Schedule {
        let (copies_remaining, next_attempt) = (self.u8(at + 8), self.time(at + 9));
        match self.u8(at) {
            0 => Schedule::Once,
            1 => Schedule::PassiveAck { key: (self.nwk(at + 1), self.u8(at + 3)), copies_remaining, next_attempt },
            _ => Schedule::FixedInterval { interval: self.span(at + 4), copies_remaining, next_attempt },
        }
    }

    /// One result of a route.
    #[inline(always)]
    pub fn routed(&self, at: usize) -> Routed {
        match self.u8(at) {
            0 => Ok((self.nwk(at + 1), self.address(at + 3))),
            _ => Err(self.u16(at + 12)),
        }
    }
}
