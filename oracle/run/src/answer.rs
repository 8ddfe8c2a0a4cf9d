//! Answers written out of what the Rust returned.

use given::Ieee802154Address;
use given::sends::{SendFailure, Transmit};
use given::types::{Eui64, Nwk};

use crate::form::answer;

/// A frame as the Rust carries it: the trace's handle, and the id that its enqueue was to draw.
#[derive(Debug, Clone, Copy, PartialEq, Eq)]
pub struct Frame {
    pub id: u32,
    pub handle: u32,
}

/// A waiter as the Rust carries it, in the same way.
#[derive(Debug, Clone, Copy, PartialEq, Eq)]
pub struct Waiter {
    pub id: u32,
    pub handle: u32,
}

/// The driver's error type: a failure that a table decided, or a code that the trace handed in.
#[derive(Debug, Clone, Copy, PartialEq, Eq)]
pub enum Fault {
    Failure(SendFailure),
    Code(u16),
}

impl From<SendFailure> for Fault {
    fn from(failure: SendFailure) -> Self {
        Self::Failure(failure)
    }
}

/// The bytes of one event's answers.
#[derive(Default)]
pub struct Answers(pub Vec<u8>);

impl Answers {
    fn put<const N: usize>(&mut self, bytes: [u8; N]) {
        self.0.extend_from_slice(&bytes);
    }

    fn who(&mut self, kind: u8, waiter: Waiter) {
        self.put([kind]);
        self.put(waiter.id.to_le_bytes());
        self.put(waiter.handle.to_le_bytes());
    }

    pub fn refused(&mut self, number: u8) {
        self.put([answer::REFUSED, number]);
    }

    pub fn done(&mut self) {
        self.put([answer::DONE]);
    }

    pub fn id(&mut self, id: u32) {
        self.put([answer::ID]);
        self.put(id.to_le_bytes());
    }

    pub fn handed_off(&mut self, waiter: Waiter) {
        self.who(answer::HANDED_OFF, waiter);
    }

    pub fn abandoned(&mut self, waiter: Waiter) {
        self.who(answer::ABANDONED, waiter);
    }

    pub fn settled(&mut self, waiter: Waiter, frame: Frame, result: Result<(), Fault>, hop: Option<Nwk>) {
        let (verdict, address, code) = verdict(result);
        self.who(answer::SETTLED, waiter);
        self.put(frame.handle.to_le_bytes());
        self.put([verdict]);
        self.address(address);
        self.put(code.to_le_bytes());
        self.put([u8::from(hop.is_some())]);
        self.put(hop.map_or([0; 2], |hop| hop.0.to_le_bytes()));
    }

    fn address(&mut self, address: Option<Ieee802154Address>) {
        let (tag, value) = match address {
            None => (0, 0),
            Some(Ieee802154Address::Nwk(short)) => (1, short.0.into()),
            Some(Ieee802154Address::Eui64(extended)) => (2, number(extended)),
        };
        self.put([tag]);
        self.put(value.to_le_bytes());
    }

    pub fn in_flight(&mut self, frame: Frame, transmit: Transmit) {
        let (broadcast, hop, pending) = match transmit {
            Transmit::Unicast { next_hop, frame_pending } => (0, next_hop.0, u8::from(frame_pending)),
            Transmit::Broadcast => (1, 0, 0),
        };
        self.put([answer::IN_FLIGHT]);
        self.put(frame.id.to_le_bytes());
        self.put(frame.handle.to_le_bytes());
        self.put([broadcast]);
        self.put(hop.to_le_bytes());
        self.put([pending]);
    }

    pub fn yes_no(&mut self, yes: bool) {
        self.put([answer::YES_NO, u8::from(yes)]);
    }

    pub fn time(&mut self, time: u64) {
        self.put([answer::TIME]);
        self.put(time.to_le_bytes());
    }

    pub fn short(&mut self, short: Nwk) {
        self.put([answer::SHORT]);
        self.put(short.0.to_le_bytes());
    }

    pub fn extended(&mut self, value: u64) {
        self.put([answer::EXTENDED]);
        self.put(value.to_le_bytes());
    }

    pub fn key(&mut self, (src, sequence): (Nwk, u8)) {
        self.put([answer::KEY]);
        self.put(src.0.to_le_bytes());
        self.put([sequence]);
    }

    pub fn destination(&mut self, destination: Nwk) {
        self.put([answer::DESTINATION]);
        self.put(destination.0.to_le_bytes());
    }
}

/// An extended address as a number.
pub fn number(extended: Eui64) -> u64 {
    u64::from_le_bytes(extended.0)
}

/// A verdict's number, its address and its code.
pub fn verdict(result: Result<(), Fault>) -> (u8, Option<Ieee802154Address>, u16) {
    let failure = match result {
        Ok(()) => return (0, None, 0),
        Err(Fault::Code(code)) => return (7, None, code),
        Err(Fault::Failure(failure)) => failure,
    };
    match failure {
        SendFailure::HandoffTimeout => (1, None, 0),
        SendFailure::ApsAckTimeout => (2, None, 0),
        SendFailure::IndirectExpired { destination } => (3, Some(destination), 0),
        SendFailure::RouteDiscoveryTimeout => (4, None, 0),
        SendFailure::BroadcastQuorumNotReached => (5, None, 0),
        SendFailure::Cancelled => (6, None, 0),
    }
}

/// The end record.
pub fn end(status: u8, consumed: usize) -> [u8; 6] {
    let [a, b, c, d] = u32::try_from(consumed).expect("a trace is short").to_le_bytes();
    [answer::END, status, a, b, c, d]
}
