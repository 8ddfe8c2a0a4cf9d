//! Answers written for the lean run: each record made whole and stored where it belongs, with one look at the room.

use given::Ieee802154Address;
use given::sends::Transmit;
use given::types::Nwk;
use run::answer::{Fault, Frame, Waiter, end, number, verdict};
use run::form::answer;

/// An output, and how much of it is written.
pub struct Out<'a> {
    room: &'a mut [u8],
    at: usize,
}

/// A record from its kind and its fields, one after the other.
struct Record<const N: usize> {
    bytes: [u8; N],
    at: usize,
}

impl<const N: usize> Record<N> {
    #[inline(always)]
    fn of(kind: u8) -> Self {
        let mut bytes = [0; N];
        bytes[0] = kind;
        Self { bytes, at: 1 }
    }

    #[inline(always)]
    fn with<const M: usize>(mut self, field: [u8; M]) -> Self {
        self.bytes[self.at..self.at + M].copy_from_slice(&field);
        self.at += M;
        self
    }

    #[inline(always)]
    fn who(self, id: u32, handle: u32) -> Self {
        self.with(id.to_le_bytes()).with(handle.to_le_bytes())
    }
}

/// An address as its tag and its number.
fn parts(address: Option<Ieee802154Address>) -> (u8, u64) {
    match address {
        None => (0, 0),
        Some(Ieee802154Address::Nwk(short)) => (1, short.0.into()),
        Some(Ieee802154Address::Eui64(extended)) => (2, number(extended)),
    }
}

impl<'a> Out<'a> {
    pub fn new(room: &'a mut [u8]) -> Self {
        Self { room, at: 0 }
    }

    #[inline(always)]
    fn put<const N: usize>(&mut self, record: Record<N>) {
        *self.room[self.at..].first_chunk_mut().expect("the lean run is for ample room") = record.bytes;
        self.at += N;
    }

    pub fn done(&mut self) {
        self.put(Record::<1>::of(answer::DONE));
    }

    pub fn id(&mut self, id: u32) {
        self.put(Record::<5>::of(answer::ID).with(id.to_le_bytes()));
    }

    pub fn handed_off(&mut self, waiter: Waiter) {
        self.put(Record::<9>::of(answer::HANDED_OFF).who(waiter.id, waiter.handle));
    }

    pub fn abandoned(&mut self, waiter: Waiter) {
        self.put(Record::<9>::of(answer::ABANDONED).who(waiter.id, waiter.handle));
    }

    pub fn settled(&mut self, waiter: Waiter, frame: Frame, result: Result<(), Fault>, hop: Option<Nwk>) {
        let (verdict, address, code) = verdict(result);
        let (tag, number) = parts(address);
        let record = Record::<28>::of(answer::SETTLED).who(waiter.id, waiter.handle).with(frame.handle.to_le_bytes());
        let record = record.with([verdict, tag]).with(number.to_le_bytes()).with(code.to_le_bytes());
        self.put(record.with([hop.is_some().into()]).with(hop.map_or(0, |hop| hop.0).to_le_bytes()));
    }

    pub fn in_flight(&mut self, frame: Frame, transmit: Transmit) {
        let (broadcast, hop, pending) = match transmit {
            Transmit::Unicast { next_hop, frame_pending } => (0, next_hop.0, frame_pending.into()),
            Transmit::Broadcast => (1, 0, 0),
        };
        let record = Record::<13>::of(answer::IN_FLIGHT).who(frame.id, frame.handle);
        self.put(record.with([broadcast]).with(hop.to_le_bytes()).with([pending]));
    }

    pub fn yes_no(&mut self, yes: bool) {
        self.put(Record::<2>::of(answer::YES_NO).with([yes.into()]));
    }

    pub fn time(&mut self, time: u64) {
        self.put(Record::<9>::of(answer::TIME).with(time.to_le_bytes()));
    }

    pub fn extended(&mut self, number: u64) {
        self.put(Record::<9>::of(answer::EXTENDED).with(number.to_le_bytes()));
    }

    pub fn short(&mut self, short: Nwk) {
        self.put(Record::<3>::of(answer::SHORT).with(short.0.to_le_bytes()));
    }

    pub fn destination(&mut self, destination: Nwk) {
        self.put(Record::<3>::of(answer::DESTINATION).with(destination.0.to_le_bytes()));
    }

    pub fn key(&mut self, (src, sequence): (Nwk, u8)) {
        self.put(Record::<4>::of(answer::KEY).with(src.0.to_le_bytes()).with([sequence]));
    }

    /// The end record of a trace that was read to its end; gives the length of all that was written.
    pub fn end(mut self, consumed: usize) -> usize {
        self.put(Record { bytes: end(0, consumed), at: 0 });
        self.at
    }
}
