//! Traces written by hand, and the answers that are expected of them.
//!
//! The enqueue that draws id n carries frame 16 + n, waiter 64 + n and hop 112 + n, so that a line names an id alone.

use run::form::{answer, event};

use crate::make::{Addr, Bytes, Confirm, Key, Load, Plan, Report, Routed};

/// The priorities, in the Rust's order.
pub const BACKGROUND: u8 = 0;
pub const LOW: u8 = 1;
pub const NORMAL: u8 = 2;
pub const HIGH: u8 = 3;
pub const CRITICAL: u8 = 4;
pub const STACK: u8 = 5;

pub const fn frame(id: u32) -> u32 {
    16 + id
}

pub const fn waiter(id: u32) -> u32 {
    64 + id
}

pub const fn hop(id: u32) -> u16 {
    112 + id as u16
}

/// A key with every part, told apart by its counter.
pub const fn key(counter: u8) -> Key {
    Key { presence: 15, src: 5, destination_endpoint: 1, cluster: 6, profile: 260, source_endpoint: 2, counter }
}

/// A key without any of the parts that may be absent.
pub const BARE: Key =
    Key { presence: 0, src: 5, destination_endpoint: 0, cluster: 0, profile: 0, source_endpoint: 0, counter: 1 };

#[derive(Debug, Clone, Default)]
pub struct Script {
    pub bytes: Bytes,
    /// The id that the next enqueue draws, if none was refused.
    drawn: u32,
}

impl Script {
    pub fn new() -> Self {
        Self::default()
    }

    fn with(mut self, write: impl FnOnce(&mut Bytes)) -> Self {
        write(&mut self.bytes);
        self
    }

    fn load(&mut self, now: u64, priority: u8) -> (Load, u16) {
        let id = self.drawn;
        self.drawn += 1;
        (Load { now, frame: frame(id), waiter: waiter(id), priority }, hop(id))
    }

    /// The id that the next enqueue draws.
    pub fn drawn(&self) -> u32 {
        self.drawn
    }

    /// Says that the last enqueue was refused: it drew no id.
    pub fn refused(mut self) -> Self {
        self.drawn -= 1;
        self
    }

    pub fn raw(self, bytes: &[u8]) -> Self {
        self.with(|b| b.0.extend(bytes))
    }

    pub fn settings(self, handoff: u32, persistence: u32, retries: u8, attempts: u8) -> Self {
        self.with(|b| b.settings(handoff, persistence, retries, attempts))
    }

    pub fn unicast(mut self, now: u64, priority: u8, addr: Addr, confirm: Confirm) -> Self {
        let (load, hop) = self.load(now, priority);
        self.with(|b| b.unicast(load, hop, addr, confirm))
    }

    /// A unicast of normal priority that goes straight to its hop and is over when it is handed off.
    pub fn direct(self, now: u64) -> Self {
        self.unicast(now, NORMAL, Addr::None, None)
    }

    /// The same, held for the poll of an address.
    pub fn held(self, now: u64, addr: Addr) -> Self {
        self.unicast(now, NORMAL, addr, None)
    }

    /// The same, confirmed by an ack.
    pub fn acked(self, now: u64, key: Key, wait: u32) -> Self {
        self.unicast(now, NORMAL, Addr::None, Some((key, wait)))
    }

    pub fn copy(mut self, of: u32, now: u64, addr: Addr) -> Self {
        let (load, hop) = self.load(now, NORMAL);
        self.with(|b| b.copy(of, load, hop, addr, None))
    }

    pub fn unrouted(mut self, now: u64, destination: u16, confirm: Confirm) -> Self {
        let (load, _) = self.load(now, NORMAL);
        self.with(|b| b.unrouted(load, destination, confirm))
    }

    pub fn broadcast(mut self, now: u64, priority: u8, plan: Plan) -> Self {
        let (load, _) = self.load(now, priority);
        self.with(|b| b.broadcast(load, plan))
    }

    pub fn once(self, now: u64) -> Self {
        self.broadcast(now, NORMAL, Plan::default())
    }

    pub fn passive(self, now: u64, (src, sequence): (u16, u8), copies: u8, next: u64) -> Self {
        self.broadcast(now, NORMAL, Plan { tag: 1, src, sequence, copies, next, interval: 0 })
    }

    pub fn fixed(self, now: u64, interval: u32, copies: u8, next: u64) -> Self {
        self.broadcast(now, NORMAL, Plan { tag: 2, interval, copies, next, ..Plan::default() })
    }

    pub fn dequeue(self, now: u64) -> Self {
        self.with(|b| b.at(event::DEQUEUE, now))
    }

    pub fn report(self, broadcast: bool, id: u32, result: Result<(), u16>, now: u64, delay: u32) -> Self {
        self.with(|b| b.report(Report { broadcast, id, frame: frame(id), result, now, delay }))
    }

    /// A report with a handle of its own.
    pub fn report_frame(self, broadcast: bool, id: u32, frame: u32, now: u64) -> Self {
        self.with(|b| b.report(Report { broadcast, id, frame, result: Ok(()), now, delay: 0 }))
    }

    pub fn sent(self, id: u32, now: u64) -> Self {
        self.report(false, id, Ok(()), now, 0)
    }

    pub fn lost(self, id: u32, code: u16, now: u64, delay: u32) -> Self {
        self.report(false, id, Err(code), now, delay)
    }

    pub fn aired(self, id: u32, now: u64, delay: u32) -> Self {
        self.report(true, id, Ok(()), now, delay)
    }

    pub fn unaired(self, id: u32, code: u16, now: u64, delay: u32) -> Self {
        self.report(true, id, Err(code), now, delay)
    }

    pub fn poll(self, now: u64, long: Option<u64>, short: Option<u16>) -> Self {
        self.with(|b| b.poll(now, long, short))
    }

    pub fn ack(self, key: Key) -> Self {
        self.with(|b| b.ack(key))
    }

    pub fn retry(self, destination: u16) -> Self {
        self.with(|b| b.about(event::RETRY, destination))
    }

    pub fn fail(self, destination: u16) -> Self {
        self.with(|b| b.about(event::FAIL, destination))
    }

    pub fn has_unrouted(self, destination: u16) -> Self {
        self.with(|b| b.about(event::HAS_UNROUTED, destination))
    }

    pub fn route(self, now: u64, destination: u16, results: &[Routed]) -> Self {
        self.with(|b| b.route(now, destination, results.len() as u8, results))
    }

    pub fn delivered(self, (src, sequence): (u16, u8)) -> Self {
        self.with(|b| b.delivered(src, sequence))
    }

    pub fn drop_child(self, long: Option<u64>, short: u16) -> Self {
        self.with(|b| b.drop(long, short))
    }

    pub fn cancel(self, id: u32) -> Self {
        self.with(|b| b.cancel(id))
    }

    pub fn tick(self, now: u64) -> Self {
        self.with(|b| b.at(event::TICK, now))
    }

    pub fn abandon(self) -> Self {
        self.raw(&[event::ABANDON])
    }

    pub fn wake(self) -> Self {
        self.raw(&[event::NEXT_WAKE])
    }

    pub fn lists(self) -> Self {
        self.raw(&[event::LISTS])
    }

    pub fn map(self, long: u64, short: u16) -> Self {
        self.with(|b| b.map(long, short))
    }

    pub fn has_awaiting(self, addr: Addr) -> Self {
        self.with(|b| b.has_awaiting(addr))
    }

    /// The same steps for each number of a range.
    pub fn each(self, numbers: std::ops::Range<u32>, step: impl Fn(Self, u32) -> Self) -> Self {
        numbers.fold(self, step)
    }
}

/// Answers expected by hand. Nothing here is shared with the code that answers.
#[derive(Debug, Clone, Default)]
pub struct Told(pub Bytes);

impl Told {
    pub fn new() -> Self {
        Self::default()
    }

    fn with(mut self, write: impl FnOnce(&mut Bytes) -> &mut Bytes) -> Self {
        write(&mut self.0);
        self
    }

    pub fn done(self) -> Self {
        self.with(|b| b.u8(answer::DONE))
    }

    pub fn refused(self, number: u8) -> Self {
        self.with(|b| b.u8(answer::REFUSED).u8(number))
    }

    pub fn id(self, id: u32) -> Self {
        self.with(|b| b.u8(answer::ID).u32(id)).done()
    }

    pub fn ids(self, ids: std::ops::Range<u32>) -> Self {
        ids.fold(self, Self::id)
    }

    pub fn handed_off(self, id: u32) -> Self {
        self.with(|b| b.u8(answer::HANDED_OFF).u32(id).u32(waiter(id)))
    }

    /// A verdict without address, code and hop.
    pub fn settled(self, id: u32, verdict: u8) -> Self {
        self.verdict(id, verdict, Addr::None, 0)
    }

    pub fn verdict(self, id: u32, verdict: u8, addr: Addr, code: u16) -> Self {
        let write = |b: &mut Bytes| {
            b.u8(answer::SETTLED).u32(id).u32(waiter(id)).u32(frame(id)).u8(verdict);
            b.addr(addr).u16(code).u8(0).u16(0);
        };
        self.with(|b| {
            write(b);
            b
        })
    }

    /// A unicast, or a broadcast without hop, in the radio.
    pub fn in_flight(self, id: u32, broadcast: bool, pending: bool) -> Self {
        let hop = if broadcast { 0 } else { hop(id) };
        self.with(|b| b.u8(answer::IN_FLIGHT).u32(id).u32(frame(id)).u8(broadcast.into()).u16(hop).u8(pending.into()))
            .done()
    }

    pub fn yes_no(self, yes: bool) -> Self {
        self.with(|b| b.u8(answer::YES_NO).u8(yes.into())).done()
    }

    /// The end record of a trace that was read to its end.
    pub fn end(self, consumed: usize) -> Vec<u8> {
        self.with(|b| b.u8(answer::END).u8(0).u32(consumed as u32)).0.0
    }
}
