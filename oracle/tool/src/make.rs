//! Records written out of plain values: the one place that lays an event's bytes down. It lets bad values pass.

use run::form::{RESULTS, event};

/// An address of a record.
#[derive(Debug, Clone, Copy, PartialEq, Eq)]
pub enum Addr {
    None,
    Short(u16),
    Long(u64),
}

/// An ack's key: the parts that `presence` names, the others zero.
#[derive(Debug, Clone, Copy, PartialEq, Eq)]
pub struct Key {
    pub presence: u8,
    pub src: u16,
    pub destination_endpoint: u8,
    pub cluster: u16,
    pub profile: u16,
    pub source_endpoint: u8,
    pub counter: u8,
}

/// The key and the wait of a send that an ack confirms; none where the handoff does.
pub type Confirm = Option<(Key, u32)>;

/// What every enqueue has.
#[derive(Debug, Clone, Copy)]
pub struct Load {
    pub now: u64,
    pub frame: u32,
    pub waiter: u32,
    pub priority: u8,
}

/// A broadcast's schedule: its tag and the fields behind it.
#[derive(Debug, Clone, Copy, Default)]
pub struct Plan {
    pub tag: u8,
    pub src: u16,
    pub sequence: u8,
    pub interval: u32,
    pub copies: u8,
    pub next: u64,
}

/// A report's fields.
#[derive(Debug, Clone, Copy)]
pub struct Report {
    pub broadcast: bool,
    pub id: u32,
    pub frame: u32,
    pub result: Result<(), u16>,
    pub now: u64,
    pub delay: u32,
}

/// One route result.
pub type Routed = Result<(u16, Addr), u16>;

/// Bytes in the making.
#[derive(Debug, Clone, Default)]
pub struct Bytes(pub Vec<u8>);

impl Bytes {
    pub fn u8(&mut self, value: u8) -> &mut Self {
        self.0.push(value);
        self
    }

    pub fn u16(&mut self, value: u16) -> &mut Self {
        self.0.extend(value.to_le_bytes());
        self
    }

    pub fn u32(&mut self, value: u32) -> &mut Self {
        self.0.extend(value.to_le_bytes());
        self
    }

    pub fn u64(&mut self, value: u64) -> &mut Self {
        self.0.extend(value.to_le_bytes());
        self
    }

    pub fn addr(&mut self, addr: Addr) -> &mut Self {
        match addr {
            Addr::None => self.u8(0).u64(0),
            Addr::Short(short) => self.u8(1).u64(short.into()),
            Addr::Long(long) => self.u8(2).u64(long),
        }
    }

    fn key(&mut self, key: Key) -> &mut Self {
        self.u8(key.presence).u16(key.src).u8(key.destination_endpoint).u16(key.cluster);
        self.u16(key.profile).u8(key.source_endpoint).u8(key.counter)
    }

    fn confirm(&mut self, confirm: Confirm) -> &mut Self {
        match confirm {
            None => {
                self.0.extend([0; 15]);
                self
            }
            Some((key, wait)) => self.u8(1).key(key).u32(wait),
        }
    }

    fn load(&mut self, load: Load) -> &mut Self {
        self.u64(load.now).u32(load.frame).u32(load.waiter).u8(load.priority)
    }

    fn maybe_long(&mut self, long: Option<u64>) -> &mut Self {
        self.u8(long.is_some().into()).u64(long.unwrap_or(0))
    }

    pub fn settings(&mut self, handoff: u32, persistence: u32, retries: u8, attempts: u8) {
        self.u8(event::SETTINGS).u32(handoff).u32(persistence).u8(retries).u8(attempts);
    }

    pub fn unicast(&mut self, load: Load, hop: u16, addr: Addr, confirm: Confirm) {
        self.u8(event::UNICAST).load(load).u16(hop).addr(addr).confirm(confirm);
    }

    pub fn copy(&mut self, of: u32, load: Load, hop: u16, addr: Addr, confirm: Confirm) {
        self.u8(event::COPY).u32(of).load(load).u16(hop).addr(addr).confirm(confirm);
    }

    pub fn unrouted(&mut self, load: Load, destination: u16, confirm: Confirm) {
        self.u8(event::UNROUTED).load(load).u16(destination).confirm(confirm);
    }

    pub fn broadcast(&mut self, load: Load, plan: Plan) {
        self.u8(event::BROADCAST).load(load).u8(plan.tag).u16(plan.src).u8(plan.sequence);
        self.u32(plan.interval).u8(plan.copies).u64(plan.next);
    }

    pub fn report(&mut self, report: Report) {
        self.u8(event::REPORT).u8(report.broadcast.into()).u32(report.id).u32(report.frame);
        self.u8(report.result.is_err().into()).u16(report.result.err().unwrap_or(0));
        self.u64(report.now).u32(report.delay);
    }

    pub fn poll(&mut self, now: u64, long: Option<u64>, short: Option<u16>) {
        self.u8(event::POLL).u64(now).maybe_long(long).u8(short.is_some().into()).u16(short.unwrap_or(0));
    }

    pub fn ack(&mut self, key: Key) {
        self.u8(event::ACK).key(key);
    }

    /// The results that are given, the rest absent. The count is as given, so that a wrong one can be made.
    pub fn route(&mut self, now: u64, destination: u16, count: u8, results: &[Routed]) {
        self.u8(event::ROUTE).u64(now).u16(destination).u8(count);
        for result in results {
            match *result {
                Ok((hop, addr)) => self.u8(0).u16(hop).addr(addr).u16(0),
                Err(code) => self.u8(1).u16(0).addr(Addr::None).u16(code),
            };
        }
        self.0.extend(vec![0; 14 * (RESULTS - results.len())]);
    }

    pub fn drop(&mut self, long: Option<u64>, short: u16) {
        self.u8(event::DROP).maybe_long(long).u16(short);
    }

    pub fn map(&mut self, long: u64, short: u16) {
        self.u8(event::MAP).u64(long).u16(short);
    }

    /// An event whose body is one time, and likewise below.
    pub fn at(&mut self, kind: u8, now: u64) {
        self.u8(kind).u64(now);
    }

    pub fn about(&mut self, kind: u8, destination: u16) {
        self.u8(kind).u16(destination);
    }

    pub fn delivered(&mut self, src: u16, sequence: u8) {
        self.u8(event::DELIVERED).u16(src).u8(sequence);
    }

    pub fn cancel(&mut self, id: u32) {
        self.u8(event::CANCEL).u32(id);
    }

    pub fn has_awaiting(&mut self, addr: Addr) {
        self.u8(event::HAS_AWAITING).addr(addr);
    }
}
