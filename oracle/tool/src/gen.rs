//! Traces that keep the tables busy. The Rust runs along, so that most events find what they are about.

use given::types::Nwk;
use run::answer::Answers;
use run::form::{self, LAST_TIME, RESULTS, event};
use run::machine::{Machine, Row, Table};

use crate::flavour::{FLAVOURS, Flavour};
use crate::make::{Addr, Bytes, Confirm, Key, Load, Plan, Report, Routed};
use crate::rng::Rng;

/// A trace in the making.
pub struct Maker<'a> {
    rng: &'a mut Rng,
    flavour: &'static Flavour,
    machine: Machine,
    pub trace: Vec<u8>,
    /// Where each record begins.
    pub starts: Vec<usize>,
    /// The length of all answers so far.
    pub answered: usize,
    now: u64,
    /// Times at which something may fall due.
    due: Vec<u64>,
    next_frame: u32,
    handoff: u32,
    persistence: u32,
}

impl<'a> Maker<'a> {
    pub fn new(rng: &'a mut Rng, watched: bool) -> Self {
        let shares: Vec<u32> = FLAVOURS.iter().map(|flavour| flavour.share).collect();
        let flavour = &FLAVOURS[rng.weighted(&shares)];
        Self::of(rng, flavour, watched)
    }

    pub fn of(rng: &'a mut Rng, flavour: &'static Flavour, watched: bool) -> Self {
        let (handoff, persistence, ..) = form::DEFAULTS;
        let next_frame = if rng.chance(1, 20) { u32::MAX - 3 } else { 1 };
        let mut maker = Self {
            now: flavour.base,
            rng,
            flavour,
            machine: Machine::new(watched),
            trace: Vec::new(),
            starts: Vec::new(),
            answered: 0,
            due: Vec::new(),
            next_frame,
            handoff,
            persistence,
        };
        if maker.rng.chance(7, 10) {
            let record = maker.settings();
            maker.feed(record);
        }
        maker
    }

    pub fn flavour(&self) -> &'static str {
        self.flavour.name
    }

    /// Adds one record of a kind that the flavour likes.
    pub fn event(&mut self) {
        let kind = self.rng.weighted(&self.flavour.weights) as u8 + 1;
        let kind = self.instead(kind);
        let mut record = self.record(kind);
        if self.rng.chance(1, 60) {
            self.spoil(&mut record);
        }
        self.feed(record);
    }

    /// Adds a record and lets the Rust answer it.
    pub fn feed(&mut self, record: Bytes) {
        self.starts.push(self.trace.len());
        self.trace.extend(&record.0);
        let mut answers = Answers::default();
        self.machine.answer(record.0[0], &record.0[1..], &mut answers);
        self.answered += answers.0.len();
    }

    /// A report needs a frame in the radio, a retry or a route a held destination: mostly begin with what makes one.
    fn instead(&mut self, kind: u8) -> u8 {
        let bare = self.machine.radio().is_empty();
        let unrouted = self.machine.count(Table::Unrouted) == 0;
        match kind {
            event::REPORT if bare && self.rng.chance(9, 10) => event::DEQUEUE,
            event::RETRY | event::FAIL | event::ROUTE if unrouted && self.rng.chance(2, 3) => event::UNROUTED,
            _ => kind,
        }
    }

    fn record(&mut self, kind: u8) -> Bytes {
        let mut b = Bytes::default();
        match kind {
            event::SETTINGS => return self.settings(),
            event::UNICAST | event::COPY => self.unicast(kind == event::COPY, &mut b),
            event::UNROUTED => {
                let load = self.load(self.handoff);
                b.unrouted(load, self.destination(), self.confirm());
            }
            event::BROADCAST => self.broadcast(&mut b),
            event::DEQUEUE => b.at(kind, self.soon()),
            event::REPORT => b.report(self.report()),
            event::POLL => self.poll(&mut b),
            event::ACK => b.ack(self.key()),
            event::RETRY | event::FAIL | event::HAS_UNROUTED => b.about(kind, self.destination()),
            event::ROUTE => self.route(&mut b),
            event::DELIVERED => {
                let (src, sequence) = self.quorum();
                b.delivered(src, sequence);
            }
            event::DROP => {
                let long = self.rng.chance(1, 2).then(|| self.long());
                b.drop(long, self.short());
            }
            event::CANCEL => b.cancel(self.id()),
            event::TICK => b.at(kind, self.tick_time()),
            event::MAP => b.map(self.long(), self.short()),
            event::HAS_AWAITING => b.has_awaiting(self.address()),
            _ => {
                b.u8(kind);
            }
        }
        b
    }

    /// Settings of some tens of milliseconds, at times none or the longest.
    fn settings(&mut self) -> Bytes {
        self.handoff = self.span(60);
        self.persistence = self.span(60);
        let retries = self.rng.pick(&[0, 0, 1, 1, 2, 3, 255]);
        let attempts = self.rng.pick(&[0, 1, 2, 3, 3, 255]);
        let mut b = Bytes::default();
        b.settings(self.handoff, self.persistence, retries, attempts);
        b
    }

    fn span(&mut self, usual: u64) -> u32 {
        if self.flavour.edges && self.rng.chance(1, 3) {
            return u32::MAX - self.rng.below(2) as u32;
        }
        match self.rng.below(20) {
            0 => 0,
            1 => 1,
            2 => u32::MAX,
            3 => self.rng.word() as u32,
            _ => self.rng.range(2, usual) as u32,
        }
    }

    /// The present, moved on a little, at times back.
    fn soon(&mut self) -> u64 {
        if self.flavour.back > 0 && self.rng.chance(self.flavour.back, 100) {
            let far = if self.rng.chance(1, 8) { self.now + 1 } else { 60.min(self.now + 1) };
            self.now -= self.rng.below(far);
            return self.now;
        }
        match self.rng.below(100) {
            0..=59 => {
                self.now = self.now.saturating_add(self.rng.below(3)).min(LAST_TIME);
                self.now
            }
            60..=74 => self.now,
            75..=84 => self.beside_due(),
            85..=89 => {
                self.now = self.beside_wake();
                self.now
            }
            90..=96 => {
                let back = self.now.saturating_sub(self.rng.below(60));
                if self.rng.chance(1, 3) {
                    self.now = back;
                }
                back
            }
            97 => self.rng.pick(&[0, LAST_TIME, LAST_TIME - 1]),
            98 if self.rng.chance(1, 2) => self.rng.pick(&[LAST_TIME + 1, u64::MAX, LAST_TIME + 2, 1 << 63]),
            _ => self.rng.below(1 << 20).saturating_add(self.now).min(LAST_TIME),
        }
    }

    /// A tick stands at a wake or beside it more often than other events do.
    fn tick_time(&mut self) -> u64 {
        if self.rng.chance(1, 2) {
            return self.soon();
        }
        self.now = self.beside_wake();
        self.now
    }

    fn beside_wake(&mut self) -> u64 {
        let wake = self.machine.wake().unwrap_or(self.now);
        self.beside(wake)
    }

    fn beside_due(&mut self) -> u64 {
        if self.due.is_empty() {
            return self.now;
        }
        let due = self.rng.pick(&self.due);
        self.beside(due)
    }

    fn beside(&mut self, time: u64) -> u64 {
        time.saturating_sub(1).saturating_add(self.rng.below(3)).min(LAST_TIME)
    }

    fn note(&mut self, time: u64) {
        if self.due.len() == 12 {
            self.due.remove(0);
        }
        self.due.push(time);
    }

    fn load(&mut self, span: u32) -> Load {
        let now = self.soon();
        self.note(now.saturating_add(span.into()));
        let frame = self.next_frame;
        if !self.rng.chance(1, 10) {
            self.next_frame = self.next_frame.wrapping_add(1);
        }
        let waiter = if self.rng.chance(1, 20) { self.rng.word() as u32 } else { frame ^ 0x100 };
        let priority = self.rng.pick(&[0, 1, 2, 2, 2, 3, 4, 5]);
        Load { now, frame, waiter, priority }
    }

    fn unicast(&mut self, copy: bool, b: &mut Bytes) {
        let held = self.rng.chance(self.flavour.held, 100);
        let load = self.load(if held { self.persistence } else { self.handoff });
        let addr = if held { self.address() } else { Addr::None };
        let hop = self.rng.pick(&[1, 2, 0x1234, 0xFFFF, 0]);
        let confirm = self.confirm();
        if copy {
            b.copy(self.copied(), load, hop, addr, confirm);
        } else {
            b.unicast(load, hop, addr, confirm);
        }
    }

    /// What a copy names: mostly a live broadcast, at times any id, its own and later ones too.
    fn copied(&mut self) -> u32 {
        let broadcasts: Vec<u32> = self.rows(|row| row.table == Table::Broadcasts);
        if !broadcasts.is_empty() && self.rng.chance(5, 6) {
            return self.rng.pick(&broadcasts);
        }
        let next = self.machine.next_id();
        self.rng.pick(&[next, next + 1, next + 2, next.saturating_sub(1), 0, u32::MAX])
    }

    fn rows(&self, wanted: impl Fn(&Row) -> bool) -> Vec<u32> {
        self.machine.live().iter().filter(|row| wanted(row)).map(|row| row.id).collect()
    }

    fn broadcast(&mut self, b: &mut Bytes) {
        let load = self.load(self.handoff);
        let (src, sequence) = self.quorum();
        let copies = self.rng.pick(&[1, 1, 2, 2, 3, 5, 255, 0]);
        let next = match self.rng.below(12) {
            0..=5 => load.now,
            6..=7 => 0,
            8..=9 => self.beside_due(),
            10 => load.now.saturating_add(self.rng.below(60)).min(LAST_TIME),
            _ => self.rng.pick(&[LAST_TIME, LAST_TIME + 1, u64::MAX, self.now]),
        };
        self.note(next);
        b.broadcast(
            load,
            match self.rng.below(10) {
                0..=1 => Plan::default(),
                2..=6 => Plan { tag: 1, src, sequence, copies, next, interval: 0 },
                _ => Plan { tag: 2, interval: self.span(20), copies, next, ..Plan::default() },
            },
        );
    }

    fn report(&mut self) -> Report {
        let failed = self.rng.chance(self.flavour.failed, 100);
        let code = self.rng.pick(&[0, 1, 0xE9, 0xFFFF]);
        let delay = self.span(20);
        let now = self.soon();
        self.note(now.saturating_add(delay.into()));
        let mut report =
            Report { broadcast: false, id: 0, frame: 0, result: if failed { Err(code) } else { Ok(()) }, now, delay };
        match self.machine.radio() {
            [] => report.id = self.id(),
            lent => {
                let lent = &lent[self.rng.index(lent.len())];
                (report.id, report.frame) = (lent.id, lent.frame);
            }
        }
        report.broadcast = !self.rows(|row| row.id == report.id && row.table == Table::Broadcasts).is_empty();
        match self.rng.below(60) {
            0 => report.broadcast = !report.broadcast,
            1 => report.frame = report.frame.wrapping_add(1),
            2..=3 => report.id = self.id(),
            _ => {}
        }
        report
    }

    /// An id that a call may be about: live, lent, past or never drawn.
    fn id(&mut self) -> u32 {
        let next = self.machine.next_id();
        let live = self.rows(|_| true);
        match self.rng.below(10) {
            0 => next,
            1 => self.rng.below(u64::from(next) + 2) as u32,
            2 if self.rng.chance(1, 4) => self.rng.pick(&[u32::MAX, u32::MAX - 1]),
            _ if live.is_empty() => self.rng.below(u64::from(next) + 1) as u32,
            _ => self.rng.pick(&live),
        }
    }

    fn poll(&mut self, b: &mut Bytes) {
        let (long, short) = match self.rng.below(10) {
            0 => (None, None),
            1..=3 => (Some(self.long()), None),
            4..=6 => (None, Some(self.short())),
            _ => (Some(self.long()), Some(self.short())),
        };
        b.poll(self.soon(), long, short);
    }

    fn route(&mut self, b: &mut Bytes) {
        let now = self.soon();
        let destination = self.destination();
        let at = given::Instant::from_micros(now);
        let left = self.machine.left_to_route(Nwk(destination), at);
        let count = match self.rng.below(14) {
            0 => left + 1,
            1 => left.saturating_sub(1),
            _ => left,
        };
        let results: Vec<Routed> = (0..count.min(RESULTS)).map(|_| self.routed()).collect();
        b.route(now, destination, count as u8, &results);
    }

    fn routed(&mut self) -> Routed {
        if self.rng.chance(1, 4) {
            return Err(self.rng.pick(&[0, 7, 0xFFFF]));
        }
        let addr = if self.rng.chance(self.flavour.held, 100) { self.address() } else { Addr::None };
        Ok((self.rng.pick(&[0, 3, 0xABCD]), addr))
    }

    fn short(&mut self) -> u16 {
        [0, 0xFFFF, 0x1234][self.rng.index(3.min(self.flavour.addresses + 1))]
    }

    /// Extended addresses whose order as numbers is not that of their bytes.
    fn long(&mut self) -> u64 {
        let place = self.rng.index(self.flavour.addresses) as u64;
        match place {
            0 => 256,
            1 => 1,
            2 => 0,
            3 => u64::MAX,
            _ => place.rotate_right(place as u32 * 8).wrapping_add(place << 16),
        }
    }

    fn address(&mut self) -> Addr {
        if self.rng.chance(1, 2) { Addr::Short(self.short()) } else { Addr::Long(self.long()) }
    }

    fn destination(&mut self) -> u16 {
        let place = self.rng.index(self.flavour.destinations) as u16;
        [0, 0xFFFF, 0x0100].get(usize::from(place)).copied().unwrap_or(place * 259)
    }

    fn quorum(&mut self) -> (u16, u8) {
        let place = self.rng.index(self.flavour.quorums) as u16;
        (place / 2, (place % 2) as u8 * 255)
    }

    /// Keys that differ in one part, a part that is there as 0 beside one that is not among them.
    fn key(&mut self) -> Key {
        let base = Key {
            presence: 15,
            src: 5,
            destination_endpoint: 1,
            cluster: 6,
            profile: 260,
            source_endpoint: 1,
            counter: 9,
        };
        match self.rng.index(self.flavour.keys * 2) {
            0 | 1 => base,
            2 => Key { counter: 10, ..base },
            3 => Key { presence: 14, destination_endpoint: 0, ..base },
            4 => Key { destination_endpoint: 0, ..base },
            5 => Key { presence: 0, destination_endpoint: 0, cluster: 0, profile: 0, source_endpoint: 0, ..base },
            6 => Key { src: 6, ..base },
            _ => Key { presence: 7, source_endpoint: 0, ..base },
        }
    }

    fn confirm(&mut self) -> Confirm {
        if !self.rng.chance(self.flavour.acked, 100) {
            return None;
        }
        Some((self.key(), self.span(40)))
    }

    /// Changes a byte of the body, so that the record is likely out of form.
    fn spoil(&mut self, record: &mut Bytes) {
        let length = record.0.len();
        if length > 1 {
            let place = 1 + self.rng.index(length - 1);
            record.0[place] ^= 1 << self.rng.below(8);
        }
    }
}
