//! Mixed traces: rounds of everyday events over few live sends or full tables, generated ones, and rounds for each number
//! of live sends. The Rust runs along while they are made, so that each event is about what is there.

use oracle::case;
use oracle::flavour::FLAVOURS;
use oracle::make::{Addr, Bytes, Key, Load, Plan, Report, Routed};
use oracle::script::{Script, key};
use run::answer::Answers;
use run::form::{self, LONGEST, Standing, answer, event, standing};
use run::machine::{Machine, Table};

use crate::row::Row;

/// The most sends that the rounds keep live, besides those that stay.
const LIVE: usize = 2;
/// After so many rounds one is like another.
const SETTLING: u32 = 20;
const CHILD: u64 = 1;
const ROUTED: u16 = 700;
const QUORUM: (u16, u8) = (700, 7);
/// Rounds wait for no time that is this far.
const LATER: u64 = 1 << 40;

/// What a round may enqueue, in turn.
#[derive(Clone, Copy, PartialEq, Eq)]
enum Send {
    Held,
    Direct,
    Acked,
    Unrouted,
    Broadcast,
}

const UNICASTS: &[Send] = &[Send::Direct, Send::Held, Send::Direct, Send::Acked];
const ALL: &[Send] = &[Send::Direct, Send::Held, Send::Unrouted, Send::Acked, Send::Broadcast];

/// A trace in the making.
struct Mix {
    machine: Machine,
    trace: Vec<u8>,
    now: u64,
    /// How many sends and reports the rounds had.
    sends: usize,
    reports: usize,
    /// How many sends were live after each event of the rounds, added up, and the least and the most.
    live: (usize, usize, usize),
    events: usize,
}

impl Mix {
    fn new(before: &[u8]) -> Self {
        let mut mix = Self {
            machine: Machine::new(false),
            trace: Vec::new(),
            now: 1,
            sends: 0,
            reports: 0,
            live: (0, usize::MAX, 0),
            events: 0,
        };
        let mut rest = before;
        while let Standing::Record { kind, body } = standing(rest) {
            mix.machine.answer(kind, body, &mut Answers::default());
            rest = &rest[1 + body.len()..];
        }
        mix.trace.extend(before);
        mix
    }

    /// Adds a record; gives whether it was accepted. One that is refused is left out: it changes nothing.
    fn feed(&mut self, record: &[u8]) -> bool {
        let mut answers = Answers::default();
        self.machine.answer(record[0], &record[1..], &mut answers);
        let accepted = answers.0[0] != answer::REFUSED;
        if accepted {
            self.trace.extend(record);
            let live = self.machine.live().len();
            self.live = (self.live.0 + live, self.live.1.min(live), self.live.2.max(live));
            self.events += 1;
        }
        accepted
    }

    fn add(&mut self, write: impl FnOnce(&mut Bytes)) {
        let mut record = Bytes::default();
        write(&mut record);
        assert!(self.feed(&record.0), "a round has no refused event");
    }

    /// Enqueues one send of a sort, or a held one where the table has no room.
    fn enqueue(&mut self, send: Send) {
        let id = self.machine.next_id();
        let load = Load { now: self.now, frame: 1000 + id, waiter: 2000 + id, priority: (id % 6) as u8 };
        let room = |table: Table, room: usize| self.machine.count(table) < room;
        match send {
            Send::Unrouted if room(Table::Unrouted, form::UNROUTED) => self.add(|b| b.unrouted(load, ROUTED, None)),
            Send::Broadcast if room(Table::Broadcasts, form::BROADCASTS) => {
                let plan = Plan { tag: 1, src: QUORUM.0, sequence: QUORUM.1, copies: 3, next: self.now, interval: 0 };
                self.add(|b| b.broadcast(load, plan));
            }
            Send::Direct => self.add(|b| b.unicast(load, 5, Addr::None, None)),
            Send::Acked => self.add(|b| b.unicast(load, 5, Addr::None, Some((acked(), 500)))),
            _ => self.add(|b| b.unicast(load, 5, Addr::Long(CHILD), None)),
        }
    }

    /// The sender's word on every frame that it has; each seventh is lost.
    fn report(&mut self) {
        let lent: Vec<(u32, u32)> = self.machine.radio().iter().map(|lent| (lent.id, lent.frame)).collect();
        for (id, frame) in lent {
            let row = self.machine.live().iter().find(|row| row.id == id);
            let broadcast = row.is_some_and(|row| row.table == Table::Broadcasts);
            self.reports += 1;
            let result = if self.reports.is_multiple_of(7) { Err(7) } else { Ok(()) };
            let now = self.now;
            self.add(|b| b.report(Report { broadcast, id, frame, result, now, delay: 2 }));
        }
    }

    /// One round: two sends enter where there is room, a child polls, the sender asks three times and reports on what it
    /// got, time moves on.
    fn round(&mut self, sorts: &[Send], staying: usize) {
        for _ in 0..2 {
            if self.machine.live().len() == staying + LIVE {
                break;
            }
            self.sends += 1;
            self.enqueue(sorts[self.sends % sorts.len()]);
        }
        let now = self.now;
        self.add(|b| b.poll(now, Some(CHILD), None));
        for _ in 0..3 {
            self.add(|b| b.at(event::DEQUEUE, now));
        }
        self.report();
        if sorts.contains(&Send::Acked) {
            self.add(|b| b.ack(acked()));
        }
        if sorts.contains(&Send::Unrouted) {
            self.others();
        }
        self.now += 1;
        let now = self.now;
        self.add(|b| b.at(event::TICK, now));
    }

    /// The rest of a round over all tables: a route is found, a quorum heard, and the driver asks when to wake.
    fn others(&mut self) {
        let left = self.machine.left_to_route(given::types::Nwk(ROUTED), given::Instant::from_micros(self.now));
        let results: Vec<Routed> = vec![Ok((9, Addr::None)); left];
        let now = self.now;
        if left > 0 {
            self.add(|b| b.route(now, ROUTED, left as u8, &results));
        }
        self.add(|b| b.delivered(QUORUM.0, QUORUM.1));
        self.add(|b| {
            b.u8(event::NEXT_WAKE);
        });
    }

    /// What there is so far; counts begin anew.
    fn start(&mut self) -> Vec<u8> {
        self.live = (0, usize::MAX, 0);
        self.events = 0;
        self.trace.clone()
    }

    /// The row of what was added behind `before`.
    fn row(self, name: &str, before: &[u8]) -> Row {
        let (sum, least, most) = self.live;
        let mean = sum as f64 / self.events as f64;
        let name = format!("{name} ({least} to {most} live sends, {mean:.1} on average)");
        Row::new(&name, before, &self.trace)
    }
}

/// The one key that the rounds' acks have.
fn acked() -> Key {
    key(77)
}

/// Spans that end within rounds for what the rounds enqueue, after sends that stay: so many unicasts, unrouted ones and
/// broadcasts that nothing in a round is about.
fn staying(unicasts: u32, others: u32) -> Script {
    let script = Script::new().settings(u32::MAX, u32::MAX, 3, 3);
    let script = script.each(0..unicasts, |s, n| s.held(0, Addr::Long(1000 + u64::from(n))));
    let script = script.each(0..others, |s, n| s.unrouted(0, n as u16, None));
    script.each(0..others, |s, n| s.passive(0, (n as u16, 1), 3, LATER)).settings(40, 40, 3, 3)
}

/// Rounds behind a script, as many as a trace has room for.
fn rounds(name: &str, before: &Script, sorts: &[Send]) -> Row {
    let mut mix = Mix::new(&before.bytes.0);
    let staying = mix.machine.live().len();
    (0..SETTLING).for_each(|_| mix.round(sorts, staying));
    let before = mix.start();
    // A round is at most some 900 bytes.
    while mix.trace.len() < LONGEST - 1000 {
        mix.round(sorts, staying);
    }
    mix.row(name, &before)
}

/// A generated trace of one flavour, its refused events left out.
fn generated(name: &str, seed: u64) -> Row {
    let flavour = FLAVOURS.iter().position(|flavour| flavour.name == name).expect("a flavour of the generator");
    let mut mix = Mix::new(&[]);
    let case = case::of_flavour(seed, flavour, 4000, false);
    let mut rest = &case.trace[..];
    while let Standing::Record { body, .. } = standing(rest) {
        let (record, after) = rest.split_at(1 + body.len());
        if mix.trace.len() + record.len() > LONGEST {
            break;
        }
        mix.feed(record);
        rest = after;
    }
    mix.row(&format!("generated, flavour \"{name}\""), &[])
}

/// The mixed traces.
pub fn all() -> Vec<Row> {
    vec![
        rounds("light, unicasts alone", &staying(6, 0), UNICASTS).goal(1.0),
        rounds("light, all tables", &staying(4, 1), ALL).goal(1.0),
        rounds("full tables", &staying(30, 15), ALL).goal(1.0),
        generated("mixed", 1).goal(1.0),
        generated("full", 2).goal(1.0),
    ]
}

/// For 1 to 32 live sends: a round of five events in which one more is enqueued, sent and settled; and idle ticks.
pub fn growth() -> Vec<Row> {
    let base = |live: u32| {
        let script = Script::new().settings(u32::MAX, u32::MAX, 3, 3);
        script.each(0..live, |s, n| s.held(0, Addr::Long(1000 + u64::from(n))))
    };
    let round = |s: Script, _: u32| {
        let id = s.drawn();
        s.direct(1).poll(1, Some(0), None).dequeue(1).sent(id, 1).tick(1)
    };
    let both = |live: u32| {
        [
            Row::often(&format!("round of five events, {live} live"), 600, base(live - 1), round),
            Row::often(&format!("idle tick, {live} live"), 2000, base(live), |s, _| s.tick(1)),
        ]
    };
    (1..=form::UNICASTS as u32).flat_map(both).collect()
}
