//! What a comparison at scale met: cases and events by class of trace, statuses, refusals, events by kind.

use std::collections::BTreeMap;

use run::form::{LAST_TIME, RESERVED, Standing, answer, answer_body, event, number, standing};

use crate::case::Drawn;
use crate::words;

/// The statuses that an end record may have; a last place is for outputs too small for one.
const STATUSES: [u8; 5] = [0, 12, 13, 15, 16];

/// Counts over the cases of one class.
#[derive(Debug, Default, Clone, PartialEq, Eq)]
struct Class {
    cases: u64,
    events: u64,
    refused: u64,
    statuses: [u64; 6],
}

/// The sort of a class and its name: by flavour, shape and room, and with something in the trace.
type Classes = BTreeMap<(&'static str, &'static str), Class>;

#[derive(Debug, Default, Clone, PartialEq, Eq)]
pub struct Tally {
    all: Class,
    classes: Classes,
    kinds: BTreeMap<u8, u64>,
    refusals: BTreeMap<u8, u64>,
    /// Bytes of outputs: written, and those that had to stay as they were.
    written: u64,
    kept: u64,
}

/// What a trace had in it, as far as it was read.
#[derive(Default)]
struct Had {
    now: u64,
    back: bool,
    late: bool,
    last_ids: bool,
}

impl Had {
    /// Looks at a record's time and at the id that it names.
    fn look(&mut self, kind: u8, body: &[u8]) {
        let time_at = match kind {
            event::COPY => Some(4),
            event::REPORT => Some(12),
            event::UNICAST | event::UNROUTED | event::BROADCAST | event::DEQUEUE => Some(0),
            event::POLL | event::ROUTE | event::TICK => Some(0),
            _ => None,
        };
        if let Some(time) = time_at.and_then(|at| body[at..].first_chunk()) {
            let time = u64::from_le_bytes(*time);
            self.late |= time > LAST_TIME;
            self.back |= time < self.now;
            self.now = time;
        }
        let id_at = match kind {
            event::COPY | event::CANCEL => Some(0),
            event::REPORT => Some(1),
            _ => None,
        };
        if let Some(id) = id_at.and_then(|at| body[at..].first_chunk()) {
            self.last_ids |= u32::from_le_bytes(*id) >= u32::MAX - 1;
        }
    }

    fn names(&self, full: bool) -> impl Iterator<Item = &'static str> {
        let had = [
            (self.back, "a clock that goes back"),
            (self.late, "a time past the last"),
            (self.last_ids, "an id near the end named"),
            (full, "a full table"),
        ];
        had.into_iter().filter(|(met, _)| *met).map(|(_, name)| name)
    }
}

impl Tally {
    /// Takes in a case, the room of both its outputs with what is around them, and the answers that it got.
    pub fn add(&mut self, drawn: &Drawn, room: usize, answers: &[u8]) {
        let mut one = Class { cases: 1, ..Class::default() };
        let (mut rest, mut had, mut full) = (&drawn.case.trace[..], Had::default(), false);
        let (mut told, end) = answers.split_at(answers.len().saturating_sub(RESERVED));
        while let [kind, after @ ..] = told {
            let (body, later) = after.split_at(answer_body(*kind).expect("a known answer"));
            told = later;
            if *kind == answer::REFUSED {
                one.refused += 1;
                full |= body[0] == number::FULL;
                *self.refusals.entry(body[0]).or_default() += 1;
            }
            if matches!(*kind, answer::REFUSED | answer::DONE) {
                let Standing::Record { kind, body } = standing(rest) else { panic!("answers without a record") };
                rest = &rest[1 + body.len()..];
                one.events += 1;
                *self.kinds.entry(kind).or_default() += 1;
                had.look(kind, body);
            }
        }
        let status = end.get(1).and_then(|status| STATUSES.iter().position(|other| other == status));
        one.statuses[status.unwrap_or(STATUSES.len())] = 1;
        self.written += answers.len() as u64;
        self.kept += (room - answers.len()) as u64;
        let classes = [("by flavour", drawn.flavour), ("by shape", drawn.shape), ("by room", drawn.room)];
        for key in classes.into_iter().chain(had.names(full).map(|name| ("with", name))) {
            self.classes.entry(key).or_default().merge(&one);
        }
        self.all.merge(&one);
    }

    pub fn merge(&mut self, other: &Self) {
        self.all.merge(&other.all);
        for (key, class) in &other.classes {
            self.classes.entry(*key).or_default().merge(class);
        }
        for (ours, theirs) in [(&mut self.kinds, &other.kinds), (&mut self.refusals, &other.refusals)] {
            theirs.iter().for_each(|(key, count)| *ours.entry(*key).or_default() += count);
        }
        self.written += other.written;
        self.kept += other.kept;
    }

    pub fn cases(&self) -> u64 {
        self.all.cases
    }

    pub fn events(&self) -> u64 {
        self.all.events
    }

    /// How many classes were met, and how many statuses, one of them none.
    pub fn met(&self) -> (usize, usize) {
        (self.classes.len(), self.all.statuses.iter().filter(|count| **count > 0).count())
    }

    /// The counts as lines of text.
    pub fn text(&self) -> String {
        let (written, kept) = (self.written, self.kept);
        let mut text =
            format!("bytes of each side's outputs: {written} written, {kept} that had to stay as they were\n");
        let heads = STATUSES.map(|status| format!("status {status}")).map(|head| format!("{head:>10}")).concat();
        let mut group = "";
        for ((sort, name), class) in &self.classes {
            if *sort != group {
                text += &format!("\n{:28}{:>10}{:>12}{:>10}{heads}   without\n", sort, "cases", "events", "refused");
                group = sort;
            }
            text += &class.line(name);
        }
        text += &format!("\n{}\n", self.all.line("all"));
        text + &line("refusals", &self.refusals, words::refusal_name) + &line("events", &self.kinds, words::event_name)
    }
}

impl Class {
    fn merge(&mut self, other: &Self) {
        self.cases += other.cases;
        self.events += other.events;
        self.refused += other.refused;
        self.statuses.iter_mut().zip(other.statuses).for_each(|(ours, theirs)| *ours += theirs);
    }

    fn line(&self, name: &str) -> String {
        let statuses = self.statuses.map(|count| format!("{count:>10}")).concat();
        format!("  {name:26}{:>10}{:>12}{:>10}{statuses}\n", self.cases, self.events, self.refused)
    }
}

fn line(title: &str, counts: &BTreeMap<u8, u64>, name: fn(u8) -> &'static str) -> String {
    let all: Vec<String> = counts.iter().map(|(key, count)| format!("{key} ({}) {count}", name(*key))).collect();
    format!("{title}: {}\n", all.join(", "))
}
