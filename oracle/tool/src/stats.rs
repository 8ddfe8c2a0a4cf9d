//! Counts over cases: events, answers, refusals by number, verdicts, statuses, and how full the tables came to be.

use std::collections::BTreeMap;

use run::answer::Answers;
use run::form::{self, RESERVED, Standing, answer, standing};
use run::machine::{Machine, Table};

use crate::file::Answered;
use crate::words;

type Counts = BTreeMap<u8, u64>;

#[derive(Default)]
pub struct Stats {
    pub cases: u64,
    /// Outputs too small for an end record.
    pub silent: u64,
    pub events: Counts,
    pub accepted: Counts,
    pub answers: Counts,
    pub refusals: Counts,
    pub verdicts: Counts,
    pub statuses: Counts,
    /// The most of each that one event met: unicasts, unrouted, destinations, broadcasts, map keys, actions.
    pub most: [usize; 6],
}

impl Stats {
    pub fn add(&mut self, answered: &Answered) {
        self.cases += 1;
        if answered.answers.is_empty() {
            self.silent += 1;
            return;
        }
        let body = answered.answers.len() - RESERVED;
        self.bump(|s| &mut s.statuses, answered.answers[body + 1]);
        let mut machine = Machine::new(false);
        let mut rest = &answered.case.trace[..];
        let mut told = &answered.answers[..body];
        while !told.is_empty() {
            let Standing::Record { kind, body } = standing(rest) else { panic!("answers without a record") };
            rest = &rest[1 + body.len()..];
            told = self.event(kind, told);
            machine.answer(kind, body, &mut Answers::default());
            self.fill(&machine);
        }
    }

    fn bump(&mut self, which: impl Fn(&mut Self) -> &mut Counts, key: u8) {
        *which(self).entry(key).or_default() += 1;
    }

    /// Counts one event's answers and gives the rest.
    fn event<'a>(&mut self, kind: u8, mut told: &'a [u8]) -> &'a [u8] {
        self.bump(|s| &mut s.events, kind);
        let mut actions = 0;
        loop {
            let what = told[0];
            let length = form::answer_body(what).expect("a known answer");
            let body = &told[1..1 + length];
            told = &told[1 + length..];
            self.bump(|s| &mut s.answers, what);
            match what {
                answer::REFUSED => self.bump(|s| &mut s.refusals, body[0]),
                answer::SETTLED => self.bump(|s| &mut s.verdicts, body[12]),
                answer::DONE => self.bump(|s| &mut s.accepted, kind),
                _ => {}
            }
            actions += usize::from(matches!(what, answer::SETTLED | answer::HANDED_OFF));
            if matches!(what, answer::DONE | answer::REFUSED) {
                self.most[5] = self.most[5].max(actions);
                return told;
            }
        }
    }

    fn fill(&mut self, machine: &Machine) {
        let seen = [
            machine.count(Table::Unicasts),
            machine.count(Table::Unrouted),
            machine.held(),
            machine.count(Table::Broadcasts),
            machine.map().len(),
        ];
        for (most, now) in self.most.iter_mut().zip(seen) {
            *most = (*most).max(now);
        }
    }

    pub fn total(&self) -> u64 {
        self.events.values().sum()
    }

    /// The rarest of all that a trace can reach, and how often it was met. Refusals 2 and 11 are for library calls alone.
    pub fn least(&self) -> (String, u64) {
        let refusals: &[u8] = &[1, 3, 4, 5, 6, 7, 8, 9, 10, 14];
        let groups: [(&str, &Counts, Vec<u8>); 6] = [
            ("event", &self.events, (1..=22).collect()),
            ("accepted event", &self.accepted, (1..=22).collect()),
            ("answer", &self.answers, (128..=140).collect()),
            ("refusal", &self.refusals, refusals.to_vec()),
            ("verdict", &self.verdicts, (0..=7).collect()),
            ("status", &self.statuses, vec![0, 12, 13, 15, 16]),
        ];
        let all = groups.iter().flat_map(|(name, counts, keys)| {
            keys.iter().map(move |key| (format!("{name} {key}"), counts.get(key).copied().unwrap_or(0)))
        });
        all.min_by_key(|(_, count)| *count).expect("many kinds")
    }

    /// The counts as lines of text.
    pub fn text(&self) -> String {
        let refused: u64 = self.refusals.values().sum();
        let mut text = format!(
            "cases {}, without an end record {}, events {}, accepted {}, refused {}\n",
            self.cases,
            self.silent,
            self.total(),
            self.total() - refused,
            refused
        );
        text += "\nevents (all, accepted)\n";
        for kind in 1..=22 {
            let of = |counts: &Counts| counts.get(&kind).copied().unwrap_or(0);
            text +=
                &format!("  {kind:3} {:14} {:9} {:9}\n", words::event_name(kind), of(&self.events), of(&self.accepted));
        }
        text += &table("answers", &self.answers, 128..=140, words::answer_name);
        text += &table("refusals", &self.refusals, 1..=14, words::refusal_name);
        text += &table("verdicts", &self.verdicts, 0..=7, words::verdict_name);
        text += &table("statuses", &self.statuses, [0, 12, 13, 15, 16], words::refusal_name);
        let [unicasts, unrouted, destinations, broadcasts, keys, actions] = self.most;
        text + &format!(
            "\nmost at once: {unicasts} unicasts, {unrouted} unrouted sends, {destinations} destinations, \
             {broadcasts} broadcasts, {keys} map keys, {actions} actions of one event\n"
        )
    }
}

fn table(title: &str, counts: &Counts, keys: impl IntoIterator<Item = u8>, name: fn(u8) -> &'static str) -> String {
    let row = |key: u8| format!("  {key:3} {:24} {:9}\n", name(key), counts.get(&key).copied().unwrap_or(0));
    format!("\n{title}\n{}", keys.into_iter().map(row).collect::<String>())
}
