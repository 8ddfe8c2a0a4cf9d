//! A row of a table: two traces, one of which goes on where the other ends. What a row tells of is the difference.

use oracle::compare::Pair;
use oracle::script::Script;
use oracle::subject;
use run::form::{LONGEST, RESERVED, Standing, answer, answer_body, standing};

use crate::lean;

/// The room that every run gets.
pub const ROOM: usize = 1 << 20;

/// Something that runs a trace: the proved run through C, or the Rust.
pub type Run = fn(&[u8], &mut [u8]) -> usize;

/// Both sides, the proved run first.
pub const SIDES: [Run; 2] = [subject::archive, lean::run];

pub struct Row {
    pub name: String,
    /// What stands before the events that are told of.
    pub before: Vec<u8>,
    /// The same, and those events behind it.
    pub whole: Vec<u8>,
    /// How many these are.
    pub events: usize,
    /// The ratio that the row is to stay at or below.
    pub goal: Option<f64>,
}

impl Row {
    pub fn new(name: &str, before: &[u8], whole: &[u8]) -> Self {
        assert!(whole.starts_with(before) && whole.len() <= LONGEST, "{name} is one trace and its continuation");
        let events = count(&whole[before.len()..]);
        Self { name: name.into(), before: before.into(), whole: whole.into(), events, goal: None }
    }

    /// A script and what it goes on with.
    pub fn once(name: &str, before: Script, step: impl FnOnce(Script) -> Script) -> Self {
        let whole = step(before.clone());
        Self::new(name, &before.bytes.0, &whole.bytes.0)
    }

    /// The same with a step that can be taken again and again: as often as a trace has room, and at most so often.
    pub fn often(name: &str, most: u32, before: Script, step: impl Fn(Script, u32) -> Script) -> Self {
        let mut whole = before.clone();
        for turn in 0..most {
            let length = whole.bytes.0.len();
            whole = step(whole, turn);
            if whole.bytes.0.len() > LONGEST {
                whole.bytes.0.truncate(length);
                break;
            }
        }
        Self::new(name, &before.bytes.0, &whole.bytes.0)
    }

    pub fn goal(mut self, ratio: f64) -> Self {
        self.goal = Some(ratio);
        self
    }

    pub fn traces(&self) -> [&[u8]; 2] {
        [&self.before, &self.whole]
    }

    /// What an amount of the whole trace and one of what stands before it come to for an event.
    pub fn each(&self, [before, whole]: [f64; 2]) -> f64 {
        (whole - before) / self.events as f64
    }

    /// Both sides and the wrapper answer both traces alike, byte for byte and past the length too, and no event is refused.
    pub fn check(&self, sides: &[Run]) -> Result<(), String> {
        let mut pair = Pair::default();
        for trace in self.traces() {
            for (place, side) in sides.iter().enumerate() {
                if !pair.agree(ROOM, trace, &|trace, out| side(trace, out)) {
                    return Err(format!("{}: side {place} differs from the wrapper", self.name));
                }
            }
            if !accepted(pair.answers().0) {
                return Err(format!("{}: an event is refused", self.name));
            }
        }
        Ok(())
    }
}

/// How many records a trace has.
pub fn count(mut rest: &[u8]) -> usize {
    let mut events = 0;
    while let Standing::Record { body, .. } = standing(rest) {
        rest = &rest[1 + body.len()..];
        events += 1;
    }
    assert!(rest.is_empty(), "a trace of whole records");
    events
}

/// Whether the trace was read to its end and no event was refused.
fn accepted(answers: &[u8]) -> bool {
    let (mut rest, end) = answers.split_at(answers.len() - RESERVED);
    while let [kind, after @ ..] = rest {
        if *kind == answer::REFUSED {
            return false;
        }
        rest = &after[answer_body(*kind).expect("a known answer")..];
    }
    end[1] == 0
}

#[cfg(test)]
mod tests {
    use super::*;
    use crate::report::Rows;

    /// The Rust with its last answer's first byte changed.
    fn wrong(trace: &[u8], out: &mut [u8]) -> usize {
        let length = lean::run(trace, out);
        out[length - RESERVED - 1] ^= 1;
        length
    }

    #[test]
    fn every_row_is_answered_alike() {
        Rows::checked().map(|rows| assert_eq!(rows.all().count(), 117)).expect("all sides agree");
    }

    #[test]
    fn a_side_that_differs_is_told() {
        let row = Row::once("two ticks", Script::new().tick(0), |s| s.tick(1));
        assert!(row.check(&SIDES).is_ok());
        assert!(row.check(&[lean::run, wrong]).is_err_and(|told| told.contains("side 1 differs")));
    }

    #[test]
    fn a_refused_event_is_told() {
        let row = Row::once("a time too late", Script::new(), |s| s.tick(u64::MAX));
        assert!(row.check(&[run::run]).is_err_and(|told| told.contains("refused")));
    }

    #[test]
    fn a_figure_is_of_what_is_added() {
        let row = Row::often("ticks", 4, Script::new().tick(0), |s, n| s.tick(n.into()));
        assert_eq!((row.events, row.each([10.0, 30.0])), (4, 5.0));
    }
}
