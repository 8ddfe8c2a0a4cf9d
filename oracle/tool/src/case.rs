//! Cases: a trace and an output's capacity, made from a seed, whole or damaged.

pub use run::file::Case;
use run::form::{LONGEST, RESERVED, event, event_body};

use crate::flavour::{BACK, FLAVOURS};
use crate::r#gen::Maker;
use crate::make::Bytes;
use crate::rng::Rng;

/// The largest output that a case asks for.
pub const LARGEST: usize = 1 << 20;

/// The shape of a trace that was not damaged, and the flavour of one that the generator's maker did not make.
const WHOLE: &str = "whole";
const UNMADE: &str = "unmade";

/// How long generated traces become.
#[derive(Debug, Clone, Copy, PartialEq, Eq)]
pub enum Size {
    /// A few records, to be read by people.
    Small,
    /// All lengths, up to and past the longest.
    Any,
}

/// A case of a seed, and what it is of each sort of class.
pub struct Drawn {
    pub case: Case,
    pub flavour: &'static str,
    pub shape: &'static str,
    pub room: &'static str,
}

/// The case of a seed.
pub fn of_seed(seed: u64, size: Size, watched: bool) -> Case {
    drawn(seed, size, watched).case
}

/// The same with its classes.
pub fn drawn(seed: u64, size: Size, watched: bool) -> Drawn {
    let mut rng = Rng::new(seed);
    if size == Size::Any && rng.chance(1, 50) {
        return wild(&mut rng);
    }
    let long = size == Size::Any && rng.chance(1, 200);
    let events = match (size, rng.below(10)) {
        (Size::Small, _) => rng.range(3, 16),
        (Size::Any, 0..=1) => rng.range(0, 12),
        (Size::Any, 2..=7) => rng.range(12, 120),
        (Size::Any, _) => rng.range(120, 500),
    };
    let back = size == Size::Any && rng.chance(1, 12);
    let mut maker = if back { Maker::of(&mut rng, &BACK, watched) } else { Maker::new(&mut rng, watched) };
    if long {
        lengthen(&mut maker);
    } else {
        for _ in 0..events {
            maker.event();
        }
    }
    let flavour = maker.flavour();
    let Maker { mut trace, starts, mut answered, .. } = maker;
    let shape = if long {
        answered += pad(&mut rng, &mut trace);
        "long"
    } else if rng.chance(1, 5) {
        damage(&mut rng, &mut trace, &starts)
    } else {
        WHOLE
    };
    let (room, capacity) = capacity(&mut rng, answered + RESERVED);
    Drawn { case: named(flavour, shape, capacity, trace), flavour, shape, room }
}

fn named(flavour: &str, shape: &str, capacity: usize, trace: Vec<u8>) -> Case {
    let what = if shape == WHOLE { flavour.to_string() } else { format!("{flavour}, {shape}") };
    Case { what, capacity, trace }
}

/// A trace that no run was beside: records with any bodies, any bytes, or far more of them than are run.
fn wild(rng: &mut Rng) -> Drawn {
    let mut trace = Vec::new();
    let shape = match rng.below(8) {
        0 => {
            trace.resize(LONGEST + 1 + rng.index(LONGEST), event::NEXT_WAKE);
            "far too long"
        }
        1..=2 => {
            trace.extend((0..rng.below(200)).map(|_| rng.word() as u8));
            "any bytes"
        }
        _ => {
            for _ in 0..rng.range(1, 60) {
                any_record(rng, &mut trace);
            }
            "any bodies"
        }
    };
    let needed = if shape == "any bodies" { 400 + rng.index(4000) } else { RESERVED + rng.index(200) };
    let (room, capacity) = capacity(rng, needed);
    Drawn { case: named(UNMADE, shape, capacity, trace), flavour: UNMADE, shape, room }
}

/// A record of any kind. Most bytes of its body are 0, so that it is at times in its form.
fn any_record(rng: &mut Rng, trace: &mut Vec<u8>) {
    let kind = rng.range(1, 22) as u8;
    trace.push(kind);
    let length = event_body(kind).expect("a known kind");
    trace.extend((0..length).map(|_| match rng.below(40) {
        0 => rng.word() as u8,
        1..=4 => rng.below(3) as u8,
        _ => 0,
    }));
}

/// A whole trace of one flavour and so many events, in ample room.
pub fn of_flavour(seed: u64, flavour: usize, events: usize, watched: bool) -> Case {
    let mut rng = Rng::new(seed);
    let mut maker = Maker::of(&mut rng, &FLAVOURS[flavour % FLAVOURS.len()], watched);
    for _ in 0..events {
        maker.event();
    }
    let what = format!("{}, {events} events", maker.flavour());
    Case { what, capacity: maker.answered + RESERVED, trace: maker.trace }
}

/// Events up to a little below the longest trace.
fn lengthen(maker: &mut Maker) {
    while maker.trace.len() < LONGEST - 400 {
        maker.event();
    }
}

/// Short records up to a length at the longest or close to it; gives the most that their answers take.
fn pad(rng: &mut Rng, trace: &mut Vec<u8>) -> usize {
    let goal = (LONGEST + 3 - rng.index(7)).max(trace.len());
    let mut answered = 0;
    while trace.len() + 3 < goal {
        let mut b = Bytes::default();
        b.about(event::HAS_UNROUTED, 1);
        trace.extend(b.0);
        answered += 3;
    }
    answered += 10 * (goal - trace.len());
    trace.resize(goal, event::NEXT_WAKE);
    answered
}

/// Damages a trace in one way and says which.
fn damage(rng: &mut Rng, trace: &mut Vec<u8>, starts: &[usize]) -> &'static str {
    if trace.is_empty() {
        return "empty";
    }
    if rng.chance(1, 2) { damage_bytes(rng, trace) } else { damage_records(rng, trace, starts) }
}

/// Bytes cut off, changed or added.
fn damage_bytes(rng: &mut Rng, trace: &mut Vec<u8>) -> &'static str {
    let byte = rng.index(trace.len());
    match rng.below(4) {
        0 => {
            trace.truncate(byte);
            "cut"
        }
        1 => {
            for _ in 0..rng.range(1, 3) {
                let byte = rng.index(trace.len());
                trace[byte] ^= 1 << rng.below(8);
            }
            "bits flipped"
        }
        2 => {
            trace[byte] = rng.word() as u8;
            "a byte changed"
        }
        _ => {
            trace.extend((0..rng.range(1, 9)).map(|_| rng.word() as u8));
            "bytes added"
        }
    }
}

/// A record left out, doubled or moved, or a kind that is none.
fn damage_records(rng: &mut Rng, trace: &mut Vec<u8>, starts: &[usize]) -> &'static str {
    let place = rng.index(starts.len());
    let start = starts[place];
    let end = starts.get(place + 1).copied().unwrap_or(trace.len());
    let record = trace[start..end].to_vec();
    match rng.below(5) {
        0 => {
            trace.insert(start, rng.pick(&[0, 23, 24, 127, 128, 129, 255]));
            "unknown kind"
        }
        1 => {
            trace.push(rng.pick(&[0, 23, 255]));
            "unknown kind at the end"
        }
        2 => {
            trace.drain(start..end);
            "a record left out"
        }
        3 => {
            trace.splice(start..start, record);
            "a record doubled"
        }
        _ => {
            trace.drain(start..end);
            trace.extend(record);
            "a record moved to the end"
        }
    }
}

/// Room enough, or an end at any distance from where the answers end; and the name of which.
fn capacity(rng: &mut Rng, needed: usize) -> (&'static str, usize) {
    let (name, room) = match rng.below(20) {
        0..=12 => ("ample", needed + rng.index(64)),
        13..=14 => ("just enough", needed),
        15..=17 => ("a little less", needed.saturating_sub(rng.index(64))),
        18 => ("anything less", rng.index(needed + 1)),
        _ => ("at most twelve bytes", rng.index(13)),
    };
    (name, room.min(LARGEST))
}
