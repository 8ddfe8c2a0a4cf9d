//! The comparison: the Rust and a subject answer the same case, and every byte of both outputs must be the same.

use run::form::{Standing, standing};

use crate::case::Case;
use crate::words;

/// Something that runs a trace as the C function does.
pub type Subject<'a> = &'a dyn Fn(&[u8], &mut [u8]) -> usize;

/// Bytes that lie before and after each output and belong to nobody.
const GUARD: usize = 64;

/// Both outputs of one case between their guards, with the lengths returned. Past a length stands what was there before.
#[derive(Default)]
pub struct Pair {
    judge: Vec<u8>,
    subject: Vec<u8>,
    lengths: (usize, usize),
}

/// What the outputs hold beforehand: no byte equals its neighbours, so that a stray write shows.
fn pattern(length: usize) -> Vec<u8> {
    (0..length).map(|place| (place as u8).wrapping_mul(37).wrapping_add(0xA5)).collect()
}

impl Pair {
    /// Runs both and says whether they agree in length and in every byte, those past the length and the guards included.
    pub fn agree(&mut self, capacity: usize, trace: &[u8], subject: Subject) -> bool {
        let fresh = pattern(capacity + 2 * GUARD);
        self.judge.clone_from(&fresh);
        self.subject.clone_from(&fresh);
        let output = GUARD..GUARD + capacity;
        self.lengths = (run::run(trace, &mut self.judge[output.clone()]), subject(trace, &mut self.subject[output]));
        let written = GUARD + self.lengths.0;
        assert!(self.judge[written..] == fresh[written..], "the judge wrote past its length");
        self.lengths.0 == self.lengths.1 && self.judge == self.subject
    }

    /// How large each output is with its guards.
    pub fn room(&self) -> usize {
        self.judge.len()
    }

    /// What the judge wrote, and what the subject says that it wrote.
    pub fn answers(&self) -> (&[u8], &[u8]) {
        let (judge, subject) = self.lengths;
        let most = self.subject.len() - 2 * GUARD;
        (&self.judge[GUARD..GUARD + judge], &self.subject[GUARD..GUARD + subject.min(most)])
    }

    /// The first byte past both lengths that differs, counted from the output's start. A guard before it is below 0.
    fn stray(&self) -> Option<i64> {
        let written = GUARD..GUARD + self.lengths.0.max(self.lengths.1);
        let differs = |place: &usize| !written.contains(place) && self.judge[*place] != self.subject[*place];
        (0..self.judge.len()).find(differs).map(|place| place as i64 - GUARD as i64)
    }

    /// How many events the judge answered.
    pub fn events(&self, trace: &[u8]) -> u64 {
        let Some(consumed) = self.answers().0.last_chunk() else { return 0 };
        let mut rest = &trace[..u32::from_le_bytes(*consumed) as usize];
        let mut events = 0;
        while let Standing::Record { body, .. } = standing(rest) {
            rest = &rest[1 + body.len()..];
            events += 1;
        }
        events
    }
}

/// The smallest case found that still differs: records left out, room made ample, bytes set to zero.
pub fn shrink(case: &Case, subject: Subject) -> Case {
    let mut pair = Pair::default();
    let mut differs = |capacity: usize, pieces: &[Vec<u8>]| !pair.agree(capacity, &pieces.concat(), subject);
    let mut pieces = pieces(&case.trace);
    let mut capacity = case.capacity;
    let ample = 1 << 16;
    if differs(ample, &pieces) {
        capacity = ample;
    }
    fewer(&mut pieces, &mut |pieces| differs(capacity, pieces));
    plainer(&mut pieces, &mut |pieces| differs(capacity, pieces));
    Case { what: format!("{}, cut down", case.what), capacity, trace: pieces.concat() }
}

/// The records of a trace, and what is no record as a last piece.
fn pieces(trace: &[u8]) -> Vec<Vec<u8>> {
    let mut rest = trace;
    let mut pieces = Vec::new();
    while let Standing::Record { body, .. } = standing(rest) {
        let (record, after) = rest.split_at(1 + body.len());
        pieces.push(record.to_vec());
        rest = after;
    }
    if !rest.is_empty() {
        pieces.push(rest.to_vec());
    }
    pieces
}

/// Leaves out stretches of records, halves first and single ones last, as long as the difference stays.
fn fewer(pieces: &mut Vec<Vec<u8>>, differs: &mut dyn FnMut(&[Vec<u8>]) -> bool) {
    let mut stretch = pieces.len().max(1);
    loop {
        let mut start = 0;
        while start < pieces.len() {
            let end = (start + stretch).min(pieces.len());
            let mut without = pieces.clone();
            without.drain(start..end);
            if differs(&without) {
                *pieces = without;
            } else {
                start = end;
            }
        }
        if stretch == 1 {
            return;
        }
        stretch = stretch.div_ceil(2);
    }
}

/// Sets bytes of bodies to zero where the difference stays.
fn plainer(pieces: &mut [Vec<u8>], differs: &mut dyn FnMut(&[Vec<u8>]) -> bool) {
    if pieces.len() > 64 {
        return;
    }
    for record in 0..pieces.len() {
        for byte in 1..pieces[record].len() {
            let kept = std::mem::take(&mut pieces[record][byte]);
            if kept != 0 && !differs(pieces) {
                pieces[record][byte] = kept;
            }
        }
    }
}

/// A case that differs, in words: its records, both answers where they part, and a byte that nobody was to change.
pub fn explain(case: &Case, subject: Subject) -> String {
    let mut pair = Pair::default();
    pair.agree(case.capacity, &case.trace, subject);
    let mut text = format!("{}: {} bytes into {}\n", case.what, case.trace.len(), case.capacity);
    for line in words::trace(&case.trace) {
        text += &format!("    {line}\n");
    }
    let (ours, theirs) = pair.answers();
    let (ours, theirs) = (words::answers(ours), words::answers(theirs));
    let same = ours.iter().zip(&theirs).take_while(|(a, b)| a == b).count();
    let (judge, other) = pair.lengths;
    text += &format!("  the first {same} answers are the same; lengths {judge} and {other}\n");
    for (name, lines) in [("the Rust", &ours), ("the C function", &theirs)] {
        text += &format!("  then {name}:\n");
        for line in lines.iter().skip(same).take(12) {
            text += &format!("    {line}\n");
        }
    }
    if let Some(place) = pair.stray() {
        text += &format!("  byte {place} of the output's place, outside what was written, was changed\n");
    }
    text
}
