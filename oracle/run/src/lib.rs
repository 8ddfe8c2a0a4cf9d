//! The trace run over the Rust at the commit: a whole trace in, its answers out.

pub mod answer;
pub mod event;
pub mod file;
pub mod form;
pub mod inspect;
pub mod machine;
pub mod replay;

use answer::{Answers, end};
use form::{RESERVED, Standing, number, standing};
use machine::Machine;

/// Runs a trace and writes its answers; gives the length written. Bytes past it stay as they were.
pub fn run(trace: &[u8], out: &mut [u8]) -> usize {
    run_on(Machine::new(false), trace, out)
}

/// The same, with what is kept beside the Rust compared with it after every event.
pub fn run_watched(trace: &[u8], out: &mut [u8]) -> usize {
    run_on(Machine::new(true), trace, out)
}

fn run_on(mut machine: Machine, trace: &[u8], out: &mut [u8]) -> usize {
    if out.len() < RESERVED {
        return 0;
    }
    let room = out.len() - RESERVED;
    let (mut at, mut written) = (0, 0);
    let mut answers = Answers::default();
    let status = loop {
        if trace.len() > form::LONGEST {
            break number::TOO_LONG;
        }
        let (kind, body) = match standing(&trace[at..]) {
            Standing::End => break 0,
            Standing::Unknown => break number::UNKNOWN_KIND,
            Standing::Cut => break number::CUT_SHORT,
            Standing::Record { kind, body } => (kind, body),
        };
        answers.0.clear();
        machine.answer(kind, body, &mut answers);
        let length = answers.0.len();
        if room - written < length {
            break number::NO_ROOM; // the tables are dropped with this event in them: it shows nowhere
        }
        out[written..written + length].copy_from_slice(&answers.0);
        written += length;
        at += 1 + body.len();
    };
    out[written..written + RESERVED].copy_from_slice(&end(status, at));
    written + RESERVED
}
