//! The oracle's own tests: the worked example, the nine stories, and that the comparison sees what it must see.

use run::form::RESERVED;

use crate::case::{self, Case, Size};
use crate::compare::{self, Pair, Subject};
use crate::flavour::FLAVOURS;
use crate::scale::{self, Wanted};
use crate::stats::Stats;
use crate::{known, panics, stored, subject, words};

type Told = Result<String, String>;

/// The traces whose answers were worked out by hand.
fn known_answers() -> Told {
    let all = known::all();
    for known in &all {
        let mut out = vec![0xA5; 4096];
        let length = run::run_watched(&known.trace, &mut out);
        if out[..length] != known.answers || out[length..].iter().any(|byte| *byte != 0xA5) {
            let got = words::dialogue(&known.trace, &out[..length]);
            let wanted = words::answers(&known.answers).join("\n");
            return Err(format!("{}\n{got}\nwanted\n{wanted}", known.name));
        }
    }
    Ok(format!("{} traces answered as worked out by hand", all.len()))
}

/// The judge against itself through C.
fn agrees() -> Told {
    let mut pair = Pair::default();
    for seed in 0..300 {
        let case = case::of_seed(seed, Size::Any, true);
        if !pair.agree(case.capacity, &case.trace, &subject::archive) {
            return Err(format!("seed {seed} differs\n{}", compare::explain(&case, &subject::archive)));
        }
    }
    Ok("300 generated cases agree through C".into())
}

/// Writes a byte past the length, where there is room.
fn stray(trace: &[u8], out: &mut [u8]) -> usize {
    let length = run::run(trace, out);
    if let Some(last) = out[length..].last_mut() {
        *last ^= 1;
    }
    length
}

/// Invents the count of bytes consumed.
fn invented(trace: &[u8], out: &mut [u8]) -> usize {
    let length = run::run(trace, out);
    if length >= RESERVED {
        out[length - 4] ^= 1;
    }
    length
}

/// Applies the first record and says only done to the others.
fn only_done(trace: &[u8], out: &mut [u8]) -> usize {
    let mut whole = vec![0; 1 << 20];
    let length = run::run(trace, &mut whole);
    let answers = words::answers(&whole[..length]);
    let ends = answers.iter().filter(|line| line.starts_with("done") || line.starts_with("refused")).count();
    if ends < 2 || length > out.len() || answers.last().is_none_or(|line| !line.starts_with("end status=0")) {
        return run::run(trace, out);
    }
    let first = trace.len() - rest_of(trace).len();
    let head = run::run(&trace[..first], out) - RESERVED;
    out[head..head + ends - 1].fill(129);
    let end = head + ends - 1 + RESERVED;
    out[end - RESERVED..end].copy_from_slice(&whole[length - RESERVED..length]);
    end
}

fn rest_of(trace: &[u8]) -> &[u8] {
    match run::form::standing(trace) {
        run::form::Standing::Record { body, .. } => &trace[1 + body.len()..],
        _ => &[],
    }
}

/// A subject that is wrong is found among generated cases, and its case cut down to few records.
fn found(name: &str, subject: Subject) -> Result<(), String> {
    let mut pair = Pair::default();
    let wrong = |case: &Case| !pair.agree(case.capacity, &case.trace, subject);
    let mut cases = (0..500).map(|seed| case::of_seed(seed, Size::Any, false));
    let case = cases.find(wrong).ok_or_else(|| format!("{name} is not told apart"))?;
    let small = compare::shrink(&case, subject);
    let records = words::trace(&small.trace).len();
    if records > 3 || Pair::default().agree(small.capacity, &small.trace, subject) {
        return Err(format!("{name}: cut down to {records} records\n{}", compare::explain(&small, subject)));
    }
    Ok(())
}

fn finds_faults() -> Told {
    found("a byte past the length", &stray)?;
    found("an invented count", &invented)?;
    found("a run that only says done", &only_done)?;
    Ok("three wrong runs are found and cut down to three records or fewer".into())
}

/// Every event, answer, refusal, verdict and status that a trace can reach is met often by generated cases.
fn well_met() -> Told {
    let mut stats = Stats::default();
    let cases = (0..4000).map(|seed| case::of_seed(seed, Size::Any, false));
    cases.for_each(|case| stats.add(&stored::answered_plainly(case)));
    match stats.least() {
        (what, count) if count < 5 => Err(format!("{what} is met only {count} times")),
        (what, count) => Ok(format!("{} events; the rarest is {what}, met {count} times", stats.total())),
    }
}

/// At scale every class of cases is met, the number of jobs changes nothing that is told, and a wrong run is found.
fn at_scale() -> Told {
    let wanted = |jobs| Wanted { events: 500_000, seed: 1, jobs };
    let tally = scale::met(wanted(1), subject::archive)?;
    if tally != scale::met(wanted(3), subject::archive)? {
        return Err("three jobs tell another thing than one".into());
    }
    let flavours = FLAVOURS.len() + 2; // the clock that goes back, and what no maker made
    let (shapes, rooms, contents, statuses) = (15, 5, 4, 6);
    if tally.met() != (flavours + shapes + rooms + contents, statuses) {
        return Err(format!("at scale not every class is met\n{}", tally.text()));
    }
    match scale::met(wanted(2), stray) {
        Err(told) if told.starts_with("DIFFERENT") => {
            Ok(format!("{} events at scale, every class met", tally.events()))
        }
        _ => Err("at scale a byte past the length is not told apart".into()),
    }
}

pub fn all() -> Told {
    let told = [known_answers()?, agrees()?, finds_faults()?, well_met()?, at_scale()?, panics::all()?];
    Ok(told.join("\n"))
}
