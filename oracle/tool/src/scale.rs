//! The comparison at scale: generated cases until so many events were compared, on as many cores as are asked for.

use std::collections::BTreeMap;
use std::io::{IsTerminal, stderr};
use std::sync::Mutex;
use std::sync::atomic::{AtomicBool, AtomicU64, Ordering::Relaxed};
use std::thread;
use std::time::{Duration, Instant};

use crate::case::{self, Case, Size};
use crate::compare::{self, Pair};
use crate::subject;
use crate::tally::Tally;

/// Seeds are handed out in blocks. Blocks are counted in their order, so that a run tells the same for any number of jobs.
const BLOCK: u64 = 500;
/// What a main thread has; the proved run's tables lie on the stack.
const STACK: usize = 8 << 20;

/// A run that is compared with the Rust.
pub type Run = fn(&[u8], &mut [u8]) -> usize;

/// What is asked for: at least so many events, from a seed on.
#[derive(Clone, Copy)]
pub struct Wanted {
    pub events: u64,
    pub seed: u64,
    pub jobs: usize,
}

/// Blocks that are done: those counted, and those that came before their turn.
#[derive(Default)]
struct Done {
    tally: Tally,
    next: u64,
    early: BTreeMap<u64, Tally>,
    different: Option<Case>,
}

struct Scale {
    wanted: Wanted,
    run: Run,
    block: AtomicU64,
    over: AtomicBool,
    done: Mutex<Done>,
}

impl Scale {
    fn work(&self) {
        while !self.over.load(Relaxed) {
            let block = self.block.fetch_add(1, Relaxed);
            let found = self.compare(block);
            let mut done = self.done.lock().expect("no job panics");
            match found {
                Ok(tally) => _ = done.early.insert(block, tally),
                Err(case) => done.different = Some(case),
            }
            self.count(&mut done);
        }
    }

    /// Compares the cases of one block; gives what they were, or the first that differs.
    fn compare(&self, block: u64) -> Result<Tally, Case> {
        let mut tally = Tally::default();
        let mut pair = Pair::default();
        let first = self.wanted.seed + block * BLOCK;
        for seed in first..first + BLOCK {
            let mut drawn = case::drawn(seed, Size::Any, false);
            if !pair.agree(drawn.case.capacity, &drawn.case.trace, &self.run) {
                drawn.case.what = format!("seed {seed}: {}", drawn.case.what);
                return Err(drawn.case);
            }
            tally.add(&drawn, pair.room(), pair.answers().0);
        }
        Ok(tally)
    }

    /// Counts blocks whose turn it is, up to the one that reaches the goal.
    fn count(&self, done: &mut Done) {
        while done.tally.events() < self.wanted.events {
            let next = done.next;
            let Some(tally) = done.early.remove(&next) else { break };
            done.tally.merge(&tally);
            done.next += 1;
        }
        if done.different.is_some() || done.tally.events() >= self.wanted.events {
            self.over.store(true, Relaxed);
        }
    }

    /// Tells how far it is: on a terminal in one line, else now and then.
    fn watch(&self, start: Instant) {
        let terminal = stderr().is_terminal();
        let mut told = start;
        while !self.over.load(Relaxed) {
            thread::sleep(Duration::from_millis(50));
            if told.elapsed() < Duration::from_secs(if terminal { 1 } else { 60 }) {
                continue;
            }
            told = Instant::now();
            let events = self.done.lock().expect("no job panics").tally.events();
            let (part, seconds) = (events as f64 / self.wanted.events as f64, start.elapsed().as_secs_f64());
            let left = seconds / part.max(1e-9) - seconds;
            let line = format!("{events} events the same so far, {:.0} %, about {left:.0} s left", part * 100.0);
            if terminal { eprint!("\r{line}   ") } else { eprintln!("{line}") }
        }
        if terminal {
            eprintln!();
        }
    }
}

/// Compares and gives what was met, or the first difference found, cut down and in words.
pub fn met(wanted: Wanted, run: Run) -> Result<Tally, String> {
    let (block, over, done) = Default::default();
    let scale = Scale { wanted, run, block, over, done };
    let start = Instant::now();
    thread::scope(|scope| {
        for _ in 0..wanted.jobs.max(1) {
            let job = thread::Builder::new().stack_size(STACK).spawn_scoped(scope, || scale.work());
            job.expect("a thread for each job");
        }
        scale.watch(start);
    });
    let done = scale.done.into_inner().expect("no job panics");
    let Some(case) = done.different else { return Ok(done.tally) };
    let small = compare::shrink(&case, &run);
    Err(format!("DIFFERENT after {} cases\n{}", done.tally.cases(), compare::explain(&small, &run)))
}

/// The whole comparison, told.
pub fn all(wanted: Wanted) -> Result<String, String> {
    let start = Instant::now();
    let tally = met(wanted, subject::archive)?;
    let seconds = start.elapsed().as_secs_f64();
    let against = if subject::ARCHIVE { "the archive" } else { "the stand-in" };
    let (cases, events, jobs) = (tally.cases(), tally.events(), wanted.jobs);
    let last = wanted.seed + cases - 1;
    Ok(format!(
        "{cases} cases (seeds {} to {last}), {events} events, 0 different from {against}\n\
         {seconds:.1} s in {jobs} jobs, {:.2} million events a second\n{}",
        wanted.seed,
        events as f64 / seconds / 1e6,
        tally.text()
    ))
}
