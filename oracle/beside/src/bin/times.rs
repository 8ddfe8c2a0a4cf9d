//! Times the proved run beside the Rust: `times PASSES FILE` prints the tables and writes the plot; `times once` runs
//! every trace once on each side, inside calls of `counted`, for callgrind.

use std::hint::black_box as shown;
use std::io::{IsTerminal, stderr};
use std::process::ExitCode;
use std::time::Instant;

use beside::report::{Rows, beside, exit};
use beside::row::{ROOM, Row, Run, SIDES, count};
use oracle::subject;

/// A batch of runs has at least so many events, so that a reading of the clock is small beside it.
const BATCH: usize = 1000;
/// Batches of each trace in one pass over all rows.
const BATCHES: usize = 20;

/// How long one run of a trace takes, in nanoseconds, over a batch of them.
fn batch(run: Run, trace: &[u8], out: &mut [u8]) -> f64 {
    let runs = BATCH.div_ceil(count(trace).max(8));
    let start = Instant::now();
    for _ in 0..runs {
        shown(run(shown(trace), shown(&mut *out)));
    }
    start.elapsed().as_nanos() as f64 / runs as f64
}

/// For each row and side what an event took: the least of all batches. The sides take turns, and passes go over all rows,
/// so that other work on the machine meets each row alike.
fn least(rows: &Rows, passes: usize) -> Vec<[f64; 2]> {
    let mut out = vec![0; ROOM];
    let mut least = vec![[[f64::MAX; 2]; 2]; rows.all().count()];
    for pass in 1..=passes {
        for (row, least) in rows.all().zip(&mut least) {
            (0..BATCHES).for_each(|_| turn(row, least, &mut out));
        }
        if stderr().is_terminal() {
            eprint!("\rpass {pass} of {passes} {}", if pass == passes { "\n" } else { "" });
        }
    }
    rows.all().zip(least).map(|(row, least)| least.map(|times| row.each(times))).collect()
}

fn turn(row: &Row, least: &mut [[f64; 2]; 2], out: &mut [u8]) {
    for (run, least) in SIDES.into_iter().zip(least) {
        for (trace, least) in row.traces().into_iter().zip(least) {
            *least = least.min(batch(run, trace, out));
        }
    }
}

fn times(passes: &str, file: &str) -> Result<(), String> {
    let passes = passes.parse().map_err(|_| format!("{passes} is not a number"))?;
    let rows = Rows::checked()?;
    let subject = if subject::ARCHIVE { "the archive" } else { "the stand-in, the Rust behind the wrapper" };
    println!("The proved run is {subject}. A figure is the least of {} batches.", passes * BATCHES);
    let mut out = vec![0; ROOM];
    let empty = SIDES.map(|run| (0..passes * BATCHES).map(|_| batch(run, &[], &mut out)).fold(f64::MAX, f64::min));
    println!("A run of no events takes {:.1} ns and {:.1} ns.", empty[0], empty[1]);
    let found = least(&rows, passes);
    rows.print(" proved run, ns | Rust, ns | ratio | at most ", &found, |row, found| {
        let goal = row.goal.map(|goal| format!("{goal:.1}")).unwrap_or_default();
        format!("{} | {goal}", beside(found))
    });
    std::fs::write(file, rows.growth("ns", &found)).map_err(|e| format!("{file}: {e}"))
}

/// One run, between this function's beginning and its end.
#[inline(never)]
#[unsafe(no_mangle)]
extern "Rust" fn counted(run: Run, trace: &[u8], out: &mut [u8]) -> usize {
    shown(run(shown(trace), shown(out)))
}

/// Every trace on each side: once so that all is in its place, once counted.
fn once() -> Result<(), String> {
    let mut out = vec![0; ROOM];
    for row in Rows::default().all() {
        for run in SIDES {
            for trace in row.traces() {
                run(trace, &mut out);
                counted(run, trace, &mut out);
            }
        }
    }
    Ok(())
}

fn main() -> ExitCode {
    let args: Vec<String> = std::env::args().skip(1).collect();
    let args: Vec<&str> = args.iter().map(String::as_str).collect();
    let told = match args[..] {
        ["once"] => once(),
        [passes, file] => times(passes, file),
        _ => Err("usage: times PASSES FILE | times once".into()),
    };
    exit(told)
}
