//! The oracle's commands. `oracle` alone says what they are.

use std::fs;
use std::io::{Read, Write};
use std::path::Path;
use std::process::ExitCode;
use std::time::Instant;

use oracle::case::{self, Case, Size};
use oracle::compare::{self, Pair};
use oracle::file::{self, Answered};
use oracle::scale::{self, Wanted};
use oracle::{exhaustive, selftest, stats, stored, subject, variants, words};

const HELP: &str = "\
oracle run CAPACITY           the answers to the trace on standard input, as raw bytes
oracle gen SEED N DIR         N cases from SEED on, with the Rust's answers, into case files in DIR
oracle stats DIR              counts over the case files of DIR
oracle show FILE [PLACE]      a case file's cases in words, or one of them
oracle replay DIR             the case files of DIR run again on the Rust as it is built
oracle compare SEED N         N generated cases: the Rust against the C function, every byte
oracle compare scale [N [SEED]]  generated cases until N events (100000000) were compared, in JOBS jobs (1), with counts
oracle compare DIR            the same over case files
oracle compare short          the same over every trace of up to two bytes
oracle compare sequences N    the same over every sequence of N out of 23 events
oracle stored make DIR        the stored set, made from its seed and the Rust
oracle stored check DIR       the stored set made again and compared with DIR
oracle selftest               the worked example, the nine stories, and the comparison's own tests
oracle variants LIST DIR      each one-edit variant of LIST built and run on the case files of DIR (in oracle/)";

type Told = Result<String, String>;

fn number(text: &str) -> Result<u64, String> {
    text.parse().map_err(|_| format!("{text} is not a number"))
}

fn run_once(capacity: &str) -> Told {
    let mut trace = Vec::new();
    std::io::stdin().read_to_end(&mut trace).map_err(|e| e.to_string())?;
    let mut out = vec![0; number(capacity)? as usize];
    let length = run::run(&trace, &mut out);
    std::io::stdout().write_all(&out[..length]).map_err(|e| e.to_string())?;
    Ok(String::new())
}

/// Cases of seeds one after the other, a file for as many as fit its limit.
fn generate(seed: u64, cases: u64, dir: &Path) -> Told {
    fs::create_dir_all(dir).map_err(|e| e.to_string())?;
    let (mut batch, mut size, mut files) = (Vec::new(), 0, 0);
    let mut flush = |batch: &mut Vec<Answered>| {
        let name = dir.join(format!("{files:05}.bin"));
        files += 1;
        let written = fs::write(name, file::write(batch)).map_err(|e| e.to_string());
        batch.clear();
        written
    };
    for seed in seed..seed + cases {
        let answered = stored::answered(case::of_seed(seed, Size::Any, true));
        size += answered.case.trace.len() + answered.answers.len() + 12;
        if size > file::LIMIT - 12 && !batch.is_empty() {
            flush(&mut batch)?;
            size = answered.case.trace.len() + answered.answers.len() + 12;
        }
        batch.push(answered);
    }
    flush(&mut batch)?;
    Ok(format!("{cases} cases in {files} files"))
}

fn stats(dir: &Path) -> Told {
    let mut stats = stats::Stats::default();
    file::read_all(dir)?.iter().for_each(|answered| stats.add(answered));
    Ok(stats.text())
}

fn show(path: &str, place: Option<usize>) -> Told {
    let mut text = String::new();
    for (number, Answered { case, answers }) in file::read_file(Path::new(path))?.iter().enumerate() {
        if place.is_none_or(|place| place == number) {
            let told = words::dialogue(&case.trace, answers);
            text += &format!("== {}, {} bytes of room\n{told}\n", case.what, case.capacity);
        }
    }
    Ok(text)
}

/// Compares cases one by one; the first that differs is cut down and told.
fn compare(cases: impl Iterator<Item = Case>) -> Told {
    let start = Instant::now();
    let mut told = start;
    let mut pair = Pair::default();
    let (mut count, mut events) = (0u64, 0u64);
    for case in cases {
        if !pair.agree(case.capacity, &case.trace, &subject::archive) {
            let small = compare::shrink(&case, &subject::archive);
            return Err(format!("DIFFERENT after {count} cases\n{}", compare::explain(&small, &subject::archive)));
        }
        count += 1;
        events += pair.events(&case.trace);
        if told.elapsed().as_secs() >= 10 {
            told = Instant::now();
            eprintln!("{count} cases, {events} events: the same so far ({})", case.what);
        }
    }
    let seconds = start.elapsed().as_secs_f64();
    let rate = events as f64 / seconds * 60.0 / 1e6;
    let against = if subject::ARCHIVE { "the archive" } else { "the stand-in" };
    Ok(format!(
        "{count} cases, {events} events, 0 different from {against}; {seconds:.1} s, {rate:.1} million events a minute"
    ))
}

fn seeded(seed: u64, cases: u64) -> impl Iterator<Item = Case> {
    (seed..seed + cases).map(|seed| {
        let mut case = case::of_seed(seed, Size::Any, false);
        case.what = format!("seed {seed}: {}", case.what);
        case
    })
}

/// The comparison at scale. The number of jobs is from outside, since it changes nothing that is told.
fn scale(events: &str, seed: &str) -> Told {
    let jobs = std::env::var("JOBS").unwrap_or("1".into());
    let (events, seed, jobs) = (number(events)?, number(seed)?, number(&jobs)? as usize);
    scale::all(Wanted { events, seed, jobs })
}

fn command(args: &[&str]) -> Told {
    match args {
        ["run", capacity] => run_once(capacity),
        ["gen", seed, cases, dir] => generate(number(seed)?, number(cases)?, Path::new(dir)),
        ["stats", dir] => stats(Path::new(dir)),
        ["show", file] => show(file, None),
        ["show", file, place] => show(file, Some(number(place)? as usize)),
        ["replay", dir] => run::replay::all(Path::new(dir)),
        ["compare", "scale"] => scale("100000000", "1"),
        ["compare", "scale", events] => scale(events, "1"),
        ["compare", "scale", events, seed] => scale(events, seed),
        ["compare", "short"] => compare(exhaustive::short()),
        ["compare", "sequences", length] => compare(exhaustive::sequences(number(length)? as u32)),
        ["compare", dir] => compare(file::read_all(Path::new(dir))?.into_iter().map(|answered| answered.case)),
        ["compare", seed, cases] => compare(seeded(number(seed)?, number(cases)?)),
        ["stored", "make", dir] => stored::make(Path::new(dir)),
        ["stored", "check", dir] => stored::check(Path::new(dir)),
        ["selftest"] => selftest::all(),
        ["variants", list, dir] => variants::all(list, Path::new(dir)),
        _ => Err(HELP.into()),
    }
}

fn main() -> ExitCode {
    let args: Vec<String> = std::env::args().skip(1).collect();
    let args: Vec<&str> = args.iter().map(String::as_str).collect();
    match command(&args) {
        Ok(told) => {
            if !told.is_empty() {
                println!("{}", told.trim_end());
            }
            ExitCode::SUCCESS
        }
        Err(told) => {
            eprintln!("{told}");
            ExitCode::FAILURE
        }
    }
}
