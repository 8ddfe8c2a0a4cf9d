//! The stored set: made again from the seed and the Rust, and checked byte for byte.

use std::fs;
use std::path::Path;

use given::sends::TxPriority;
use run::form::{LONGEST, RESERVED, event};

use crate::case::{self, Case, LARGEST, Size};
use crate::file::{self, Answered};
use crate::make::Bytes;
use crate::script::{Script, key};
use crate::stats::Stats;
use crate::{directed, forms, known};

#[path = "../../given/sha256.rs"]
mod sha256;

/// The seed of the first generated case; the others follow one by one.
pub const SEED: u64 = 20_261_104;
/// The largest output that a stored case asks for.
const ROOM: usize = 4096;
const SMALL: u64 = 260;
const MEDIUM: u64 = 24;

/// Runs a case on the Rust, watched, into an output of its capacity.
pub fn answered(case: Case) -> Answered {
    answered_by(run::run_watched, case)
}

/// The same, unwatched.
pub fn answered_plainly(case: Case) -> Answered {
    answered_by(run::run, case)
}

fn answered_by(run: fn(&[u8], &mut [u8]) -> usize, case: Case) -> Answered {
    let mut out = vec![0; case.capacity];
    let length = run(&case.trace, &mut out);
    out.truncate(length);
    Answered { case, answers: out }
}

/// In ample room: as much as the answers need, and a little more.
fn ample(what: String, trace: Vec<u8>) -> Answered {
    let mut whole = answered(Case { what, capacity: LARGEST, trace });
    whole.case.capacity = whole.answers.len() + 10;
    whole
}

fn given() -> Vec<Answered> {
    let mut all: Vec<Answered> = known::all().into_iter().map(|known| ample(known.name.into(), known.trace)).collect();
    all.extend(directed::all().into_iter().map(|(name, script)| ample(name.into(), script.bytes.0)));
    all
}

/// A trace whose answers differ much in length, for outputs that end anywhere in them.
fn varied() -> Vec<u8> {
    let script = Script::new().acked(0, key(1), 50).dequeue(0).sent(0, 0).lists().cancel(7).ack(key(1)).wake();
    script.bytes.0
}

/// Outputs of every size up to one byte more than the answers need.
fn rooms() -> Vec<Answered> {
    let needed = ample(String::new(), varied()).answers.len();
    let room = |capacity| answered(Case { what: format!("an output of {capacity} bytes"), capacity, trace: varied() });
    let mut all: Vec<Answered> = (0..=needed + 1).map(room).collect();
    for capacity in [5, 6, 7, 8] {
        for (name, trace) in [("an empty trace", vec![]), ("an unknown kind", vec![0]), ("a cut record", vec![6])] {
            all.push(answered(Case { what: format!("{name} into {capacity} bytes"), capacity, trace }));
        }
    }
    all
}

/// Short traces of all flavours, and some that are longer.
fn mixed() -> Vec<Answered> {
    let small = (0..SMALL).map(|n| case::of_seed(SEED + n, Size::Small, true));
    let medium = (0..MEDIUM).map(|n| case::of_flavour(SEED + SMALL + n, n as usize, 60, true));
    small.chain(medium).map(answered).collect()
}

fn full() -> Vec<Answered> {
    directed::full().into_iter().map(|(name, script)| ample(name.into(), script.bytes.0)).collect()
}

/// Traces at the longest length and past it. Routes of nothing fill them: long records with short answers.
fn long() -> Vec<Answered> {
    let mut route = Bytes::default();
    route.route(0, 4, 0, &[]);
    let trace = |length: usize| {
        let mut bytes = route.0.repeat(length / route.0.len());
        bytes.resize(length, event::NEXT_WAKE);
        bytes
    };
    let mut all = vec![ample("the longest trace".into(), trace(LONGEST))];
    let past = Case { what: "a byte more than the longest".into(), capacity: RESERVED, trace: trace(LONGEST + 1) };
    all.push(answered(past));
    all
}

/// Each file's name, what it is about, and its cases.
fn sets() -> Vec<(&'static str, Vec<Answered>)> {
    let forms = forms::all().into_iter().map(|(name, trace)| ample(name, trace)).collect();
    vec![
        ("1-rules.bin", given()),
        ("2-forms.bin", forms),
        ("3-rooms.bin", rooms()),
        ("4-mixed.bin", mixed()),
        ("5-full.bin", full()),
        ("6-long.bin", long()),
    ]
}

/// The Rust's priority of every number that a host may hand in, the number taken as a byte.
fn from_host() -> Vec<u8> {
    (0..=255u8).map(|byte| TxPriority::from_host(byte as i8) as u8).collect()
}

/// One case file's part of the index.
fn index(name: &str, cases: &[Answered], size: usize) -> String {
    let mut text = format!("\n{name}: {} cases, {size} bytes\n", cases.len());
    for (place, Answered { case, answers }) in cases.iter().enumerate() {
        let lengths = format!("{:5} {:5} {:7}", case.trace.len(), answers.len(), case.capacity);
        text += &format!("{place:4} {lengths}: {}\n", case.what);
    }
    text
}

/// How the set was made: command, seed, the hashes of the Rust and of the files, and the counts.
fn made(files: &[(String, Vec<u8>)], stats: &Stats) -> String {
    let mut text =
        String::from("# How the stored set was made, and what is in it. Written by `oracle stored make`.\n\n");
    text += "command: oracle/target/release/oracle stored make stored\n";
    text +=
        &format!("seed of the first generated case: {SEED}; {SMALL} short ones and {MEDIUM} of 60 events follow it\n");
    text += "\nSHA-256 of the Rust that answered (zigpy/ziggurat f917f9898a)\n";
    text += include_str!("../../SOURCES.sha256");
    text += "\nSHA-256 of the files\n";
    for (name, bytes) in files {
        text += &format!("{}  {name}\n", sha256::hex(bytes));
    }
    format!("{text}\n{}", stats.text())
}

/// Every file of the folder: its name and its bytes.
fn files() -> Vec<(String, Vec<u8>)> {
    let mut files = Vec::new();
    let mut names = String::from(
        "# What each stored case is: its place, the lengths of trace and answers, the capacity, its name.\n",
    );
    let mut stats = Stats::default();
    for (name, cases) in sets() {
        let bytes = file::write(&cases);
        assert!(bytes.len() <= file::LIMIT, "{name} is too large a file");
        assert!(cases.iter().all(|answered| answered.case.capacity <= ROOM), "{name} asks for a larger output");
        names += &index(name, &cases, bytes.len());
        cases.iter().for_each(|case| stats.add(case));
        files.push((name.to_string(), bytes));
    }
    let (rarest, count) = stats.least();
    assert!(count > 0, "no stored case has {rarest}");
    files.push(("from-host.raw".into(), from_host()));
    let made = made(&files, &stats);
    files.push((file::INDEX.into(), names.into()));
    files.push(("MADE.txt".into(), made.into()));
    files
}

/// Writes the set.
pub fn make(dir: &Path) -> Result<String, String> {
    if given::EDITED {
        return Err("an edited copy of the Rust answers nothing that is stored".into());
    }
    fs::create_dir_all(dir).map_err(|e| format!("{}: {e}", dir.display()))?;
    let files = files();
    for (name, bytes) in &files {
        fs::write(dir.join(name), bytes).map_err(|e| format!("{name}: {e}"))?;
    }
    Ok(format!("{} files written", files.len()))
}

/// Makes the set again and compares it with what is stored.
pub fn check(dir: &Path) -> Result<String, String> {
    for (name, bytes) in files() {
        let stored = fs::read(dir.join(&name)).map_err(|e| format!("{name}: {e}"))?;
        if stored != bytes {
            return Err(format!("{name} is not what the seed and the Rust give"));
        }
    }
    let cases = file::read_all(dir)?;
    Ok(format!("{} stored cases are what the seed and the Rust give, byte for byte", cases.len()))
}
