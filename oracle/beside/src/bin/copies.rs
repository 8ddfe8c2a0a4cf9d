//! Counts that come out the same each time: `copies DIR FILE` takes the instructions that callgrind left in DIR (see
//! oracle/bench), counts the bytes that each side copies and how often it allocates, prints all and writes the plot.

use std::path::Path;
use std::process::ExitCode;
use std::sync::atomic::{AtomicU64, Ordering::Relaxed};

use beside::report::{Rows, beside, exit};
use beside::row::{ROOM, SIDES};

/// Bytes copied or set by calls of the C library's functions, and allocations.
static BYTES: AtomicU64 = AtomicU64::new(0);
static ALLOCATIONS: AtomicU64 = AtomicU64::new(0);

unsafe extern "C" {
    fn __real_memcpy(to: *mut u8, from: *const u8, length: usize) -> *mut u8;
    fn __real_memmove(to: *mut u8, from: *const u8, length: usize) -> *mut u8;
    fn __real_memset(to: *mut u8, byte: i32, length: usize) -> *mut u8;
    fn __real_malloc(size: usize) -> *mut u8;
    fn __real_calloc(count: usize, size: usize) -> *mut u8;
    fn __real_realloc(block: *mut u8, size: usize) -> *mut u8;
    fn malloc_usable_size(block: *mut u8) -> usize;
}

// The linker sends every call of these functions here (build.rs), from Rust and from the archive.

#[unsafe(no_mangle)]
unsafe extern "C" fn __wrap_memcpy(to: *mut u8, from: *const u8, length: usize) -> *mut u8 {
    BYTES.fetch_add(length as u64, Relaxed);
    // SAFETY: as promised by the caller, here and below.
    unsafe { __real_memcpy(to, from, length) }
}

#[unsafe(no_mangle)]
unsafe extern "C" fn __wrap_memmove(to: *mut u8, from: *const u8, length: usize) -> *mut u8 {
    BYTES.fetch_add(length as u64, Relaxed);
    unsafe { __real_memmove(to, from, length) }
}

#[unsafe(no_mangle)]
unsafe extern "C" fn __wrap_memset(to: *mut u8, byte: i32, length: usize) -> *mut u8 {
    BYTES.fetch_add(length as u64, Relaxed);
    unsafe { __real_memset(to, byte, length) }
}

#[unsafe(no_mangle)]
unsafe extern "C" fn __wrap_malloc(size: usize) -> *mut u8 {
    ALLOCATIONS.fetch_add(1, Relaxed);
    unsafe { __real_malloc(size) }
}

#[unsafe(no_mangle)]
unsafe extern "C" fn __wrap_calloc(count: usize, size: usize) -> *mut u8 {
    ALLOCATIONS.fetch_add(1, Relaxed);
    unsafe { __real_calloc(count, size) }
}

/// What a block holds is moved inside the C library, out of the wrappers' sight.
#[unsafe(no_mangle)]
unsafe extern "C" fn __wrap_realloc(block: *mut u8, size: usize) -> *mut u8 {
    ALLOCATIONS.fetch_add(1, Relaxed);
    let held = unsafe { malloc_usable_size(block) };
    BYTES.fetch_add(held.min(size) as u64, Relaxed);
    unsafe { __real_realloc(block, size) }
}

/// What an event of a row costs each side.
struct Found {
    instructions: [f64; 2],
    bytes: [f64; 2],
    allocations: [f64; 2],
}

/// The instructions of one counted run: callgrind numbers its dumps from 1 on.
fn instructions(dir: &Path, number: usize) -> Result<f64, String> {
    let file = dir.join(format!("out.{number}"));
    let text = std::fs::read_to_string(&file).map_err(|e| format!("{}: {e}", file.display()))?;
    let line = text.lines().find_map(|line| line.strip_prefix("summary: "));
    let count = line.and_then(|line| line.trim().parse().ok());
    count.ok_or_else(|| format!("{}: no summary of callgrind", file.display()))
}

/// Every row, in the order in which `times once` ran them: by side, then what stands before the events, then the whole.
fn found(rows: &Rows, dir: &Path) -> Result<Vec<Found>, String> {
    let mut out = vec![0; ROOM];
    let (mut all, mut number) = (Vec::new(), 0);
    for row in rows.all() {
        let mut counts = [[[0.0; 2]; 2]; 3];
        for (side, run) in SIDES.into_iter().enumerate() {
            for (which, trace) in row.traces().into_iter().enumerate() {
                number += 1;
                counts[0][side][which] = instructions(dir, number)?;
                let before = [&BYTES, &ALLOCATIONS].map(|count| count.load(Relaxed));
                run(trace, &mut out);
                counts[1][side][which] = (BYTES.load(Relaxed) - before[0]) as f64;
                counts[2][side][which] = (ALLOCATIONS.load(Relaxed) - before[1]) as f64;
            }
        }
        let [instructions, bytes, allocations] = counts.map(|sides| sides.map(|amounts| row.each(amounts)));
        all.push(Found { instructions, bytes, allocations });
    }
    Ok(all)
}

fn copies(dir: &str, file: &str) -> Result<(), String> {
    let rows = Rows::checked()?;
    let all = found(&rows, Path::new(dir))?;
    let columns =
        " instructions: proved run | Rust | ratio | bytes copied: proved run | Rust | allocations: proved run | Rust ";
    rows.print(columns, &all, |_, found| {
        let Found { instructions, bytes: [ours, theirs], allocations: [made, their] } = found;
        format!("{} | {ours:.0} | {theirs:.0} | {made:.1} | {their:.1}", beside(instructions))
    });
    let instructions: Vec<[f64; 2]> = all.iter().map(|found| found.instructions).collect();
    std::fs::write(file, rows.growth("instructions", &instructions)).map_err(|e| format!("{file}: {e}"))
}

fn main() -> ExitCode {
    let args: Vec<String> = std::env::args().skip(1).collect();
    let told = match &args[..] {
        [dir, file] => copies(dir, file),
        _ => Err("usage: copies DIR FILE".into()),
    };
    exit(told)
}
