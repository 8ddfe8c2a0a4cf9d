//! How much stack a run takes: `stack DIR` runs the case files of DIR and the mixed traces on a stack that was filled with
//! a pattern, and finds how far down the pattern is gone.

use std::ffi::c_void;
use std::hint::black_box as shown;
use std::path::Path;
use std::process::ExitCode;
use std::ptr;

use beside::mixed;
use beside::report::exit;
use beside::row::{ROOM, Run, SIDES};
use oracle::{file, subject};

/// The stack that a run gets, its alignment and the patterns that it is filled with, one run for each.
const STACK: usize = 1 << 20;
const PAGE: usize = 4096;
const PATTERNS: [u8; 2] = [0xA5, 0x5A];
const KNOWN: usize = 10_000;

/// An attribute object of the thread library: opaque, and not larger than this on any machine of 64 bits.
#[repr(C, align(16))]
struct Attributes([u8; 128]);

unsafe extern "C" {
    fn pthread_attr_init(attributes: *mut Attributes) -> i32;
    fn pthread_attr_setstack(attributes: *mut Attributes, stack: *mut c_void, size: usize) -> i32;
    fn pthread_attr_destroy(attributes: *mut Attributes) -> i32;
    fn pthread_create(
        thread: *mut usize,
        attributes: *const Attributes,
        start: extern "C" fn(*mut c_void) -> *mut c_void,
        argument: *mut c_void,
    ) -> i32;
    fn pthread_join(thread: usize, returned: *mut *mut c_void) -> i32;
}

/// What a thread is to do, and where its stack stood when it began.
struct Work<'a> {
    run: Run,
    trace: &'a [u8],
    out: &'a mut [u8],
    stood: usize,
}

extern "C" fn start(work: *mut c_void) -> *mut c_void {
    let here = 0u8;
    // SAFETY: the argument is the work that `taken` made, which waits for this thread to end.
    let work = unsafe { &mut *work.cast::<Work>() };
    work.stood = shown(&raw const here).addr();
    shown((work.run)(work.trace, work.out));
    ptr::null_mut()
}

/// A run that is known to touch so many bytes and few more.
fn known(_: &[u8], _: &mut [u8]) -> usize {
    shown(&mut [1u8; KNOWN]).len()
}

/// How many bytes below the place where a run is called are touched. The end of a thread touches some hundred bytes there
/// too, so that a run which takes less looks like one that takes these.
fn taken(stack: &mut [u8], pattern: u8, mut work: Work) -> usize {
    stack.fill(pattern);
    let mut attributes = Attributes([0; 128]);
    let mut thread = 0;
    // SAFETY: the stack and the work outlive the thread, which is joined here, and nobody else touches them meanwhile.
    let failed = unsafe {
        pthread_attr_init(&mut attributes)
            | pthread_attr_setstack(&mut attributes, stack.as_mut_ptr().cast(), stack.len())
            | pthread_create(&mut thread, &attributes, start, ptr::from_mut(&mut work).cast())
            | pthread_join(thread, ptr::null_mut())
            | pthread_attr_destroy(&mut attributes)
    };
    assert_eq!(failed, 0, "a thread on a stack of our own");
    let deepest = stack.iter().position(|byte| *byte != pattern).expect("a thread touches its stack");
    work.stood - stack.as_ptr().addr() - deepest
}

/// The most that a run takes over the traces, and the name of the first trace that takes so much.
fn most(run: Run, traces: &[(String, usize, Vec<u8>)]) -> (usize, String) {
    let mut room = vec![0; STACK + PAGE];
    let start = room.as_ptr().align_offset(PAGE);
    let stack = &mut room[start..start + STACK];
    let mut out = vec![0; ROOM];
    let mut most = (0, String::new());
    for pattern in PATTERNS {
        for (name, capacity, trace) in traces {
            let taken = taken(stack, pattern, Work { run, trace, out: &mut out[..*capacity], stood: 0 });
            if taken > most.0 {
                most = (taken, name.clone());
            }
        }
    }
    most
}

fn stack(dir: &Path) -> Result<(), String> {
    let cases = file::read_all(dir)?;
    let mut traces: Vec<_> = cases.into_iter().map(|a| (a.case.what, a.case.capacity, a.case.trace)).collect();
    traces.extend(mixed::all().into_iter().map(|row| (row.name, ROOM, row.whole)));
    let (found, _) = most(known, &[(String::new(), 0, Vec::new())]);
    if !(KNOWN..KNOWN + 256).contains(&found) {
        return Err(format!("a run that takes {KNOWN} bytes is found to take {found}"));
    }
    let subject = if subject::ARCHIVE { "the archive's" } else { "the stand-in's" };
    println!("Over {} traces of the stored set and mixed ones, each on a stack of its own:", traces.len());
    for (run, side) in [(SIDES[0], format!("{subject} sends_run")), (run::run, "the wrapper's run".into())] {
        let (bytes, name) = most(run, &traces);
        println!("{side} takes {bytes} bytes of stack at most, first in: {name}");
    }
    Ok(())
}

fn main() -> ExitCode {
    let args: Vec<String> = std::env::args().skip(1).collect();
    exit(match &args[..] {
        [dir] => stack(Path::new(dir)),
        _ => Err("usage: stack DIR".into()),
    })
}
