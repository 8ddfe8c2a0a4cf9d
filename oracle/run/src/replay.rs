//! Stored cases run again on the Rust as it is built here, and which of them differ.

use std::path::Path;

use crate::file::{Answered, Case, read_all};

/// Whether a case is answered as it was; an error where the run panics.
fn same(Answered { case: Case { capacity, trace, .. }, answers }: &Answered) -> Result<bool, &'static str> {
    let again = || {
        let mut out = vec![0; *capacity];
        let length = crate::run(trace, &mut out);
        out[..length] == answers[..]
    };
    std::panic::catch_unwind(again).map_err(|_| "panics")
}

/// Runs every case of a folder and says which differ. A panic counts as a difference.
pub fn all(dir: &Path) -> Result<String, String> {
    std::panic::set_hook(Box::new(|_| {}));
    let cases = read_all(dir)?;
    let mut other = Vec::new();
    for answered in &cases {
        match same(answered) {
            Ok(true) => {}
            Ok(false) => other.push(format!("{} differs", answered.case.what)),
            Err(panics) => other.push(format!("{} {panics}", answered.case.what)),
        }
    }
    // An answer that differs says more than a panic does.
    let first = other.iter().find(|told| told.ends_with("differs")).or(other.first());
    match first {
        None => Ok(format!("{} cases agree", cases.len())),
        Some(first) => Err(format!("{} of {} cases: {first}", other.len(), cases.len())),
    }
}
