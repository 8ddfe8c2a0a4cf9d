//! `replay DIR` runs the case files of DIR again. It is a program of its own so that one-edit variants are built fast.

use std::path::Path;
use std::process::ExitCode;

fn main() -> ExitCode {
    let Some(dir) = std::env::args().nth(1) else {
        eprintln!("usage: replay DIR");
        return ExitCode::FAILURE;
    };
    match run::replay::all(Path::new(&dir)) {
        Ok(told) => {
            println!("{told}");
            ExitCode::SUCCESS
        }
        Err(told) => {
            eprintln!("{told}");
            ExitCode::FAILURE
        }
    }
}
