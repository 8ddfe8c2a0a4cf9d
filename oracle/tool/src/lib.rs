//! What the oracle's commands are made of: generator, records, comparison, stored set, one-edit variants.

pub mod case;
pub mod compare;
#[rustfmt::skip]
pub mod directed;
pub mod exhaustive;
pub mod flavour;
pub mod forms;
pub mod r#gen;
pub mod known;
pub mod make;
pub mod panics;
pub mod rng;
pub mod scale;
pub mod script;
pub mod selftest;
pub mod stats;
pub mod stored;
pub mod subject;
pub mod tally;
pub mod variants;
pub mod words;

pub use run::file;
