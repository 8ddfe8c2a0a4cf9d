//! The proved run beside the Rust at the commit: the traces, both sides, and what was found printed as tables and a plot.

pub mod kinds;
pub mod lean;
pub mod mixed;
pub mod plot;
pub mod read;
pub mod report;
pub mod row;
pub mod write;
