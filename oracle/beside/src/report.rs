//! All rows in the order of the tables, what was found for each printed as Markdown, and the plot.

use std::process::ExitCode;

use crate::plot::{Panel, svg};
use crate::row::{Row, SIDES};
use crate::{kinds, mixed};

/// Every row that is measured: those of the tables, and those of the growth from 1 live send to 32.
pub struct Rows {
    tables: Vec<(&'static str, Vec<Row>)>,
    growth: Vec<Row>,
}

impl Rows {
    /// The rows, after both sides were found to answer them alike.
    pub fn checked() -> Result<Self, String> {
        let rows = Self::default();
        rows.all().try_for_each(|row| row.check(&SIDES))?;
        Ok(rows)
    }

    pub fn all(&self) -> impl Iterator<Item = &Row> {
        self.tables.iter().flat_map(|(_, rows)| rows).chain(&self.growth)
    }

    /// Prints a table for each group of rows. `found` has something for each row, in their order.
    pub fn print<T>(&self, columns: &str, found: &[T], cells: impl Fn(&Row, &T) -> String) {
        let line = "---:|".repeat(columns.split('|').count());
        let mut found = found.iter();
        for (title, rows) in &self.tables {
            println!("\n| {title} | events |{columns}|\n|---|---:|{line}");
            for (row, found) in rows.iter().zip(&mut found) {
                println!("| {} | {} | {} |", row.name, row.events, cells(row, found));
            }
        }
    }

    /// Prints the growth at some numbers of live sends, and gives its plot. `found` is of all rows, the growth's are its last.
    pub fn growth(&self, unit: &str, found: &[[f64; 2]]) -> String {
        let (_, found) = found.split_at(found.len() - self.growth.len());
        let head = format!("proved run, {unit} | Rust, {unit} | ratio");
        println!("\n| Live sends | round: {head} | idle tick: {head} |\n|---:|---:|---:|---:|---:|---:|---:|");
        let titles = ["A round of five events", "An idle tick"].map(|title| format!("{title}: {unit} per event"));
        let mut panels = titles.map(|title| Panel { title, sides: Default::default() });
        for (place, pair) in found.chunks_exact(2).enumerate() {
            let live = place + 1;
            for (panel, sides) in panels.iter_mut().zip(pair) {
                panel.sides.iter_mut().zip(sides).for_each(|(side, value)| side.push(*value));
            }
            if live == 1 || live.is_multiple_of(4) {
                println!("| {live} | {} | {} |", beside(&pair[0]), beside(&pair[1]));
            }
        }
        svg(&panels)
    }
}

impl Default for Rows {
    fn default() -> Self {
        let tables = vec![
            ("Mixed traces", mixed::all()),
            ("Events that find nothing", kinds::idle()),
            ("Each kind of event", kinds::all()),
        ];
        Self { tables, growth: mixed::growth() }
    }
}

/// The end of a program: an error is told.
pub fn exit(told: Result<(), String>) -> ExitCode {
    let Err(told) = told else { return ExitCode::SUCCESS };
    eprintln!("{told}");
    ExitCode::FAILURE
}

/// Both sides and their ratio, as cells.
pub fn beside([ours, theirs]: &[f64; 2]) -> String {
    format!("{ours:.1} | {theirs:.1} | {:.2}", ours / theirs)
}
