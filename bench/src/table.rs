//! Tables in Markdown, padded so that they can be read as text too.

use crate::timing::Times;

/// The columns of a table, with their widths. Names stand left, numbers right.
pub struct Table {
    widths: Vec<(usize, bool)>,
}

/// A column of names, or of numbers.
pub enum Column {
    Names(&'static str, usize),
    Numbers(&'static str, usize),
}

impl Table {
    /// Prints the head.
    pub fn new(columns: &[Column]) -> Table {
        let parts = columns.iter().map(|column| match column {
            Column::Names(title, width) => (*title, *width, true),
            Column::Numbers(title, width) => (*title, *width, false),
        });
        let table = Table {
            widths: parts
                .clone()
                .map(|(_, width, left)| (width, left))
                .collect(),
        };
        table.row(parts.clone().map(|(title, ..)| title.to_string()));
        let rule = |(_, width, left)| match left {
            true => "-".repeat(width),
            false => "-".repeat(width - 1) + ":",
        };
        table.row(parts.map(rule));
        table
    }

    pub fn row(&self, cells: impl IntoIterator<Item = String>) {
        for (cell, &(width, left)) in cells.into_iter().zip(&self.widths) {
            match left {
                true => print!("| {cell:width$} "),
                false => print!("| {cell:>width$} "),
            }
        }
        println!("|");
    }
}

/// The table of workloads: the same work by the library and by the Rust.
pub struct Workloads(Table);

impl Workloads {
    pub fn new() -> Workloads {
        Workloads(Table::new(&[
            Column::Names("work", 26),
            Column::Names("on", 38),
            Column::Numbers("bytes", 10),
            Column::Numbers("library", 11),
            Column::Numbers("Rust", 11),
            Column::Numbers("ratio", 8),
        ]))
    }

    pub fn row(&self, work: &str, on: &str, bytes: usize, times: Times) {
        self.0.row([
            work.to_string(),
            on.to_string(),
            grouped(bytes),
            time(times.library),
            time(times.independent),
            format!("{:.2}", times.ratio()),
        ]);
    }
}

/// A number with a comma after each three digits.
pub fn grouped(number: usize) -> String {
    match number {
        0..=999 => number.to_string(),
        _ => format!("{},{:03}", grouped(number / 1_000), number % 1_000),
    }
}

/// A time in a unit that suits it.
pub fn time(nanoseconds: f64) -> String {
    match nanoseconds {
        n if n < 1e3 => format!("{n:.1} ns"),
        n if n < 1e6 => format!("{:.2} µs", n / 1e3),
        n => format!("{:.2} ms", n / 1e6),
    }
}
