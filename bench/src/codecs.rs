//! Measures every codec, on cells like those of structure files and on those that
//! make the most work for it: decoded, as floats, encoded, and one cell, by the
//! library and the Rust; and the copy of the cells in memory.

use std::process::ExitCode;

use mmtf_tests::independent::columns::Kind;

use crate::column_data::{Like, Shape, CELLS, SHAPES};
use crate::columns::one_cell;
use crate::coverage::{self, Codec};
use crate::table::{grouped, time, Column, Table};
use crate::timing::Times;

/// What is done with the column of a shape.
struct Row {
    shape: &'static Shape,
    work: &'static str,
    bytes: usize,
    times: Times,
    /// The time of copying the cells in memory.
    copy: f64,
}

/// The works that a codec of the header has. A column of codec 1 is decoded to
/// floats, so that it has no other way to them.
fn works(codec: &Codec) -> Vec<&'static str> {
    match codec.kind {
        "fixed point" => vec!["decode", "as floats", "encode", "one cell"],
        "strings" => vec!["decode", "encode"],
        _ => vec!["decode", "encode", "one cell"],
    }
}

/// The rows of one codec, by its number.
pub fn of_one(number: &str) -> ExitCode {
    let codec = |shape: &&Shape| shape.codec.to_string() == number;
    let rows: Vec<Row> = SHAPES.iter().filter(codec).flat_map(measured).collect();
    if rows.is_empty() {
        eprintln!("There is no codec \"{number}\" in the table of codecs.");
        return ExitCode::from(2);
    }
    every(&rows);
    ExitCode::SUCCESS
}

/// The ratios of every codec, and then every row.
pub fn tables() -> ExitCode {
    let codecs = coverage::codecs();
    let rows: Vec<Row> = SHAPES.iter().flat_map(measured).collect();
    summary(&codecs, &rows);
    println!();
    every(&rows);
    let mut missing = unmeasured(&codecs, &rows);
    missing.extend(coverage::unmeasured(coverage::is_on_column));
    coverage::judged("codecs", &missing)
}

/// Every work on a column of a million cells.
fn measured(shape: &'static Shape) -> Vec<Row> {
    let column = shape.column(CELLS);
    let bytes = column.bytes().len();
    let copy = column.copying();
    let mut times = vec![("decode", column.decoding().times())];
    times.extend(column.floats().map(|work| ("as floats", work.times())));
    times.push(("encode", column.encoding().times()));
    if column.kind() != Kind::Strings {
        let index = CELLS as u64 - 10;
        times.push(("one cell", one_cell(column.bytes(), index, 0).times()));
    }
    let row = |(work, times)| Row {
        shape,
        work,
        bytes,
        times,
        copy,
    };
    times.into_iter().map(row).collect()
}

/// The highest ratio of a codec's work on cells like these, if it was measured.
fn ratio(rows: &[Row], codec: &Codec, work: &str, like: Like) -> Option<f64> {
    let asked =
        |row: &&Row| row.shape.codec == codec.number && row.work == work && row.shape.like == like;
    let ratios = rows.iter().filter(asked).map(|row| row.times.ratio());
    ratios.reduce(f64::max)
}

/// The ratios of each codec, on cells like those of structures and on the worst.
fn summary(codecs: &[Codec], rows: &[Row]) {
    let table = Table::new(&[
        Column::Numbers("codec", 5),
        Column::Names("kind", 11),
        Column::Numbers("decode", 12),
        Column::Numbers("as floats", 12),
        Column::Numbers("encode", 12),
        Column::Numbers("one cell", 12),
    ]);
    for codec in codecs {
        let ratios = |work| match [Like::Structures, Like::Worst]
            .map(|like| ratio(rows, codec, work, like))
        {
            [Some(usual), Some(worst)] => format!("{usual:.2}, {worst:.2}"),
            _ => "-".to_string(),
        };
        let mut cells = vec![codec.number.to_string(), codec.kind.to_string()];
        cells.extend(["decode", "as floats", "encode", "one cell"].map(ratios));
        table.row(cells);
    }
}

fn every(rows: &[Row]) {
    let table = Table::new(&[
        Column::Names("work", 9),
        Column::Names("on", 30),
        Column::Numbers("bytes", 10),
        Column::Numbers("library", 10),
        Column::Numbers("Rust", 10),
        Column::Numbers("ratio", 6),
        Column::Numbers("copy", 10),
        Column::Numbers("to copy", 7),
    ]);
    for row in rows {
        let [copy, to_copy] = match row.work {
            "one cell" => ["-", "-"].map(str::to_string),
            _ => [
                time(row.copy),
                format!("{:.1}", row.times.library / row.copy),
            ],
        };
        table.row([
            row.work.to_string(),
            row.shape.title(),
            grouped(row.bytes),
            time(row.times.library),
            time(row.times.independent),
            format!("{:.2}", row.times.ratio()),
            copy,
            to_copy,
        ]);
    }
}

/// The codecs of the header and their works that have no row.
fn unmeasured(codecs: &[Codec], rows: &[Row]) -> Vec<String> {
    let mut missing = Vec::new();
    for codec in codecs {
        for work in works(codec) {
            for (like, on) in [(Like::Structures, "usual"), (Like::Worst, "worst")] {
                if ratio(rows, codec, work, like).is_none() {
                    missing.push(format!("codec {} ({work}, {on} data)", codec.number));
                }
            }
        }
    }
    missing
}
