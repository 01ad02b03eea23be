//! Cost against size: the same work at 1, 4, 16 and 64 times the size, and the
//! time for each byte, cell or receipt of it.

use mmtf_tests::generate::bills::every_station;

use crate::bills::{billing, usual};
use crate::check::verdict;
use crate::check_data::{entities, large_type, runs_with_delta, structure, transforms};
use crate::column_data::{shape, CELLS};
use crate::columns::{AnyWork, Column as Cells};
use crate::container::walk;
use crate::receipts::writing;
use crate::table::{Column, Table};
use crate::timing::Times;
use crate::workloads::{HOSTILE, LARGEST};

/// The parts of the largest size that are measured: 1, 4, 16 and 64 times the
/// smallest.
const PARTS: [usize; 4] = [64, 16, 4, 1];

/// How much work there was, in bytes, cells or receipts, and its times.
type Measured = (usize, Times);

pub fn table() {
    let table = Table::new(&[
        Column::Names("work", 14),
        Column::Names("on", 38),
        Column::Names("unit", 7),
        Column::Numbers("1", 8),
        Column::Numbers("4", 8),
        Column::Numbers("16", 8),
        Column::Numbers("64", 8),
        Column::Numbers("64 to 1", 8),
        Column::Numbers("Rust", 8),
    ]);
    for hostile in HOSTILE {
        let sizes = PARTS.map(|part| of_file((hostile.build)(LARGEST / part), walk));
        row(&table, "container walk", hostile.name, "byte", sizes);
    }
    verdicts(&table);
    columns(&table);
    let sizes = PARTS.map(|part| of_file(structure(CELLS / part), writing));
    row(
        &table,
        "receipt",
        "15,625 to 1,000,000 atoms",
        "byte",
        sizes,
    );
    bills(&table);
}

fn of_file(file: Vec<u8>, work: impl Fn(&[u8]) -> Times) -> Measured {
    (file.len(), work(&file))
}

fn verdicts(table: &Table) {
    let accepted = |file: &[u8]| verdict(file, 0);
    let on_bytes = |on, build: fn(usize) -> Vec<u8>, largest: usize| {
        let sizes = PARTS.map(|part| of_file(build(largest / part), accepted));
        row(table, "verdict", on, "byte", sizes);
    };
    on_bytes("15,625 to 1,000,000 atoms", structure, CELLS);
    on_bytes("one group type of many atoms", large_type, 13_000_000);
    on_bytes("small maps in entityList", entities, LARGEST);
    on_bytes("transforms in bioAssemblyList", transforms, LARGEST);
    let sizes = PARTS.map(|part| {
        let cells = 16_777_216 / part;
        (cells, accepted(&runs_with_delta(cells as i32)))
    });
    row(
        table,
        "verdict",
        "5 columns of one run with delta",
        "cell",
        sizes,
    );
}

fn bills(table: &Table) {
    let stations = every_station();
    for (on, stations) in [("all stations", &stations[..]), ("one station", &[42])] {
        let sizes = PARTS.map(|part| {
            let run = usual(LARGEST / part, stations);
            (run.receipts.len(), billing(&run.bytes))
        });
        row(table, "bill", on, "receipt", sizes);
    }
}

/// The columns of which the cost is asked.
const COLUMNS: [&str; 5] = [
    "8, ids with gaps",
    "9, long runs",
    "9, short runs",
    "10, coordinates",
    "14, one of 100 packed",
];

/// Work on a column.
type OnColumn = fn(&dyn Cells) -> AnyWork<'_>;

fn columns(table: &Table) {
    let works: [(&str, OnColumn); 2] = [
        ("decode", |column| column.decoding()),
        ("encode", |column| column.encoding()),
    ];
    for (work, on) in works {
        for title in COLUMNS {
            let shape = shape(title).expect("a shape");
            let sizes = PARTS.map(|part| {
                let column = shape.column(CELLS / part);
                (column.elements(), on(&*column).times())
            });
            row(table, work, title, "cell", sizes);
        }
    }
}

/// Nanoseconds of the library for each unit at each size; then the last of them
/// to the first, by the library and by the Rust.
fn row(table: &Table, work: &str, on: &str, unit: &str, sizes: [Measured; 4]) {
    let library = sizes.map(|(units, times)| times.library / units as f64);
    let independent = sizes.map(|(units, times)| times.independent / units as f64);
    let mut cells = vec![work.to_string(), on.to_string(), unit.to_string()];
    cells.extend(library.map(|time| format!("{time:.3}")));
    cells.push(format!("{:.2}", library[3] / library[0]));
    cells.push(format!("{:.2}", independent[3] / independent[0]));
    table.row(cells);
}
