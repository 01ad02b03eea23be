//! One piece of work done once, by the library or by the Rust, so that its
//! instructions can be counted. `bench/instructions` makes the table.

use std::hint::black_box;
use std::process::ExitCode;

use mmtf_tests::check::bills::LONGEST;
use mmtf_tests::corpus;
use mmtf_tests::generate::bills::{every_station, longest, Run};
use mmtf_tests::independent::receipt::{read_receipt, text, write_receipt};
use mmtf_tests::{independent, library};

use crate::bills::usual;
use crate::check_data::{entities, runs_with_delta, structure};
use crate::column_data::shape;
use crate::columns::{one_cell, Column};
use crate::opening::{by_library, by_rust};
use crate::workloads::{many_outer_keys, HOSTILE};

/// Work as both do it, and how many bytes, cells or receipts it is.
struct Work {
    units: usize,
    unit: &'static str,
    library: Box<dyn FnMut()>,
    independent: Box<dyn FnMut()>,
}

/// How a work is made.
type Build = fn() -> Work;

/// The names of the works, and how each is made.
const WORKS: &[(&str, Build)] = &[
    ("container walk: one-element arrays", || {
        container((HOSTILE[1].build)(1 << 20))
    }),
    ("view by name: 1IGT, last key", || {
        view(corpus::derived("1IGT").to_vec())
    }),
    ("view by name: 256 outer keys, last key", || {
        view(many_outer_keys())
    }),
    ("verdict: 4QXX", || {
        verdict(corpus::derived("4QXX").to_vec())
    }),
    ("verdict: 1AUY", || {
        verdict(corpus::derived("1AUY").to_vec())
    }),
    ("verdict: 1IGT", || {
        verdict(corpus::derived("1IGT").to_vec())
    }),
    ("verdict: 4V5A", || {
        verdict(corpus::derived("4V5A").to_vec())
    }),
    ("verdict: 15,625 atoms", || verdict(structure(15_625))),
    ("verdict: small maps in entityList", || {
        verdict(entities(1 << 20))
    }),
    ("verdict: 5 columns of one run with delta", || Work {
        units: 262_144,
        unit: "cell",
        ..verdict(runs_with_delta(262_144))
    }),
    ("fields: 4QXX", || fields(corpus::derived("4QXX").to_vec())),
    ("fields: 1IGT", || fields(corpus::derived("1IGT").to_vec())),
    ("receipt written: 4QXX", || {
        written(corpus::derived("4QXX").to_vec())
    }),
    ("receipt read", read),
    ("bill: all stations", || {
        billed(usual(100_000, &every_station()))
    }),
    ("bill: one station", || billed(usual(100_000, &[42]))),
    ("bill: the longest receipts", || billed(longest(1_000))),
];

/// The works on columns that the table has. Every other work on the column of a
/// shape is known by such a name too.
const ON_COLUMNS: &[&str] = &[
    "decode: 1, coordinates",
    "decode: 2, bond orders",
    "decode: 3, group ids",
    "decode: 4, group types",
    "decode: 5, names of 4, 1 or 2 letters",
    "decode: 6, alternate locations",
    "decode: 8, runs of 1, sums wrap",
    "decode: 9, short runs",
    "decode: 10, coordinates",
    "decode: 11, b-factors",
    "decode: 13, occupancies",
    "decode: 15, one of 100 packed",
    "decode: 15, 0 to 7 limits",
    "floats: 11, b-factors",
    "floats: 13, occupancies",
    "encode: 3, group ids",
    "encode: 4, group types",
    "encode: 5, names of 4, 1 or 2 letters",
    "encode: 9, long runs",
    "encode: 9, runs of 1",
    "encode: 10, coordinates",
    "encode: 14, one of 100 packed",
    "cell: 8, ids with gaps",
    "cell: 9, short runs",
    "cell: 10, coordinates",
    "cell: 13, occupancies",
];

/// The cells of each column.
const CELLS: usize = 100_000;

/// Without a name: says the names. With one, and "library" or "Rust": does that
/// work, once before it is counted and once counted, and says how much it is.
pub fn run(name: Option<&str>, by: Option<&str>) -> ExitCode {
    let Some(name) = name else {
        let names = WORKS.iter().map(|(name, _)| name).chain(ON_COLUMNS);
        names.for_each(|name| println!("{name}"));
        return ExitCode::SUCCESS;
    };
    let (Some(mut work), Some("library" | "Rust")) = (named(name), by) else {
        eprintln!("There is no such work, or it is not asked of \"library\" or \"Rust\".");
        return ExitCode::from(2);
    };
    println!("{}\t{}", work.units, work.unit);
    match by {
        Some("library") => {
            (work.library)();
            counted_library(&mut work.library);
        }
        _ => {
            (work.independent)();
            counted_rust(&mut work.independent);
        }
    }
    ExitCode::SUCCESS
}

/// The work of that name.
fn named(name: &str) -> Option<Work> {
    match WORKS.iter().find(|(other, _)| *other == name) {
        Some((_, build)) => Some(build()),
        None => on_column(name),
    }
}

/// What runs in this function is counted. The two differ, so that they stay two.
#[inline(never)]
#[no_mangle]
extern "C" fn counted_library(work: &mut Box<dyn FnMut()>) {
    black_box(1u8);
    work();
}

#[inline(never)]
#[no_mangle]
extern "C" fn counted_rust(work: &mut Box<dyn FnMut()>) {
    black_box(2u32);
    work();
}

/// Work on bytes.
fn on_bytes<A, B>(
    bytes: Vec<u8>,
    mut library: impl FnMut(&[u8]) -> A + 'static,
    mut independent: impl FnMut(&[u8]) -> B + 'static,
) -> Work {
    let copy = bytes.clone();
    Work {
        units: bytes.len(),
        unit: "byte",
        library: Box::new(move || drop(black_box(library(black_box(&bytes))))),
        independent: Box::new(move || drop(black_box(independent(black_box(&copy))))),
    }
}

fn container(file: Vec<u8>) -> Work {
    on_bytes(file, library::container, independent::container)
}

fn verdict(file: Vec<u8>) -> Work {
    on_bytes(file, library::verdict, independent::verdict)
}

fn fields(file: Vec<u8>) -> Work {
    on_bytes(file, by_library, by_rust)
}

fn view(file: Vec<u8>) -> Work {
    let keys = independent::outer_keys(&file).expect("an accepted container");
    let last = keys.last().expect("a key").to_vec();
    let same = last.clone();
    on_bytes(
        file,
        move |file| library::view(file, &last),
        move |file| independent::view(file, &same),
    )
}

fn written(file: Vec<u8>) -> Work {
    let mut buffer = [0; 128];
    let mut other = [0; 128];
    on_bytes(
        file,
        move |file| library::receipt::write_receipt([7, 12], file, &mut buffer),
        move |file| write_receipt(7, 12, file, &mut other),
    )
}

fn read() -> Work {
    let receipt = text(&[7, 12, 0, 1, 2, 7, 37, 33, 38, 1]).into_bytes();
    let mut numbers = [0; 10];
    on_bytes(
        receipt,
        move |bytes| library::receipt::read_receipt_into(bytes, &mut numbers),
        read_receipt,
    )
}

fn billed(run: Run) -> Work {
    let mut buffer = [0; LONGEST];
    let mut other = [0; LONGEST];
    Work {
        units: run.receipts.len(),
        unit: "receipt",
        ..on_bytes(
            run.bytes,
            move |run| library::bill::bill(run, &mut buffer),
            move |run| independent::bill::bill(run, &mut other),
        )
    }
}

/// A work on the column of a shape, by its name and the shape's.
fn on_column(name: &str) -> Option<Work> {
    let (work, title) = name.split_once(": ")?;
    // Kept until the program ends, which does this work alone.
    let column: &'static dyn Column = Box::leak(shape(title)?.column(CELLS));
    let work = match work {
        "decode" => column.decoding(),
        "floats" => column.floats()?,
        "encode" => column.encoding(),
        "cell" => one_cell(column.bytes(), CELLS as u64 - 10, 0).boxed(),
        _ => return None,
    };
    Some(Work {
        units: CELLS,
        unit: "cell",
        library: work.library,
        independent: work.independent,
    })
}
