//! Measures bills of runs of receipts, by the library and the Rust.

use std::cell::RefCell;
use std::hint::black_box;

use mmtf_tests::check::bills::{agree_on_bill, LONGEST};
use mmtf_tests::generate::bills::{every_station, filling, longest, Run};
use mmtf_tests::generate::Rng;
use mmtf_tests::independent::bill as independent;
use mmtf_tests::library::bill as library;
use mmtf_tests::library::columns::Outcome;

use crate::table::Workloads;
use crate::timing::{compare, Times};
use crate::workloads::LARGEST;

pub fn rows(table: &Workloads) {
    let row = |on, run: Run| table.row("bill", on, run.bytes.len(), billing(&run.bytes));
    row("one receipt", longest(1));
    row("64 MiB, all stations", usual(LARGEST, &every_station()));
    row("64 MiB, one station", usual(LARGEST, &[42]));
    row("64 MiB, the longest receipts", longest(LARGEST / 128));
}

/// A run of exactly so many bytes, of receipts like those of a month.
pub fn usual(bytes: usize, stations: &[u32]) -> Run {
    filling(&mut Rng::new(1), bytes, stations)
}

/// Both write the bill of the same run into the same buffer.
pub fn billing(run: &[u8]) -> Times {
    let agreed = agree_on_bill(run, LONGEST);
    assert!(matches!(agreed, Ok(Outcome::Done(_))), "the same bill");
    let buffer = RefCell::new([0; LONGEST]);
    compare(
        "bill",
        || {
            let buffer = &mut *buffer.borrow_mut();
            black_box(library::bill(black_box(run), buffer));
        },
        || {
            let buffer = &mut *buffer.borrow_mut();
            let _ = black_box(independent::bill(black_box(run), buffer));
        },
    )
}
