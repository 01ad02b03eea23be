//! Measures receipts written for files, and read, by the library and the Rust.

use std::cell::RefCell;
use std::hint::black_box;

use mmtf_tests::check::receipts::{agree_on_receipt, LONGEST};
use mmtf_tests::corpus;
use mmtf_tests::independent::receipt::{read_receipt, text, write_receipt, Numbers};
use mmtf_tests::library::receipt as library;

use crate::table::Workloads;
use crate::timing::{compare, Times};

/// The station and the job of every receipt.
const BY: [u32; 2] = [42, 424_242];

pub fn rows(table: &Workloads) {
    for name in ["4QXX", "1AUY", "4V5A"] {
        let file = corpus::derived(name);
        table.row("receipt written", name, file.len(), writing(file));
    }
    table.row("receipt written", "a file of no bytes", 0, writing(b""));
    for name in ["4QXX", "4V5A"] {
        let (receipt, _) = agreed(corpus::derived(name));
        table.row("receipt read", name, receipt.len(), reading(&receipt));
    }
    let (receipt, _) = agreed(b"");
    table.row(
        "receipt read",
        "a file of no bytes",
        receipt.len(),
        reading(&receipt),
    );
    let longest = text(&MOST).into_bytes();
    table.row(
        "receipt read",
        "the longest",
        longest.len(),
        reading(&longest),
    );
}

/// The numbers of the longest receipt.
const MOST: Numbers = [
    99,
    999_999,
    0,
    1 << 24,
    1 << 24,
    1 << 24,
    1 << 24,
    1 << 24,
    39,
    1,
];

fn agreed(file: &[u8]) -> (Vec<u8>, Numbers) {
    agree_on_receipt(BY, file).expect("both give the same")
}

/// Both write the receipt of the same file into the same buffer.
pub fn writing(file: &[u8]) -> Times {
    agreed(file);
    let buffer = RefCell::new([0; LONGEST]);
    compare(
        "write_receipt",
        || {
            let buffer = &mut *buffer.borrow_mut();
            black_box(library::write_receipt(BY, black_box(file), buffer));
        },
        || {
            let buffer = &mut *buffer.borrow_mut();
            let _ = black_box(write_receipt(BY[0], BY[1], black_box(file), buffer));
        },
    )
}

/// Both read the same receipt, which is one.
fn reading(receipt: &[u8]) -> Times {
    assert!(read_receipt(receipt).is_ok(), "a receipt");
    let numbers = RefCell::new([0; 10]);
    compare(
        "read_receipt",
        || {
            let numbers = &mut numbers.borrow_mut();
            black_box(library::read_receipt_into(black_box(receipt), numbers));
        },
        || {
            let _ = black_box(read_receipt(black_box(receipt)));
        },
    )
}
