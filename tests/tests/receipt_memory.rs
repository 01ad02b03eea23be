//! Files, receipts, buffers and out parameters that touch an inaccessible page,
//! so that any access outside them ends the test, and so does a write to what is
//! only read.
#![cfg(all(target_os = "linux", target_arch = "x86_64"))]

use mmtf_tests::check::hex;
use mmtf_tests::check::receipts::LONGEST;
use mmtf_tests::check::sample::Sample;
use mmtf_tests::corpus::derived;
use mmtf_tests::generate::files::{file_case, FILE_KINDS};
use mmtf_tests::generate::{case, damaged, Rng, KINDS};
use mmtf_tests::guard::{Guarded, Side};
use mmtf_tests::independent::receipt::{read_receipt, text, write_receipt, Numbers, LINES};
use mmtf_tests::independent::FIELDS;
use mmtf_tests::library::receipt::{read_receipt_into, write_receipt_into};

/// Pages for what a call is lent.
struct Pages {
    file: Guarded,
    buffer: Guarded,
    out: Guarded,
}

/// What stands in a buffer and in the out parameters before a call.
const BYTE: u8 = 0xa5;
const WRITTEN: u64 = 0xa5a5_5a5a_0f0f_1e1e;
const NUMBER: u32 = 0x5aa5_0ff0;

impl Pages {
    fn new(bytes: usize) -> Pages {
        Pages {
            file: Guarded::new(bytes),
            buffer: Guarded::new(4 * LONGEST),
            out: Guarded::new(64),
        }
    }

    /// Compares both when a receipt is written, all at the edge of their pages.
    fn write(&mut self, by: [u32; 2], file: &[u8], room: usize, side: Side) {
        let before = vec![BYTE; room];
        let mut expected = before.clone();
        let own = write_receipt(by[0], by[1], file, &mut expected);
        let placed = self.file.place(file, side);
        let buffer = self.buffer.lend(&before, side);
        let written = &mut self.out.lend(&[WRITTEN], side)[0];
        let number = write_receipt_into(by, placed, buffer, written);
        let (own, count) = match own {
            Ok(count) => (0, count as u64),
            Err(refusal) => (refusal.number(), WRITTEN),
        };
        assert_eq!((number, *written), (own, count), "{}", hex(file));
        assert_eq!(buffer, expected, "{}", hex(file));
    }

    /// The same when bytes are read.
    fn read(&mut self, bytes: &[u8], side: Side) {
        let before = [NUMBER; LINES.len()];
        let expected = match read_receipt(bytes) {
            Ok(numbers) => (0, numbers),
            Err(refusal) => (refusal.number(), before),
        };
        let placed = self.file.place(bytes, side);
        let lent = self.out.lend(&before, side);
        let numbers: &mut Numbers = lent.try_into().expect("ten numbers");
        let number = read_receipt_into(placed, numbers);
        assert_eq!((number, *numbers), expected, "{}", bytes.escape_ascii());
    }
}

const SIDES: [Side; 2] = [Side::Before, Side::After];

fn side(n: u64) -> Side {
    match n % 8 {
        0 => Side::Before,
        _ => Side::After,
    }
}

#[test]
fn generated_files_at_the_edge() {
    let mut pages = Pages::new(1 << 22);
    let mut rng = Rng::new(80);
    for (kind, share) in FILE_KINDS {
        for n in 0..share * 2 {
            let case = file_case(kind, &mut rng);
            let room = rng.below(2 * LONGEST);
            pages.write([7, 12], &case.file, room, side(n));
        }
    }
    for (kind, share) in KINDS {
        for n in 0..share * 20 {
            let case = case(kind, &mut rng);
            pages.write([7, 12], &case.file, LONGEST, side(n));
        }
    }
}

/// Every room, for a file that is accepted, one that is refused and one that is
/// empty; by a station that is allowed and by one that is not.
#[test]
fn every_room_at_the_edge() {
    let mut pages = Pages::new(1 << 16);
    let full = Sample::full().bytes();
    for file in [&full[..], b"\x80", b""] {
        for room in 0..=LONGEST + 1 {
            for side in SIDES {
                pages.write([99, 999_999], file, room, side);
                pages.write([100, 999_999], file, room, side);
            }
        }
    }
}

/// Each field last in the file, so that its value ends at the page.
#[test]
fn every_field_last() {
    let mut pages = Pages::new(1 << 16);
    for place in 0..FIELDS.len() {
        let file = Sample::full().rotated(place).bytes();
        for side in SIDES {
            pages.write([7, 12], &file, LONGEST, side);
        }
    }
}

#[test]
fn prefixes_of_files_at_the_edge() {
    let mut pages = Pages::new(1 << 16);
    let file = derived("4QXX");
    for n in (0..=file.len()).rev() {
        pages.write([7, 12], &file[..n], LONGEST, Side::After);
    }
}

const RECEIPTS: [Numbers; 3] = [
    [7, 12, 0, 1, 4, 302, 1023, 1142, 16, 1],
    [99, 999_999, 24, 0, 0, 0, 0, 0, 0, 0],
    [
        99, 999_999, 0, 16_777_216, 16_777_216, 16_777_216, 16_777_216, 16_777_216, 39, 1,
    ],
];

/// Every beginning and every ending of a receipt, and the whole.
#[test]
fn parts_of_receipts_at_the_edge() {
    let mut pages = Pages::new(1 << 12);
    for numbers in RECEIPTS {
        let receipt = text(&numbers).into_bytes();
        for n in 0..=receipt.len() {
            for side in SIDES {
                pages.read(&receipt[..n], side);
                pages.read(&receipt[n..], side);
            }
        }
    }
}

#[test]
fn damaged_receipts_at_the_edge() {
    let mut pages = Pages::new(1 << 12);
    let mut rng = Rng::new(81);
    for n in 0..20_000 {
        let receipt = text(rng.pick(&RECEIPTS)).into_bytes();
        pages.read(&damaged(&mut rng, receipt), side(n));
    }
}
