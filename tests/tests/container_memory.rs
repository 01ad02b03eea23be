//! Inputs that touch an inaccessible page, so that a read outside them ends
//! the test.
#![cfg(all(target_os = "linux", target_arch = "x86_64"))]

use mmtf_tests::check::{agree_on_view, expected_view, hex, names};
use mmtf_tests::corpus::derived;
use mmtf_tests::generate::{case, Rng, KINDS};
use mmtf_tests::guard::{Guarded, Side};
use mmtf_tests::{independent, library};

/// Compares both with the file and the name each at the edge of its pages.
fn run(pages: &mut Guarded, name_pages: &mut Guarded, file: &[u8], side: Side) {
    let number = independent::container(file);
    let placed = pages.place(file, side);
    assert_eq!(library::container(placed), number, "{}", hex(file));
    for name in names(file).into_iter().take(12) {
        let name = name_pages.place(&name, side);
        let expected = expected_view(file, name);
        assert_eq!(library::view(placed, name), expected, "{}", hex(file));
    }
}

fn pages() -> (Guarded, Guarded) {
    (Guarded::new(1 << 20), Guarded::new(1 << 13))
}

#[test]
fn generated_at_the_edge() {
    let (mut pages, mut name_pages) = pages();
    let mut rng = Rng::new(77);
    for (kind, share) in KINDS {
        for n in 0..share * 60 {
            let case = case(kind, &mut rng);
            let side = if n % 8 == 0 {
                Side::Before
            } else {
                Side::After
            };
            run(&mut pages, &mut name_pages, &case.file, side);
        }
    }
}

#[test]
fn prefixes_at_the_edge() {
    let (mut pages, mut name_pages) = pages();
    let file = derived("4QXX");
    for n in (0..=file.len()).rev().step_by(3) {
        run(&mut pages, &mut name_pages, &file[..n], Side::After);
    }
}

/// A well-formed file that ends in each kind of value, cut at every length.
#[test]
fn last_values_at_the_edge() {
    let (mut pages, mut name_pages) = pages();
    let values: [&[u8]; 12] = [
        b"\x05",
        b"\xcc\x01",
        b"\xcd\x01\x02",
        b"\xce\x01\x02\x03\x04",
        b"\xca\x01\x02\x03\x04",
        b"\xa4\xf0\x90\x8d\x88",
        b"\xda\x00\x03\xe2\x82\xac",
        b"\xdb\x00\x00\x00\x02\xc3\xa9",
        b"\xc6\x00\x00\x00\x03\x00\x01\x02",
        b"\xdd\x00\x00\x00\x02\x00\x01",
        b"\xdf\x00\x00\x00\x01\xd9\x01k\xd2\x00\x00\x00\x00",
        b"\x81\xa1k\x91\x90",
    ];
    for value in values {
        let file = [&[0x82, 0xa1, b'a', 0x00, 0xa1, b'b'], value].concat();
        for n in 0..=file.len() {
            for side in [Side::Before, Side::After] {
                run(&mut pages, &mut name_pages, &file[..n], side);
            }
        }
    }
}

/// Lengths far beyond the file, whose ends do not fit in 32 bits.
#[test]
fn lengths_beyond_the_file() {
    for lead in [0xc6, 0xdb, 0xdd] {
        for length in [1u32 << 16, 1 << 26, 1 << 31, u32::MAX - 8, u32::MAX] {
            let file = [&[0x81, 0xa1, b'v', lead], &length.to_be_bytes()[..], b"abc"].concat();
            let (mut pages, _) = pages();
            let placed = pages.place(&file, Side::After);
            assert_eq!(library::container(placed), 2);
            agree_on_view(placed, b"v").unwrap();
        }
    }
}
