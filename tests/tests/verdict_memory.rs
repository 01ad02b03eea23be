//! Files that touch an inaccessible page, so that a read outside them ends the
//! test, and so does a write to them.
#![cfg(all(target_os = "linux", target_arch = "x86_64"))]

use mmtf_tests::check::files::expected_matrix;
use mmtf_tests::check::hex;
use mmtf_tests::check::sample::Sample;
use mmtf_tests::corpus::derived;
use mmtf_tests::generate::files::{file_case, matrix_numbers, FILE_KINDS};
use mmtf_tests::generate::{case, Rng, KINDS};
use mmtf_tests::guard::{Guarded, Side};
use mmtf_tests::library::matrix::{matrix, matrix_into, Rows};
use mmtf_tests::{independent, library};

/// Compares both with the file at the edge of its pages.
fn run(pages: &mut Guarded, file: &[u8], at: [u64; 2], side: Side) {
    let number = independent::verdict(file);
    let expected = expected_matrix(file, at[0], at[1]);
    let placed = pages.place(file, side);
    assert_eq!(library::verdict(placed), number, "{}", hex(file));
    assert_eq!(matrix(placed, at[0], at[1]), expected, "{}", hex(file));
}

fn side(n: u64) -> Side {
    match n % 8 {
        0 => Side::Before,
        _ => Side::After,
    }
}

#[test]
fn files_at_the_edge() {
    let mut pages = Guarded::new(1 << 22);
    let mut rng = Rng::new(78);
    for (kind, share) in FILE_KINDS {
        for n in 0..share * 6 {
            let case = file_case(kind, &mut rng);
            let at = matrix_numbers(&mut rng);
            run(&mut pages, &case.file, at, side(n));
        }
    }
}

/// Generated containers, which have no field.
#[test]
fn containers_at_the_edge() {
    let mut pages = Guarded::new(1 << 20);
    let mut rng = Rng::new(79);
    for (kind, share) in KINDS {
        for n in 0..share * 40 {
            let case = case(kind, &mut rng);
            run(&mut pages, &case.file, [0, 0], side(n));
        }
    }
}

#[test]
fn prefixes_at_the_edge() {
    let mut pages = Guarded::new(1 << 20);
    for file in [derived("4QXX").to_vec(), Sample::full().bytes()] {
        for n in (0..=file.len()).rev() {
            run(&mut pages, &file[..n], [0, 0], Side::After);
        }
    }
}

/// Each field last in the file, so that its value ends at the page.
#[test]
fn every_field_last() {
    let mut pages = Guarded::new(1 << 20);
    let full = Sample::full().bytes();
    let entries = independent::outer_entries(&full).expect("an accepted container");
    for last in 0..entries.len() {
        let mut file = vec![0xde, 0, entries.len() as u8];
        for n in 0..entries.len() {
            let (key, value) = entries[(last + 1 + n) % entries.len()];
            file.extend([0xd9, key.len() as u8]);
            file.extend(key);
            file.extend(value);
        }
        for side in [Side::Before, Side::After] {
            run(&mut pages, &file, [0, 0], side);
        }
        let placed = pages.place(&file, Side::After);
        assert_eq!(library::verdict(placed), 0, "entry {last} last");
    }
}

/// The rows of a matrix at the edge of their pages.
#[test]
fn rows_at_the_edge() {
    let mut pages = Guarded::new(64);
    let file = Sample::full().bytes();
    let before = [[0.5; 4]; 4];
    let expected = independent::matrix(&file, 0, 0).expect("a matrix of the sample");
    for side in [Side::Before, Side::After] {
        let rows = pages.lend(&before, side);
        let rows: &mut Rows = rows.try_into().expect("four rows");
        assert_eq!(matrix_into(&file, 0, 0, rows), 0);
        assert_eq!(*rows, expected);
        *rows = before;
        assert_eq!(matrix_into(&file, 0, 1, rows), 28);
        assert_eq!(matrix_into(b"", 0, 0, rows), 2);
        assert_eq!(*rows, before, "as they were");
    }
}
