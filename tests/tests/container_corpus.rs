//! The structure files: published, derived, cut and damaged.

use mmtf_tests::check::{agree, expect, expect_view, hex};
use mmtf_tests::corpus::{derived, DERIVED, PUBLISHED};
use mmtf_tests::generate::{damaged, Rng};
use mmtf_tests::library::View;

#[test]
fn published_files_have_64_bit_floats() {
    for (name, file) in PUBLISHED {
        expect(file, 3, name);
    }
}

#[test]
fn derived_files_are_accepted() {
    for (name, file) in DERIVED.iter().filter(|(_, file)| file.len() < 1_000_000) {
        expect(file, 0, name);
    }
}

/// Each view walks the file, so the largest one is asked for a few names only.
#[test]
fn largest_file() {
    let file = derived("4V5A");
    assert_eq!(mmtf_tests::independent::container(file), 0);
    assert_eq!(mmtf_tests::library::container(file), 0);
    for name in ["mmtfVersion", "xCoordList", "groupList", "no such field"] {
        mmtf_tests::check::agree_on_view(file, name.as_bytes()).unwrap();
    }
}

/// The view of a known field has the text that the file is known for.
#[test]
fn structure_id() {
    for (name, file) in DERIVED.iter().filter(|(name, _)| name.len() == 4) {
        let at = place(file, b"structureId");
        // The identifier is a short string: its body follows one lead byte.
        let start = at as u64 + 1;
        let expected = View::Part { start, length: 4 };
        expect_view(file, b"structureId", expected, name);
        assert_eq!(&file[at + 1..at + 5], name.as_bytes());
    }
}

/// Where the value after a key's bytes begins.
fn place(file: &[u8], key: &[u8]) -> usize {
    let found = file.windows(key.len()).position(|part| part == key);
    found.expect("the key stands in the file") + key.len()
}

#[test]
fn every_prefix() {
    let file = derived("4QXX");
    for n in 0..file.len() {
        expect(&file[..n], 2, &format!("{n} bytes"));
    }
    expect(&[file, &[0x00]].concat(), 11, "one byte more");
}

/// Each byte in turn replaced by some others.
#[test]
fn every_byte_replaced() {
    let file = derived("4QXX");
    let mut rng = Rng::new(4);
    for at in 0..file.len() {
        for value in [file[at] ^ 1, 0xc0, rng.byte()] {
            let mut changed = file.to_vec();
            changed[at] = value;
            if let Err(difference) = agree(&changed) {
                panic!("byte {at} is {value:02x}: {difference}");
            }
        }
    }
}

#[test]
fn damaged_copies() {
    let mut rng = Rng::new(5);
    for (name, file) in DERIVED.iter().chain(PUBLISHED) {
        if file.len() > 20_000 {
            continue;
        }
        for _ in 0..150 {
            let copy = damaged(&mut rng, file.to_vec());
            if let Err(difference) = agree(&copy) {
                panic!("{name}: {difference}\n{}", hex(&copy));
            }
        }
    }
}
