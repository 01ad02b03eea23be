//! The whole check of the structure files: published, derived, cut, damaged,
//! and with every field taken out in turn.

use mmtf_tests::check::files::{agree_on_verdict, expect_verdict};
use mmtf_tests::check::hex;
use mmtf_tests::corpus::{derived, DERIVED, PUBLISHED};
use mmtf_tests::generate::{damaged, Rng};
use mmtf_tests::independent::{outer_entries, Field, FIELDS, REQUIRED};

#[test]
fn published_files_have_64_bit_floats() {
    for (name, file) in PUBLISHED {
        expect_verdict(file, 3, name);
    }
}

/// 4CUP-0.2 is of version 0.2.
#[test]
fn derived_files_are_accepted() {
    for (name, file) in DERIVED {
        let number = if *name == "4CUP-0.2" { 24 } else { 0 };
        expect_verdict(file, number, name);
    }
}

#[test]
fn every_prefix() {
    let file = derived("4QXX");
    for n in 0..file.len() {
        expect_verdict(&file[..n], 2, &format!("{n} bytes"));
    }
    expect_verdict(&[file, &[0x00]].concat(), 11, "one byte more");
}

/// The file with this entry left out; the outer map of each has a head of three
/// bytes.
fn without(file: &[u8], left_out: usize) -> Vec<u8> {
    let entries = outer_entries(file).expect("an accepted container");
    let mut out = vec![0xde, 0, entries.len() as u8 - 1];
    for (place, (key, value)) in entries.into_iter().enumerate() {
        if place != left_out {
            out.extend([0xd9, key.len() as u8]);
            out.extend(key);
            out.extend(value);
        }
    }
    out
}

/// Without a required field 12, without the bonds outside 20, and without any
/// other field 0.
#[test]
fn every_field_left_out() {
    for name in ["4QXX", "3NJW", "1BNA", "173D", "1CAG", "1AUY", "1IGT"] {
        let file = derived(name);
        let keys = outer_entries(file).expect("an accepted container");
        for (place, (key, _)) in keys.into_iter().enumerate() {
            let key = String::from_utf8_lossy(key);
            let required = FIELDS[..REQUIRED].iter().any(|field| field.name() == key);
            let number = match required {
                true => 12,
                false if key == Field::BondAtomList.name() => 20,
                false => 0,
            };
            expect_verdict(&without(file, place), number, &format!("{name}, {key}"));
        }
    }
}

/// Each byte in turn replaced by some others.
#[test]
fn every_byte_replaced() {
    let file = derived("4QXX");
    let mut rng = Rng::new(4);
    let mut numbers = [0; 30];
    for at in 0..file.len() {
        for value in [file[at] ^ 1, file[at].wrapping_add(1), 0xc0, rng.byte()] {
            let mut changed = file.to_vec();
            changed[at] = value;
            match agree_on_verdict(&changed) {
                Ok(number) => numbers[usize::from(number)] += 1,
                Err(difference) => panic!("byte {at} is {value:02x}: {difference}"),
            }
        }
    }
    for number in [0, 2, 3, 5, 8, 12, 13, 15, 16, 17, 18, 19, 20, 21, 22, 24] {
        assert!(numbers[number] > 0, "{number} never came up: {numbers:?}");
    }
}

#[test]
fn damaged_copies() {
    let mut rng = Rng::new(5);
    for (name, file) in DERIVED.iter().chain(PUBLISHED) {
        if file.len() > 60_000 {
            continue;
        }
        for _ in 0..300 {
            let copy = damaged(&mut rng, file.to_vec());
            if let Err(difference) = agree_on_verdict(&copy) {
                panic!("{name}: {difference}\n{}", hex(&copy));
            }
        }
    }
}

/// Bits changed in the large files, which keep their sizes.
#[test]
fn large_files_flipped() {
    let mut rng = Rng::new(7);
    for name in ["1AUY", "1IGT", "4V5A"] {
        let mut copy = derived(name).to_vec();
        for _ in 0..if name == "4V5A" { 40 } else { 300 } {
            let at = rng.below(copy.len());
            let bit = 1 << rng.below(8);
            copy[at] ^= bit;
            if let Err(difference) = agree_on_verdict(&copy) {
                panic!("{name}, byte {at}: {difference}");
            }
            copy[at] ^= bit;
        }
    }
}
