//! The structure files opened: published, derived, cut, damaged, and with every
//! field taken out in turn.

use mmtf_tests::check::opening::expect_agreement;
use mmtf_tests::corpus::{derived, DERIVED, PUBLISHED};
use mmtf_tests::generate::{damaged, Rng};
use mmtf_tests::independent::outer_entries;
use mmtf_tests::library::opening::{open, Opening};

#[test]
fn published_files_are_refused() {
    for (name, file) in PUBLISHED {
        assert_eq!(expect_agreement(file, name), 3, "{name}");
    }
}

#[test]
fn derived_files_are_opened() {
    for (name, file) in DERIVED {
        let number = if *name == "4CUP-0.2" { 24 } else { 0 };
        assert_eq!(expect_agreement(file, name), number, "{name}");
    }
}

#[test]
fn every_prefix() {
    let file = derived("4QXX");
    for n in (0..file.len()).step_by(7) {
        assert_eq!(expect_agreement(&file[..n], &format!("{n} bytes")), 2);
    }
}

/// Without an entry, and with the entries in another order.
#[test]
fn every_entry_left_out_or_last() {
    for name in ["4QXX", "3NJW"] {
        let entries = outer_entries(derived(name)).expect("an accepted container");
        for left_out in 0..entries.len() {
            let mut file = vec![0xde, 0, entries.len() as u8 - 1];
            let mut turned = vec![0xde, 0, entries.len() as u8];
            for place in 0..entries.len() {
                let (key, value) = entries[(left_out + 1 + place) % entries.len()];
                let entry = [&[0xd9, key.len() as u8], key, value].concat();
                turned.extend(&entry);
                if place + 1 < entries.len() {
                    file.extend(&entry);
                }
            }
            expect_agreement(&file, &format!("{name}, entry {left_out} left out"));
            let number = expect_agreement(&turned, &format!("{name}, entry {left_out} last"));
            assert_eq!(number, 0, "{name}, entry {left_out} last");
        }
    }
}

#[test]
fn damaged_copies() {
    let mut rng = Rng::new(41);
    for (name, file) in DERIVED.iter().chain(PUBLISHED) {
        if file.len() > 60_000 {
            continue;
        }
        for _ in 0..60 {
            let copy = damaged(&mut rng, file.to_vec());
            expect_agreement(&copy, name);
        }
    }
}

/// Bits changed, so that files are refused late, or opened with other places.
#[test]
fn flipped_copies() {
    let mut rng = Rng::new(42);
    let mut opened = 0;
    for name in ["4QXX", "1BNA", "3NJW"] {
        for _ in 0..400 {
            let mut copy = derived(name).to_vec();
            let at = rng.below(copy.len());
            copy[at] ^= 1 << rng.below(8);
            expect_agreement(&copy, name);
            opened += u32::from(matches!(open(&copy, 64), Opening::Fields { .. }));
        }
    }
    assert!(opened > 100, "{opened} of 1,200 were opened");
}
