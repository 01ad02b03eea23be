//! Receipts of the structure files, with their numbers written down from what
//! another reader showed of them.

use mmtf_tests::check::receipts::*;
use mmtf_tests::corpus::{derived, DERIVED, PUBLISHED};
use mmtf_tests::generate::Rng;
use mmtf_tests::library;

/// Models, chains, groups, atoms, bonds and named fields of each file.
const NUMBERS: [(&str, [u32; 6]); 9] = [
    ("173D", [1, 8, 124, 512, 458, 37]),
    ("1AUY", [1, 3, 541, 4045, 4143, 38]),
    ("1BNA", [1, 4, 104, 566, 544, 36]),
    ("1CAG", [1, 12, 179, 674, 640, 37]),
    ("1IGT", [1, 6, 1334, 12956, 13247, 38]),
    ("3NJW", [1, 2, 44, 169, 155, 36]),
    ("4CUP-0.2", [1, 6, 265, 1107, 978, 38]),
    ("4QXX", [1, 2, 7, 37, 33, 38]),
    ("4V5A", [1, 1598, 22664, 290487, 313693, 38]),
];

/// The text of a receipt by station 42 and its job 4242.
fn receipt(verdict: u8, numbers: [u32; 6], units: u32) -> String {
    let [models, chains, groups, atoms, bonds, fields] = numbers;
    format!(
        "station=42\njob=4242\nverdict={verdict}\nmodels={models}\nchains={chains}\n\
         groups={groups}\natoms={atoms}\nbonds={bonds}\nfields={fields}\nunits={units}\n"
    )
}

/// 4CUP-0.2 is of version 0.2, so that it is refused and nothing of it counts.
#[test]
fn derived_files() {
    assert_eq!(NUMBERS.len(), DERIVED.len());
    for (name, numbers) in NUMBERS {
        let expected = match name {
            "4CUP-0.2" => receipt(24, [0; 6], 0),
            _ => receipt(0, numbers, 1),
        };
        expect_written([42, 4242], derived(name), &expected, name);
    }
}

/// They have 64-bit floats.
#[test]
fn published_files() {
    for (name, file) in PUBLISHED {
        expect_written([42, 4242], file, &receipt(3, [0; 6], 0), name);
    }
}

/// A file that is cut short is refused with 2 wherever it is cut.
#[test]
fn every_prefix() {
    let file = derived("4QXX");
    for n in 0..file.len() {
        let case = format!("{n} bytes");
        expect_written([42, 4242], &file[..n], &receipt(2, [0; 6], 0), &case);
    }
}

/// With a bit changed in each byte: a receipt shows a unit exactly when the file
/// is accepted.
#[test]
fn every_byte_changed() {
    let mut rng = Rng::new(42);
    let mut file = derived("4QXX").to_vec();
    let mut units = [0; 2];
    for place in 0..file.len() {
        let bit = 1 << rng.below(8);
        file[place] ^= bit;
        match agree_on_receipt([42, 4242], &file) {
            Ok((_, [.., shown])) => {
                let accepted = library::verdict(&file) == 0;
                assert_eq!(shown, u32::from(accepted), "byte {place}");
                units[shown as usize] += 1;
            }
            Err(difference) => panic!("byte {place}: {difference}"),
        }
        file[place] ^= bit;
    }
    assert!(units[0] > 1_000 && units[1] > 500, "{units:?}");
}
