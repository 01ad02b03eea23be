//! Every matrix of the structure files, numbers past the last, and damaged
//! copies.

use mmtf_tests::check::files::{agree_on_matrix, expect_matrix, expect_no_matrix};
use mmtf_tests::check::hex;
use mmtf_tests::corpus::{derived, DERIVED, PUBLISHED};
use mmtf_tests::generate::{damaged, Rng};
use mmtf_tests::library::matrix::Matrix;

/// How many transforms each assembly has.
const TRANSFORMS: [(&str, &[u64]); 9] = [
    ("4QXX", &[6]),
    ("3NJW", &[1]),
    ("1BNA", &[1]),
    ("173D", &[2, 2]),
    ("1CAG", &[1]),
    ("4CUP-0.2", &[2]),
    ("1AUY", &[60, 1, 5, 6]),
    ("1IGT", &[1]),
    ("4V5A", &[1, 1]),
];

/// The last row of every matrix is 0, 0, 0, 1.
#[test]
fn every_matrix() {
    for (name, assemblies) in TRANSFORMS {
        let file = derived(name);
        for (assembly, &transforms) in (0..).zip(assemblies) {
            for transform in 0..transforms {
                match agree_on_matrix(file, assembly, transform) {
                    Ok(Matrix::Rows(rows)) => assert_eq!(rows[3], [0.0, 0.0, 0.0, 1.0], "{name}"),
                    other => panic!("{name} {assembly} {transform}: {other:?}"),
                }
            }
            for past in [transforms, transforms + 1, 1 << 32, 1 << 63, u64::MAX] {
                expect_no_matrix(file, [assembly, past], 28, name);
            }
        }
        let past = assemblies.len() as u64;
        for past in [past, past + 1, 1 << 32, 1 << 63, u64::MAX] {
            expect_no_matrix(file, [past, 0], 28, name);
        }
    }
}

#[test]
fn published_files_are_refused() {
    for (name, file) in PUBLISHED {
        for at in [[0, 0], [9, 9]] {
            expect_no_matrix(file, at, 3, name);
        }
    }
}

/// Read off the published files: the third transform of 4QXX, the last of the 60
/// of 1AUY.
#[test]
fn known_matrices() {
    let turned = [
        [-1.0, 0.0, 0.0, 9.51],
        [0.0, 1.0, 0.0, 8.408],
        [0.0, 0.0, -1.0, 17.8795],
        [0.0, 0.0, 0.0, 1.0],
    ];
    expect_matrix(derived("4QXX"), [0, 2], turned, "4QXX");
    let last = [
        [-0.309017, -0.5, 0.809017, 337.39914],
        [-0.5, 0.809017, 0.309017, 128.875],
        [-0.809017, -0.309017, -0.5, 208.52412],
        [0.0, 0.0, 0.0, 1.0],
    ];
    expect_matrix(derived("1AUY"), [0, 59], last, "1AUY");
}

#[test]
fn every_prefix() {
    let file = derived("4QXX");
    for n in 0..file.len() {
        expect_no_matrix(&file[..n], [0, 0], 2, &format!("{n} bytes"));
    }
}

/// Damaged copies of a small file, most of them in the list of assemblies.
#[test]
fn damaged_copies() {
    let file = derived("4QXX");
    let key = b"bioAssemblyList";
    let start = file.windows(key.len()).position(|part| part == key);
    let start = start.expect("the key stands in the file");
    let mut rng = Rng::new(6);
    let mut numbers = [0; 30];
    for n in 0..6_000u64 {
        let mut copy = file.to_vec();
        match n % 3 {
            0 => copy = damaged(&mut rng, copy),
            _ => {
                let at = start + rng.below(700);
                copy[at] = rng.byte();
            }
        }
        match agree_on_matrix(&copy, 0, n % 7) {
            Ok(Matrix::Refused(number)) => numbers[usize::from(number)] += 1,
            Ok(_) => numbers[0] += 1,
            Err(difference) => panic!("{difference}\n{}", hex(&copy)),
        }
    }
    for number in [0, 2, 3, 5, 8, 11, 13, 26, 28] {
        assert!(numbers[number] > 0, "{number} never came up: {numbers:?}");
    }
}

/// The files of the table are those that there are.
#[test]
fn table_is_whole() {
    let names: Vec<_> = DERIVED.iter().map(|(name, _)| *name).collect();
    assert_eq!(names, TRANSFORMS.map(|(name, _)| name));
}
