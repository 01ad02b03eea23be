//! Generated files opened by both, and held to the library's other calls.

use mmtf_tests::check::hex;
use mmtf_tests::check::opening::{agree_on_opening, agree_with_views, expect_agreement};
use mmtf_tests::generate::files::{file_case, FileKind, FILE_KINDS};
use mmtf_tests::generate::{case, Rng, KINDS};

/// How many files are opened in all, at the least.
const FILES: u64 = 40_000;

/// Every kind of file by its share. Each number from 12 to 24 comes up, and so
/// does 0.
#[test]
fn files() {
    let mut numbers = [0u64; 30];
    for (kind, share) in FILE_KINDS {
        let mut rng = Rng::new(0x6f70_656e ^ (kind as u64) << 40);
        for n in 0..FILES * share / 1_000 {
            let case = file_case(kind, &mut rng);
            let agreed = agree_on_opening(&case.file);
            match agreed {
                Err(difference) => panic!("{kind:?} {n}: {difference}\n{}", hex(&case.file)),
                Ok(number) => {
                    let expected = case.expected.unwrap_or(number);
                    assert_eq!(number, expected, "{kind:?} {n}\n{}", hex(&case.file));
                    numbers[usize::from(number)] += 1;
                }
            }
        }
    }
    for number in [0, 12, 13, 14, 15, 16, 17, 18, 19, 20, 21, 22, 23, 24] {
        let times = numbers[number];
        assert!(times >= 5, "{number} came up {times} times");
    }
}

/// Accepted files: every view is where the opening says.
#[test]
fn accepted_files_and_their_views() {
    let mut rng = Rng::new(43);
    for n in 0..2_000 {
        let case = file_case(FileKind::Valid, &mut rng);
        match agree_with_views(&case.file) {
            Ok(number) => assert_eq!(number, 0, "file {n}\n{}", hex(&case.file)),
            Err(difference) => panic!("file {n}: {difference}\n{}", hex(&case.file)),
        }
    }
}

/// Containers without the fields.
#[test]
fn containers() {
    let mut rng = Rng::new(44);
    for (kind, share) in KINDS {
        for n in 0..share * 4 {
            let case = case(kind, &mut rng);
            expect_agreement(&case.file, &format!("container {n}"));
        }
    }
}
