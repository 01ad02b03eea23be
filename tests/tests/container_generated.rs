//! Generated inputs, each through both implementations: the container, and
//! views by each outer key and by names that are absent.

use mmtf_tests::check::{agree, hex};
use mmtf_tests::generate::{case, Kind, Rng, KINDS};

/// How many inputs are run in all, at the least.
const INPUTS: u64 = 240_000;

#[test]
fn shares_make_a_hundred() {
    let total: u64 = KINDS.iter().map(|(_, share)| share).sum();
    assert_eq!(total, 100);
}

/// Runs the share of a kind. Gives how often each number came up.
fn run(kind: Kind) -> [u64; 12] {
    let (_, share) = KINDS[kind as usize];
    let mut rng = Rng::new(0x6d6d_7466 ^ (kind as u64) << 40);
    let mut numbers = [0; 12];
    for n in 0..INPUTS * share / 100 {
        let case = case(kind, &mut rng);
        match agree(&case.file) {
            Err(difference) => panic!("{kind:?} {n}: {difference}\n{}", hex(&case.file)),
            Ok(number) => {
                let expected = case.expected.unwrap_or(number);
                assert_eq!(number, expected, "{kind:?} {n}\n{}", hex(&case.file));
                numbers[number as usize] += 1;
            }
        }
    }
    numbers
}

/// Each of these numbers must have come up, or the kind shows too little.
fn run_and_meet(kind: Kind, met: &[u8]) {
    let numbers = run(kind);
    for &number in met {
        assert!(numbers[number as usize] > 0, "{kind:?} never gave {number}");
    }
}

#[test]
fn kinds_stand_in_order() {
    for (place, (kind, _)) in KINDS.iter().enumerate() {
        assert_eq!(*kind as usize, place);
    }
}

#[test]
fn random_short() {
    run_and_meet(Kind::RandomShort, &[0, 2, 3, 5, 8, 10, 11]);
}

#[test]
fn random_middle() {
    run_and_meet(Kind::RandomMiddle, &[3, 8, 10, 11]);
}

#[test]
fn lead_streams() {
    run_and_meet(Kind::LeadStream, &[0, 2, 3, 4, 5, 8, 9, 11]);
}

#[test]
fn documents() {
    run_and_meet(Kind::Document, &[0]);
}

#[test]
fn deep_documents() {
    run_and_meet(Kind::DeepDocument, &[0]);
}

#[test]
fn faulty_documents() {
    run_and_meet(Kind::FaultyDocument, &[2, 3, 4, 5, 6, 7, 8, 9, 10, 11]);
}

#[test]
fn damaged_documents() {
    run_and_meet(Kind::DamagedDocument, &[0, 2, 3, 4, 5, 8, 9, 10, 11]);
}

#[test]
fn damaged_corpus() {
    run_and_meet(Kind::DamagedCorpus, &[0, 2, 3, 5, 8, 11]);
}

#[test]
fn corpus_prefixes() {
    run_and_meet(Kind::CorpusPrefix, &[2]);
}

#[test]
fn nesting() {
    run_and_meet(Kind::Nesting, &[0, 6]);
}

#[test]
fn map_sizes() {
    run_and_meet(Kind::MapSize, &[0, 7]);
}

#[test]
fn keys() {
    run_and_meet(Kind::Keys, &[0, 9]);
}

#[test]
fn strings() {
    run_and_meet(Kind::Strings, &[0, 3, 5]);
}

#[test]
fn lead_bytes() {
    run_and_meet(Kind::LeadByte, &[0, 2, 3, 8, 10, 11]);
}
