//! Runs of receipts with one receipt damaged, each by both implementations: every
//! receipt of a run in turn, every byte of a short run, every end of a run.

use mmtf_tests::check::bills::*;
use mmtf_tests::generate::bills::{
    every_station, malformed_by, rising, with_faults, Fault, Run, WAYS,
};
use mmtf_tests::generate::{damaged, Rng};
use mmtf_tests::independent::receipt::{text, Numbers, LINES};
use mmtf_tests::library::columns::Outcome;

/// The receipt that stands in the rules, and that of a refused file after it.
const TWO: [Numbers; 2] = [
    [7, 12, 0, 1, 4, 302, 1023, 1142, 16, 1],
    [7, 13, 24, 0, 0, 0, 0, 0, 0, 0],
];

/// Room for the bill of a few stations.
const ROOM: usize = 256;

/// The number that both give.
#[track_caller]
fn agreed(run: &[u8]) -> u8 {
    match agree_on_bill(run, ROOM) {
        Ok(Outcome::Done(_)) => 0,
        Ok(Outcome::Refused(number) | Outcome::Wrote(number, _)) => number,
        Err(difference) => panic!("{difference}\n{}", run.escape_ascii()),
    }
}

/// How often each number was answered.
#[derive(Debug, Default, PartialEq, Eq)]
struct Tally {
    accepted: usize,
    malformed: usize,
    not_rising: usize,
}

impl Tally {
    fn note(&mut self, number: u8) {
        match number {
            0 => self.accepted += 1,
            29 => self.malformed += 1,
            30 => self.not_rising += 1,
            other => panic!("{other} is answered"),
        }
    }
}

/// Every byte of two receipts replaced by all others. Only digits can be, and how
/// many may is counted by hand.
///
/// In the first receipt as many as `receipt_damaged` counts for it, 144. Of these
/// 17 are of its job: 10 and 11 are below the next job, 13; the others, 13 to 19
/// and 22 to 92, are not. In the second: 8 of its station, 14 to 19 and 23 to 93
/// of its job, while 10 to 12 are not above 12; verdicts 14 and 20 to 23.
#[test]
fn every_byte_replaced() {
    let run = Run::of(TWO.to_vec()).bytes;
    let mut tally = Tally::default();
    for place in 0..run.len() {
        let mut copy = run.clone();
        for byte in (0..=255).filter(|&byte| byte != run[place]) {
            copy[place] = byte;
            tally.note(agreed(&copy));
        }
    }
    let accepted = (144 - 17 + 2) + (8 + 6 + 8 + 1 + 4);
    let not_rising = (7 + 8) + 3;
    let malformed = 255 * run.len() - accepted - not_rising;
    let expected = Tally {
        accepted,
        malformed,
        not_rising,
    };
    assert_eq!(tally, expected);
}

/// Every byte removed, doubled, and every other put before it. Only a digit more
/// or less may make no 29.
#[test]
fn every_byte_removed_and_doubled() {
    let run = Run::of(TWO.to_vec()).bytes;
    let mut tally = Tally::default();
    for place in 0..run.len() {
        let mut removed = run.clone();
        let byte = removed.remove(place);
        let number = agreed(&removed);
        assert!(number == 29 || byte.is_ascii_digit(), "{place}");
        tally.note(number);
    }
    for place in 0..=run.len() {
        for byte in 0..=255 {
            let mut more = run.clone();
            more.insert(place, byte);
            let number = agreed(&more);
            assert!(number == 29 || byte.is_ascii_digit(), "{place}");
            tally.note(number);
        }
    }
    assert!(tally.accepted > 200 && tally.not_rising > 20, "{tally:?}");
}

/// A run that ends within a receipt is 29, and one that ends with a receipt is a
/// run.
#[test]
fn every_end() {
    let mut rng = Rng::new(300);
    let receipts = rising(&mut rng, &[7, 42, 99], 9);
    let Run { bytes, .. } = Run::of(receipts.clone());
    let mut ends = vec![0];
    for receipt in &receipts {
        ends.push(ends[ends.len() - 1] + text(receipt).len());
    }
    for n in 0..=bytes.len() {
        let case = format!("the first {n} bytes");
        match ends.iter().position(|&end| end == n) {
            Some(count) => {
                let run = Run::of(receipts[..count].to_vec());
                expect_bill(&bytes[..n], &run.bill(), &case);
            }
            None => expect_no_bill(&bytes[..n], LONGEST, 29, &case),
        }
    }
}

/// Every receipt of a run in turn is spoilt in every way, at every line.
#[test]
fn every_receipt_malformed() {
    let mut rng = Rng::new(301);
    let receipts = rising(&mut rng, &every_station(), 40);
    let whole = Run::of(receipts.clone());
    expect_bill(&whole.bytes, &whole.bill(), "the whole run");
    let texts: Vec<String> = receipts.iter().map(text).collect();
    for place in 0..receipts.len() {
        let before = texts[..place].concat().into_bytes();
        let after = texts[place + 1..].concat().into_bytes();
        for way in 0..WAYS {
            for line in 0..LINES.len() {
                let spoilt = malformed_by(way, line, &receipts[place]);
                let run = [&before[..], &spoilt, &after].concat();
                let case = format!("receipt {place}, way {way}, line {line}");
                expect_no_bill(&run, ROOM, 29, &case);
            }
        }
    }
}

/// Every receipt of a run in turn has a job that does not rise, with a text after
/// it that is no receipt and without; and one before it.
#[test]
fn every_receipt_not_rising() {
    let mut rng = Rng::new(302);
    for count in [2, 3, 40, 200] {
        let receipts = rising(&mut rng, &[1, 9, 10, 42, 99], count);
        for place in 1..count {
            let job = [(place, Fault::Job)];
            let mut expect = |faults: &[(usize, Fault)], number: u8| {
                let run = with_faults(&mut rng, receipts.clone(), faults);
                expect_no_bill(&run, ROOM, number, &format!("{faults:?}"));
            };
            expect(&job, 30);
            expect(&[(place, Fault::Both)], 29);
            expect(&[(place - 1, Fault::Text), job[0]], 29);
            if place + 1 < count {
                expect(&[job[0], (place + 1, Fault::Text)], 30);
                expect(&[job[0], (count - 1, Fault::Text)], 30);
            }
        }
    }
}

/// Every receipt of a run in turn with one to three changes at random.
#[test]
fn every_receipt_damaged() {
    let mut rng = Rng::new(303);
    let receipts = rising(&mut rng, &[9, 10, 11], 24);
    let texts: Vec<Vec<u8>> = receipts.iter().map(|r| text(r).into_bytes()).collect();
    let mut tally = Tally::default();
    for place in 0..texts.len() {
        for _ in 0..1_000 {
            let mut copy = texts.clone();
            copy[place] = damaged(&mut rng, copy[place].clone());
            tally.note(agreed(&copy.concat()));
        }
    }
    assert!(tally.accepted > 200 && tally.not_rising > 40, "{tally:?}");
}

/// Receipts exchanged, left out, and put in again. Of one station each change of
/// order is 30, and so is a receipt that comes twice.
#[test]
fn receipts_exchanged() {
    let mut rng = Rng::new(304);
    let receipts = rising(&mut rng, &[42], 24);
    for first in 0..receipts.len() {
        let mut without = receipts.clone();
        without.remove(first);
        let without = Run::of(without);
        expect_bill(&without.bytes, &without.bill(), "one left out");
        for second in first + 1..receipts.len() {
            let mut exchanged = receipts.clone();
            exchanged.swap(first, second);
            expect_no_bill(&Run::of(exchanged).bytes, ROOM, 30, "two exchanged");
        }
        for second in 0..=receipts.len() {
            let mut again = receipts.clone();
            again.insert(second, receipts[first]);
            expect_no_bill(&Run::of(again).bytes, ROOM, 30, "one twice");
        }
    }
}
