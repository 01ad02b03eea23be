//! Bills of generated runs of receipts, each through both implementations with
//! rooms around the bill's size: whole, with jobs that do not rise, with texts
//! that are no receipts, cut and damaged. The bill or the number that is known
//! from the making of a run is the one that both give.

use mmtf_tests::check::bills::*;
use mmtf_tests::generate::bills::*;
use mmtf_tests::generate::receipts::{JOBS, STATIONS};
use mmtf_tests::generate::Rng;

/// How many generated runs there are, and how many of thousands of receipts.
const RUNS: u64 = 30_000;
const LARGE: u64 = 30;

const _: () = assert!(RUNS * COMPARED >= 200_000);

/// How many calls were compared, and how often each number was answered.
#[derive(Debug, Default)]
struct Tally {
    compared: u64,
    bills: u64,
    malformed: u64,
    not_rising: u64,
}

impl Tally {
    /// Compares both on a run whose answer may be known, and counts it.
    fn note(&mut self, rng: &mut Rng, case: BillCase) {
        let shown = || case.run[..case.run.len().min(20_000)].escape_ascii();
        let agreed = match agree_on_bills(rng, &case.run) {
            Ok(agreed) => agreed,
            Err(difference) => panic!("{difference}\n{}", shown()),
        };
        if let Some(expected) = &case.expected {
            assert_eq!(agreed, *expected, "{}", shown());
        }
        self.compared += COMPARED;
        match agreed {
            Ok(_) => self.bills += 1,
            Err(29) => self.malformed += 1,
            Err(30) => self.not_rising += 1,
            Err(other) => panic!("{other} is answered"),
        }
    }
}

/// At least 200,000 calls are compared, and each answer comes up often.
#[test]
fn runs() {
    let mut rng = Rng::new(0x6269_6c6c);
    let mut tally = Tally::default();
    for (kind, share) in BILL_KINDS {
        for _ in 0..RUNS * share / 100 {
            let case = bill_case(kind, &mut rng);
            tally.note(&mut rng, case);
        }
    }
    assert!(tally.compared >= 200_000, "{tally:?}");
    let least = RUNS / 5;
    assert!(tally.bills >= least, "{tally:?}");
    assert!(tally.malformed >= least, "{tally:?}");
    assert!(tally.not_rising >= least, "{tally:?}");
}

#[test]
fn shares_make_a_hundred() {
    let total: u64 = BILL_KINDS.iter().map(|(_, share)| share).sum();
    assert_eq!(total, 100);
}

/// Thousands of receipts over all stations: whole, and with faults at the first
/// place that each can have, at the last, and at any.
#[test]
fn thousands_of_receipts() {
    let mut rng = Rng::new(0x7468_6f75);
    let mut tally = Tally::default();
    for _ in 0..LARGE {
        let count = rng.within(1_000, 5_000);
        let receipts = rising(&mut rng, &every_station(), count);
        let met = |station| receipts.iter().any(|receipt| receipt[0] == station);
        assert!((1..=99).all(met), "a station has no receipt");
        tally.note(&mut rng, BillCase::whole(receipts.clone()));
        for (fault, number) in [(Fault::Job, 30), (Fault::Text, 29), (Fault::Both, 29)] {
            for place in [1, count - 1, rng.within(1, count - 1)] {
                let run = with_faults(&mut rng, receipts.clone(), &[(place, fault)]);
                tally.note(&mut rng, BillCase::refused(number, run));
            }
        }
    }
    assert_eq!(tally.bills, LARGE);
    assert_eq!(tally.malformed, 6 * LARGE);
    assert_eq!(tally.not_rising, 3 * LARGE);
}

/// Every two jobs at the ends of their digits, one after the other or with other
/// stations' receipts between them: the second is above the first, or it is 30.
#[test]
fn pairs_of_jobs() {
    let mut rng = Rng::new(0x7061_6972);
    let mut tally = Tally::default();
    for first in JOBS {
        for second in JOBS {
            for station in STATIONS {
                let other = station % 99 + 1;
                for between in [0, 1, 5] {
                    let mut receipts = vec![receipt(&mut rng, station, first)];
                    receipts.extend(rising(&mut rng, &[other], between));
                    receipts.push(receipt(&mut rng, station, second));
                    let case = match second > first {
                        true => BillCase::whole(receipts),
                        false => BillCase::refused(30, Run::of(receipts).bytes),
                    };
                    tally.note(&mut rng, case);
                }
            }
        }
    }
    // Of 12 jobs 66 pairs rise, and 78 do not.
    assert_eq!((tally.bills, tally.not_rising), (66 * 12, 78 * 12));
}

/// Every station after every other: their jobs do not touch each other.
#[test]
fn pairs_of_stations() {
    let mut rng = Rng::new(0x7374_6174);
    let mut tally = Tally::default();
    for first in 1..=99 {
        for second in 1..=99 {
            let receipts = vec![receipt(&mut rng, first, 12), receipt(&mut rng, second, 12)];
            let case = match first == second {
                true => BillCase::refused(30, Run::of(receipts).bytes),
                false => BillCase::whole(receipts),
            };
            tally.note(&mut rng, case);
        }
    }
    assert_eq!((tally.bills, tally.not_rising), (99 * 98, 99));
}
