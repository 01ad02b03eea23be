//! The sorts of cases: what each is, how many there are of it, and how one is
//! run.

use mmtf_tests::check::bills::agree_on_bills;
use mmtf_tests::check::columns;
use mmtf_tests::check::files::{agree_on_matrix, agree_on_verdict};
use mmtf_tests::check::opening::agree_on_opening;
use mmtf_tests::check::receipts::{agree_on_reading, agree_on_receipt, agree_on_receipts};
use mmtf_tests::check::values::{agree_on_values, VALUE_KINDS};
use mmtf_tests::check::words::{agree_on_meaning, agree_on_version};
use mmtf_tests::check::{agree, hex};
use mmtf_tests::generate::bills::{bill_case, BillCase, BILL_KINDS};
use mmtf_tests::generate::columns::{column_case, COLUMN_KINDS};
use mmtf_tests::generate::files::{file_case, matrix_numbers, FILE_KINDS};
use mmtf_tests::generate::receipts::{receipt_text, TEXT_KINDS};
use mmtf_tests::generate::{case, Rng, KINDS};
use mmtf_tests::library::columns::Outcome;
use mmtf_tests::library::matrix::Matrix;

use crate::large;
use crate::tally::Tally;

#[derive(Clone, Copy, PartialEq, Eq)]
pub enum Sort {
    Containers,
    Columns,
    Values,
    Files,
    Matrices,
    Written,
    Read,
    Bills,
    Large,
}

/// Every sort, with how many of a thousand cases are of it, and what a case is.
pub const SORTS: [(Sort, u64, &str); 9] = [
    (
        Sort::Containers,
        236,
        "a container and its views by each outer key",
    ),
    (
        Sort::Columns,
        230,
        "a column by every decoder, cells, encoded back",
    ),
    (Sort::Values, 140, "values by an encoder, and decoded again"),
    (
        Sort::Files,
        170,
        "the verdict on a file, its receipt, the file opened",
    ),
    (Sort::Matrices, 50, "three matrices of a file"),
    (
        Sort::Written,
        50,
        "receipts of a file: stations, jobs, rooms",
    ),
    (
        Sort::Read,
        79,
        "a text read as a receipt; the meaning of a number",
    ),
    (Sort::Bills, 40, "the bill of a run of receipts: rooms"),
    (Sort::Large, 5, "large files, columns and runs"),
];

impl Sort {
    /// The sort of a case: the sorts stand in turn within each thousand.
    pub fn of(number: u64) -> Sort {
        // 389 has no factor in common with 1,000.
        let mut place = number % 1_000 * 389 % 1_000;
        for (sort, share, _) in SORTS {
            if place < share {
                return sort;
            }
            place -= share;
        }
        unreachable!("the shares make a thousand")
    }

    pub fn name(self) -> &'static str {
        match self {
            Sort::Containers => "containers",
            Sort::Columns => "columns",
            Sort::Values => "values",
            Sort::Files => "files",
            Sort::Matrices => "matrices",
            Sort::Written => "written",
            Sort::Read => "read",
            Sort::Bills => "bills",
            Sort::Large => "large",
        }
    }
}

/// Runs a case, which seed and number tell, and counts what both answer. Gives
/// the difference if there is one.
pub fn run(seed: u64, number: u64, tally: &mut Tally) -> Result<(), String> {
    let sort = Sort::of(number);
    let mut rng = Rng::new(Rng::new(seed).word() ^ Rng::new(!number).word());
    tally.case(sort);
    match sort {
        Sort::Containers => container(&mut rng, tally),
        Sort::Columns => column(&mut rng, tally),
        Sort::Values => values(&mut rng, tally),
        Sort::Files => file(&mut rng, tally),
        Sort::Matrices => matrices(&mut rng, tally),
        Sort::Written => written(&mut rng, tally),
        Sort::Read => read(&mut rng, tally),
        Sort::Bills => bill(&mut rng, tally),
        Sort::Large => large::run(&mut rng, tally),
    }
}

/// A kind, each as often as its share says.
fn pick<K: Copy>(rng: &mut Rng, kinds: &[(K, u64)]) -> K {
    let all: u64 = kinds.iter().map(|(_, share)| share).sum();
    let mut place = rng.below(all as usize) as u64;
    for &(kind, share) in kinds {
        if place < share {
            return kind;
        }
        place -= share;
    }
    unreachable!("below the sum of the shares")
}

/// Both give the number that the case expects, if it tells.
pub fn hold(given: u8, expected: Option<u8>) -> Result<(), String> {
    match expected {
        Some(expected) if expected != given => {
            Err(format!("both give {given}, the case expects {expected}"))
        }
        _ => Ok(()),
    }
}

/// The difference, with the bytes that were asked about.
pub fn with_bytes<T>(result: Result<T, String>, bytes: &[u8]) -> Result<T, String> {
    result.map_err(|difference| format!("{difference}\n{}", hex(bytes)))
}

fn container(rng: &mut Rng, tally: &mut Tally) -> Result<(), String> {
    let case = case(pick(rng, &KINDS), rng);
    let number = with_bytes(agree(&case.file), &case.file)?;
    tally.note(Sort::Containers, number);
    with_bytes(hold(number, case.expected), &case.file)
}

fn column(rng: &mut Rng, tally: &mut Tally) -> Result<(), String> {
    let case = column_case(pick(rng, &COLUMN_KINDS), rng);
    let column = case.column.into_boxed_slice();
    let agreed = columns::agree(&column, rng.word(), &mut tally.columns);
    let numbers = with_bytes(agreed, &column)?;
    with_bytes(hold(numbers.own, case.own), &column)?;
    with_bytes(hold(numbers.float32, case.float32), &column)
}

fn values(rng: &mut Rng, tally: &mut Tally) -> Result<(), String> {
    let number = agree_on_values(pick(rng, &VALUE_KINDS), rng)?;
    tally.note(Sort::Values, number);
    Ok(())
}

fn file(rng: &mut Rng, tally: &mut Tally) -> Result<(), String> {
    let case = file_case(pick(rng, &FILE_KINDS), rng);
    let verdict = with_bytes(verdict_and_receipt(&case.file), &case.file)?;
    tally.note(Sort::Files, verdict);
    with_bytes(hold(verdict, case.expected), &case.file)
}

/// The verdict, which the receipt shows and the file is opened by.
pub fn verdict_and_receipt(file: &[u8]) -> Result<u8, String> {
    let verdict = agree_on_verdict(file)?;
    let opened = agree_on_opening(file)?;
    if opened != verdict {
        return Err(format!("verdict {verdict}, opened with {opened}"));
    }
    let (_, [_, _, shown, ..]) = agree_on_receipt([7, 12], file)?;
    match shown == u32::from(verdict) {
        true => Ok(verdict),
        false => Err(format!("verdict {verdict}, the receipt shows {shown}")),
    }
}

fn matrices(rng: &mut Rng, tally: &mut Tally) -> Result<(), String> {
    let case = file_case(pick(rng, &FILE_KINDS), rng);
    for _ in 0..3 {
        let [assembly, transform] = matrix_numbers(rng);
        let agreed = agree_on_matrix(&case.file, assembly, transform);
        let number = match with_bytes(agreed, &case.file)? {
            Matrix::Refused(number) => number,
            _ => 0,
        };
        tally.note(Sort::Matrices, number);
    }
    Ok(())
}

/// Receipts of files with fields, and of one container in four.
fn written(rng: &mut Rng, tally: &mut Tally) -> Result<(), String> {
    let file = match rng.chance(1, 4) {
        true => case(pick(rng, &KINDS), rng).file,
        false => file_case(pick(rng, &FILE_KINDS), rng).file,
    };
    let file = file.into_boxed_slice();
    let [_, _, verdict, ..] = with_bytes(agree_on_receipts(rng, &file), &file)?;
    tally.note(Sort::Written, verdict as u8);
    // Of the rooms three are too small, and four stations or jobs not allowed.
    for number in [25, 25, 25, 29, 29, 29, 29] {
        tally.note(Sort::Written, number);
    }
    Ok(())
}

fn read(rng: &mut Rng, tally: &mut Tally) -> Result<(), String> {
    let text = receipt_text(pick(rng, &TEXT_KINDS), rng).into_boxed_slice();
    let number = match agree_on_reading(&text)? {
        Outcome::Done(_) => 0,
        Outcome::Refused(number) | Outcome::Wrote(number, _) => number,
    };
    tally.note(Sort::Read, number);
    meaning(rng)
}

fn bill(rng: &mut Rng, tally: &mut Tally) -> Result<(), String> {
    let case = bill_case(pick(rng, &BILL_KINDS), rng);
    with_bytes(note_bill(rng, &case, Sort::Bills, tally), &case.run)
}

/// Both give the bill or the number that the case expects, if it tells.
pub fn note_bill(
    rng: &mut Rng,
    case: &BillCase,
    sort: Sort,
    tally: &mut Tally,
) -> Result<(), String> {
    let agreed = agree_on_bills(rng, &case.run)?;
    let expected = case.expected.as_ref().unwrap_or(&agreed);
    if agreed != *expected {
        return Err(format!("both give {agreed:?}, expected {expected:?}"));
    }
    // Of the rooms of a bill three are too small.
    let numbers = match agreed {
        Ok(_) => &[0, 25, 25, 25][..],
        Err(number) => &[number],
    };
    for &number in numbers {
        tally.note(sort, number);
    }
    Ok(())
}

/// The meaning of a number, most often one of the table, and the version.
fn meaning(rng: &mut Rng) -> Result<(), String> {
    let number = match rng.chance(1, 4) {
        true => rng.below(256),
        false => rng.below(32),
    };
    agree_on_meaning(number as u8, rng.below(72))?;
    agree_on_version()
}
