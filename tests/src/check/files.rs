//! Runs one file through the library and through the independent
//! implementation: the whole check, and matrices.

use super::hex;
use crate::independent;
use crate::library::matrix::{matrix, Matrix};
use crate::library::{self, matrix::Rows};

/// Compares both on one file. Gives its number, or says how the two differ.
pub fn agree_on_verdict(file: &[u8]) -> Result<u8, String> {
    let file: Box<[u8]> = file.into();
    let number = independent::verdict(&file);
    match library::verdict(&file) {
        answer if answer == number => Ok(number),
        answer => Err(format!("verdict: library {answer}, expected {number}")),
    }
}

/// Compares both on one matrix. Gives what both gave.
pub fn agree_on_matrix(file: &[u8], assembly: u64, transform: u64) -> Result<Matrix, String> {
    let file: Box<[u8]> = file.into();
    let expected = expected_matrix(&file, assembly, transform);
    let answer = matrix(&file, assembly, transform);
    match answer == expected {
        true => Ok(expected),
        false => Err(format!(
            "matrix {assembly}, {transform}: library {answer:?}, expected {expected:?}"
        )),
    }
}

/// What the library's matrix must answer.
pub fn expected_matrix(file: &[u8], assembly: u64, transform: u64) -> Matrix {
    match independent::matrix(file, assembly, transform) {
        Ok(rows) => Matrix::Rows(rows),
        Err(refusal) => Matrix::Refused(refusal.number()),
    }
}

/// Holds both to a number written down beforehand.
#[track_caller]
pub fn expect_verdict(file: &[u8], number: u8, case: &str) {
    let own = independent::verdict(file);
    assert_eq!(own, number, "{case}: independent\n{}", hex(file));
    let answer = library::verdict(file);
    assert_eq!(answer, number, "{case}: library\n{}", hex(file));
}

/// Holds both to a matrix written down beforehand.
#[track_caller]
pub fn expect_matrix(file: &[u8], at: [u64; 2], rows: Rows, case: &str) {
    expect_answer(file, at, Matrix::Rows(rows), case);
}

/// Holds both to a matrix's number written down beforehand.
#[track_caller]
pub fn expect_no_matrix(file: &[u8], at: [u64; 2], number: u8, case: &str) {
    expect_answer(file, at, Matrix::Refused(number), case);
}

#[track_caller]
fn expect_answer(file: &[u8], [assembly, transform]: [u64; 2], expected: Matrix, case: &str) {
    let own = expected_matrix(file, assembly, transform);
    assert_eq!(own, expected, "{case}: independent\n{}", hex(file));
    let answer = matrix(file, assembly, transform);
    assert_eq!(answer, expected, "{case}: library\n{}", hex(file));
}
