//! The meanings of the refusal numbers, the version and the limits: what the
//! library answers, and what include/mmtf.h says.

use super::calls::alike;
use super::watch::{watched, Output};
use crate::independent::Refusal;
use crate::library::columns::{Answer, Outcome};
use crate::library::words as library;

const HEADER: &str = include_str!("../../../include/mmtf.h");

/// The words that stand beside a number in the header.
pub fn words(number: u8) -> Option<&'static str> {
    let (_, numbers) = HEADER.split_once("enum mmtf_refusal {")?;
    let (numbers, _) = numbers.split_once("};")?;
    let mut rows = numbers.lines().filter_map(|line| line.split_once(" = "));
    let (_, row) = rows.find(|(_, row)| {
        let end = row.find([',', ' ']).unwrap_or(row.len());
        row[..end].parse() == Ok(number)
    })?;
    let (_, words) = row.split_once("/* ")?;
    words.strip_suffix(" */")
}

/// The number that a macro of the header stands for.
pub fn defined(name: &str) -> Option<u64> {
    let rest = |line: &'static str| line.strip_prefix("#define ")?.strip_prefix(name);
    let value = |rest: &'static str| rest.strip_prefix(' ')?.split(' ').next()?.parse().ok();
    HEADER.lines().filter_map(rest).find_map(value)
}

/// The text that a macro of the header stands for.
pub fn defined_text(name: &str) -> Option<&'static str> {
    let rest = |line: &'static str| line.strip_prefix("#define ")?.strip_prefix(name);
    let text = |rest: &'static str| rest.strip_prefix(" \"")?.strip_suffix('"');
    HEADER.lines().filter_map(rest).find_map(text)
}

/// What the call must do: 28 for a number that the header does not have, then
/// 25.
fn expected(number: u8, buffer: &mut [u8]) -> Outcome<Answer> {
    let Some(words) = words(number) else {
        return Outcome::Refused(Refusal::NoSuchEntry.number());
    };
    match buffer.get_mut(..words.len()) {
        None => Outcome::Refused(Refusal::BufferTooSmall.number()),
        Some(start) => {
            start.copy_from_slice(words.as_bytes());
            Outcome::Done(Answer {
                count: words.len() as u64,
                divisor: None,
            })
        }
    }
}

/// The words of a number into a buffer of so many bytes, or how the library
/// differs from the header.
pub fn agree_on_meaning(number: u8, room: usize) -> Result<Outcome<Output<u8>>, String> {
    let answer = watched(room, |buffer| library::meaning(number, buffer));
    let right = watched(room, |buffer| expected(number, buffer));
    alike(answer, right, || {
        format!("meaning of {number}, room {room}")
    })
}

/// The version of the header, as one number.
pub fn header_version() -> Option<u64> {
    let [major, minor, patch] =
        ["MAJOR", "MINOR", "PATCH"].map(|part| defined(&format!("MMTF_VERSION_{part}")));
    Some(major? * 10_000 + minor? * 100 + patch?)
}

/// The library's version is the header's.
pub fn agree_on_version() -> Result<(), String> {
    let (answer, right) = (library::version(), header_version());
    match Some(u64::from(answer)) == right {
        true => Ok(()),
        false => Err(format!("version: library {answer}, expected {right:?}")),
    }
}
