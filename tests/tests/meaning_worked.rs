//! The meanings of all numbers, with rooms around their lengths; the version; and
//! the header's limits, as the independent implementation has them.

use mmtf_tests::check::words::{
    agree_on_meaning, agree_on_version, defined, defined_text, header_version, words,
};
use mmtf_tests::independent::columns::{EXACT_LIMIT, HEADER, LENGTH_LIMIT};
use mmtf_tests::independent::receipt::LINES;
use mmtf_tests::independent::{ENTRY_LIMIT, FILE_LIMIT, LEVEL_LIMIT};
use mmtf_tests::library::columns::Outcome;

/// The numbers of the rules.
const NUMBERS: u8 = 31;

/// The header's room.
fn room() -> usize {
    defined("MMTF_MEANING_ROOM").expect("the header has it") as usize
}

#[test]
fn by_hand() {
    let written = [
        (0, "accepted"),
        (1, "the file is over the limit of 67,108,864 bytes"),
        (3, "a lead byte is not in the subset"),
        (15, "a column's codec is unknown, or not of this kind"),
        (24, "the major version is not 1"),
        (25, "the buffer is too small"),
        (29, "the receipt is malformed"),
        (30, "the job number does not rise within its station"),
    ];
    for (number, words) in written {
        match agree_on_meaning(number, 64) {
            Ok(Outcome::Done(output)) => assert_eq!(output.values, words.as_bytes(), "{number}"),
            other => panic!("{number}: {other:?}"),
        }
    }
}

#[test]
fn all_numbers_and_rooms() {
    for number in 0..=u8::MAX {
        for room in 0..=room() + 2 {
            let agreed = agree_on_meaning(number, room);
            let refused = match (words(number), number < NUMBERS) {
                (Some(words), true) => (words.len() > room).then_some(25),
                (None, false) => Some(28),
                (words, _) => panic!("{number}: {words:?}"),
            };
            match (agreed, refused) {
                (Ok(Outcome::Done(_)), None) => (),
                (Ok(Outcome::Refused(number)), Some(right)) => assert_eq!(number, right),
                (other, _) => panic!("{number}, room {room}: {other:?}"),
            }
        }
    }
}

/// A buffer with the header's room is never too small, and the words are plain
/// text that a sentence can go on with.
#[test]
fn words_fit() {
    for number in 0..NUMBERS {
        let words = words(number).expect("words");
        assert!(!words.is_empty() && words.len() <= room(), "{number}");
        let plain = |byte: u8| (b' '..=b'~').contains(&byte);
        assert!(words.bytes().all(plain), "{number}");
        assert!(!words.ends_with(['.', ' ']) && !words.starts_with(' '));
        let others = (0..number).filter_map(mmtf_tests::check::words::words);
        assert!(others.into_iter().all(|other| other != words), "{number}");
    }
}

#[test]
fn version() {
    agree_on_version().expect("the version of the header");
    let parts = ["MAJOR", "MINOR", "PATCH"].map(|part| format!("MMTF_VERSION_{part}"));
    let parts = parts.map(|name| defined(&name).expect("a part").to_string());
    assert_eq!(defined_text("MMTF_VERSION"), Some(&parts.join(".")[..]));
    assert_eq!(header_version(), Some(1_000));
}

#[test]
fn limits() {
    let limits = [
        ("MMTF_FILE_LIMIT", FILE_LIMIT),
        ("MMTF_NESTING_LIMIT", LEVEL_LIMIT as usize),
        ("MMTF_ENTRY_LIMIT", ENTRY_LIMIT as usize),
        ("MMTF_LENGTH_LIMIT", LENGTH_LIMIT),
        ("MMTF_NAME_LIMIT", 255),
        ("MMTF_EXACT_LIMIT", EXACT_LIMIT as usize),
        ("MMTF_COUNT_LIMIT", 16_777_216),
        ("MMTF_GROUP_TYPE_LIMIT", 4_096),
        ("MMTF_STATION_LIMIT", 99),
        ("MMTF_JOB_LIMIT", 999_999),
        ("MMTF_HEADER_SIZE", HEADER),
        ("MMTF_RECEIPT_NUMBERS", LINES.len()),
    ];
    for (name, limit) in limits {
        assert_eq!(defined(name), Some(limit as u64), "{name}");
    }
}
