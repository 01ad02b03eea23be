//! Damaged receipts, each read by both implementations: every byte replaced,
//! removed and doubled, lines exchanged, dropped and repeated, digits and ends of
//! lines written otherwise, numbers at each limit and past it, and random bytes.

use mmtf_tests::check::receipts::*;
use mmtf_tests::generate::receipts::{any_numbers, receipt_text, TextKind, LIMIT, TEXT_KINDS};
use mmtf_tests::generate::{damaged, Rng};
use mmtf_tests::independent::receipt::{text, Numbers, LINES};
use mmtf_tests::library::columns::Outcome;

/// The receipt that stands in the rules.
const SAMPLE: Numbers = [7, 12, 0, 1, 4, 302, 1023, 1142, 16, 1];

const REFUSED: Numbers = [42, 4242, 24, 0, 0, 0, 0, 0, 0, 0];

const LEAST: Numbers = [1, 1, 0, 0, 0, 0, 0, 0, 16, 1];

const MOST: Numbers = [99, 999_999, 0, LIMIT, LIMIT, LIMIT, LIMIT, LIMIT, 39, 1];

const RECEIPTS: [Numbers; 6] = [
    SAMPLE,
    REFUSED,
    LEAST,
    MOST,
    [10, 100_000, 1, 0, 0, 0, 0, 0, 0, 0],
    [99, 9, 0, 20, 1_598, 22_664, 290_487, 313_693, 38, 1],
];

/// What both give.
#[track_caller]
fn agreed(bytes: &[u8]) -> Option<Numbers> {
    match agree_on_reading(bytes) {
        Ok(Outcome::Done(numbers)) => Some(numbers),
        Ok(_) => None,
        Err(difference) => panic!("{difference}"),
    }
}

/// How many of the receipts with one byte replaced by another are receipts too.
fn replaced(numbers: Numbers) -> usize {
    let receipt = text(&numbers).into_bytes();
    let mut read = 0;
    for place in 0..receipt.len() {
        let mut copy = receipt.clone();
        for byte in (0..=255).filter(|&byte| byte != receipt[place]) {
            copy[place] = byte;
            let other = agreed(&copy);
            assert_ne!(other, Some(numbers), "another text of the same numbers");
            read += usize::from(other.is_some());
        }
    }
    read
}

/// Every byte replaced by all others. Only digits can be, and how many may stand
/// for another is counted by hand. In the sample: 8 in station; 8 and 9 in job;
/// none in verdict; 9 and 9 in models and chains; 8 and 9 twice in groups, 8 and
/// 9 three times each in atoms and bonds; 2 (16 to 26, 36) and 3 in fields; none
/// in units.
#[test]
fn every_byte_replaced() {
    let sample = 8 + 17 + 9 + 9 + 26 + 35 + 35 + 5;
    assert_eq!(replaced(SAMPLE), sample);
    // Verdict 14, and 20 to 23.
    assert_eq!(replaced(REFUSED), 8 + 9 + 8 + 9 + 9 + 9 + 1 + 4);
    // Station 1 to 9, job 1 to 9, counts 0 to 9, fields 26, 36 and 17 to 19.
    assert_eq!(replaced(LEAST), 8 + 8 + 5 * 9 + 5);
    // Fields 29, 19 and 30 to 38; of a count the first digit may be no other, the
    // second 0 to 5, the third 0 to 6, the fourth too, and so on.
    let count = 6 + 7 + 7 + 7 + 2 + 1 + 6;
    assert_eq!(replaced(MOST), 8 + 9 + 8 + 5 * 9 + 5 * count + 2 + 9);
    for numbers in &RECEIPTS[4..] {
        replaced(*numbers);
    }
}

/// Every byte removed, doubled, and a byte put before it. Less or more digits
/// may make a receipt, and nothing else.
#[test]
fn every_byte_removed_and_doubled() {
    for numbers in RECEIPTS {
        let receipt = text(&numbers).into_bytes();
        for place in 0..receipt.len() {
            let mut removed = receipt.clone();
            let byte = removed.remove(place);
            let mut doubled = receipt.clone();
            doubled.insert(place, byte);
            for copy in [removed, doubled] {
                let other = agreed(&copy);
                assert!(other.is_none() || byte.is_ascii_digit(), "{place}");
            }
        }
        for place in 0..=receipt.len() {
            for byte in 0..=255 {
                let mut more = receipt.clone();
                more.insert(place, byte);
                let other = agreed(&more);
                assert!(other.is_none() || byte.is_ascii_digit(), "{place}");
            }
        }
    }
}

/// Every beginning of a receipt, and every ending, but the whole.
#[test]
fn cut_short() {
    for numbers in RECEIPTS {
        let receipt = text(&numbers).into_bytes();
        expect_not_read(b"", "nothing");
        for n in 1..receipt.len() {
            expect_not_read(&receipt[..n], &format!("the first {n} bytes"));
            expect_not_read(&receipt[n..], &format!("from byte {n}"));
        }
    }
}

/// The lines in another order, one of them dropped, or one put in again anywhere.
#[test]
fn lines() {
    for numbers in RECEIPTS {
        let receipt = text(&numbers);
        let lines: Vec<&str> = receipt.split_inclusive('\n').collect();
        for first in 0..lines.len() {
            let mut dropped = lines.clone();
            dropped.remove(first);
            expect_not_read(dropped.concat().as_bytes(), "a line dropped");
            for second in 0..=lines.len() {
                let mut repeated = lines.clone();
                repeated.insert(second, lines[first]);
                expect_not_read(repeated.concat().as_bytes(), "a line repeated");
            }
            for second in first + 1..lines.len() {
                let mut exchanged = lines.clone();
                exchanged.swap(first, second);
                expect_not_read(exchanged.concat().as_bytes(), "lines exchanged");
            }
        }
        let reversed: String = lines.iter().rev().copied().collect();
        expect_not_read(reversed.as_bytes(), "lines reversed");
        let twice = receipt.repeat(2);
        expect_not_read(twice.as_bytes(), "the receipt twice");
    }
}

/// The receipt with the text of one line's number changed.
fn with_digits(numbers: Numbers, line: usize, digits: impl FnOnce(String) -> String) -> String {
    let digits = digits(numbers[line].to_string());
    let name = LINES[line];
    let old = format!("{name}={}\n", numbers[line]);
    text(&numbers).replacen(&old, &format!("{name}={digits}\n"), 1)
}

/// Another text of a number.
type Form = fn(String) -> String;

/// The same number in other texts, in each line.
#[test]
fn other_texts_of_a_number() {
    let forms: [(&str, Form); 17] = [
        ("a leading zero", |n| format!("0{n}")),
        ("two leading zeros", |n| format!("00{n}")),
        ("twenty digits", |n| format!("{n:0>20}")),
        ("a plus sign", |n| format!("+{n}")),
        ("a minus sign", |n| format!("-{n}")),
        ("a space before", |n| format!(" {n}")),
        ("a space behind", |n| format!("{n} ")),
        ("a tab", |n| format!("\t{n}")),
        ("a carriage return", |n| format!("{n}\r")),
        ("an end mark", |n| format!("{n}\0")),
        ("a point", |n| format!("{n}.")),
        ("a fraction", |n| format!("{n}.0")),
        ("an underscore", |n| format!("{n}_")),
        ("two equals signs", |n| format!("={n}")),
        ("an empty line behind", |n| format!("{n}\n")),
        ("no digits", |_| String::new()),
        ("digits of another script", |n| {
            let digit = |c: char| char::from_u32(0x660 + u32::from(c) - 0x30);
            n.chars().filter_map(digit).collect()
        }),
    ];
    for numbers in RECEIPTS {
        for line in 0..LINES.len() {
            for (case, form) in forms {
                let receipt = with_digits(numbers, line, form);
                expect_not_read(receipt.as_bytes(), case);
            }
        }
    }
}

/// Texts of the whole: ends of lines, names, and what stands before and behind.
#[test]
fn other_texts_of_a_receipt() {
    for numbers in RECEIPTS {
        let receipt = text(&numbers);
        let end = receipt.len() - 1;
        let mut cases = vec![
            receipt[..end].to_string(),
            receipt.replace('\n', "\r\n"),
            receipt.replace('\n', "\r"),
            receipt.replace('\n', "\n\n"),
            receipt.replace('\n', "\0"),
            receipt.replace('=', ":"),
            receipt.replace('=', " = "),
            receipt.to_uppercase(),
            format!("{}\r\n", &receipt[..end]),
            format!("\u{feff}{receipt}"),
        ];
        for more in [
            "\n",
            "\0",
            " ",
            "0",
            "\r\n",
            "x",
            "units=1\n",
            "station=7\n",
        ] {
            cases.push(format!("{receipt}{more}"));
            cases.push(format!("{more}{receipt}"));
        }
        for case in cases {
            expect_not_read(case.as_bytes(), &case);
        }
    }
}

/// Numbers that would be small ones with fewer bits, and longer ones.
const LONG: [&str; 12] = [
    "256",
    "257",
    "65537",
    "4294967295",
    "4294967296",
    "4294967297",
    "4294967303",
    "18446744073709551616",
    "18446744073709551617",
    "340282366920938463463374607431768211457",
    "1000000000000000000000000000000",
    "100000000000000000000000000000000000000000000000000000000000000000000007",
];

/// Long numbers in each line: the first three may be a job or a count. With a
/// zero more at the end a station may be one too.
#[test]
fn long_numbers() {
    for line in 0..LINES.len() {
        let wide = matches!(line, 1 | 3..=7);
        for digits in LONG {
            let receipt = with_digits(SAMPLE, line, |_| digits.to_string());
            let read = agreed(receipt.as_bytes()).is_some();
            assert_eq!(read, wide && digits.len() <= 5, "{receipt}");
        }
        for zeros in [1, 9, 10, 19, 20, 1_000, 100_000] {
            let receipt = with_digits(SAMPLE, line, |n| n + &"0".repeat(zeros));
            let read = agreed(receipt.as_bytes()).is_some();
            let expected = zeros == 1 && (wide || line == 0);
            assert_eq!(read, expected, "line {line} with {zeros} zeros");
        }
    }
}

/// Which numbers a line may have in a receipt of an accepted file, both ends
/// included.
const RANGES: [[u32; 2]; 10] = [
    [1, 99],
    [1, 999_999],
    [0, 0],
    [0, LIMIT],
    [0, LIMIT],
    [0, LIMIT],
    [0, LIMIT],
    [0, LIMIT],
    [16, 39],
    [1, 1],
];

/// Each line at its ends and past them, the others as they were.
#[test]
fn each_limit() {
    for numbers in [SAMPLE, LEAST, MOST] {
        for (line, [least, most]) in RANGES.into_iter().enumerate() {
            let around = [
                0,
                1,
                2,
                15,
                16,
                17,
                24,
                25,
                38,
                39,
                40,
                99,
                100,
                999_999,
                1_000_000,
                least,
                most,
                most + 1,
                LIMIT - 1,
                LIMIT,
                LIMIT + 1,
                u32::MAX,
            ];
            for number in around {
                let mut changed = numbers;
                changed[line] = number;
                let read = agreed(text(&changed).as_bytes());
                let expected = (least..=most).contains(&number).then_some(changed);
                assert_eq!(read, expected, "{changed:?}");
            }
        }
    }
}

/// Every verdict of a refused file, and those past the last; with a number that
/// is not 0 in each of the seven lines after it.
#[test]
fn each_verdict() {
    for verdict in 0..=300 {
        let zeros = [99, 999_999, verdict, 0, 0, 0, 0, 0, 0, 0];
        let read = agreed(text(&zeros).as_bytes());
        let expected = (1..=24).contains(&verdict).then_some(zeros);
        assert_eq!(read, expected, "{zeros:?}");
        let mut counts = MOST;
        counts[2] = verdict;
        let read = agreed(text(&counts).as_bytes());
        assert_eq!(read, (verdict == 0).then_some(counts), "{counts:?}");
        for line in 3..LINES.len() {
            for number in [1, 16, 39, LIMIT] {
                let mut changed = zeros;
                changed[line] = number;
                expect_not_read(text(&changed).as_bytes(), "one number");
            }
        }
    }
}

/// Receipts of any numbers, of which one or two are changed. Both kinds must come
/// up often.
#[test]
fn numbers_changed() {
    let mut rng = Rng::new(29);
    let mut tally = [0; 2];
    for _ in 0..40_000 {
        let numbers = any_numbers(&mut rng);
        let read = agreed(text(&numbers).as_bytes());
        assert!(read.is_none_or(|read| read == numbers));
        tally[usize::from(read.is_some())] += 1;
    }
    assert!(tally.iter().all(|&times| times > 8_000), "{tally:?}");
}

/// Receipts with one to three changes at random, and lines of random bytes.
#[test]
fn random_damage() {
    let mut rng = Rng::new(30);
    let mut read = 0;
    for _ in 0..60_000 {
        let receipt = text(rng.pick(&RECEIPTS)).into_bytes();
        read += usize::from(agreed(&damaged(&mut rng, receipt)).is_some());
    }
    assert!(read > 500, "{read}");
}

/// Random bytes, bytes that stand in receipts, and lines of any name.
#[test]
fn random_bytes() {
    let mut rng = Rng::new(31);
    for _ in 0..40_000 {
        assert_eq!(agreed(&receipt_text(TextKind::Random, &mut rng)), None);
        assert_eq!(agreed(&receipt_text(TextKind::Letters, &mut rng)), None);
        agreed(&receipt_text(TextKind::Lines, &mut rng));
    }
}

#[test]
fn shares_make_a_hundred() {
    let total: u64 = TEXT_KINDS.iter().map(|(_, share)| share).sum();
    assert_eq!(total, 100);
}

/// A long text is no receipt, whatever it begins with.
#[test]
fn long_texts() {
    let receipt = text(&SAMPLE);
    for count in [2, 100, 10_000] {
        expect_not_read(receipt.repeat(count).as_bytes(), "many receipts");
    }
    expect_not_read(&vec![b'\n'; 1 << 20], "line feeds");
    expect_not_read(&vec![b'0'; 1 << 20], "digits");
    expect_not_read(&[receipt.as_bytes(), &[0; 1 << 20]].concat(), "zeros");
}
