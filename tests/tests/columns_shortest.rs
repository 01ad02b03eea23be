//! Searches that try to beat the writer: for payloads that decode to the same
//! column and are shorter than the writer's, or as short and different.

use mmtf_tests::check::calls::{INT32, TO_INT32};
use mmtf_tests::generate::columns::Parts;
use mmtf_tests::generate::Rng;
use mmtf_tests::shortest::narrow::{
    expanded, longest, packed, search, unpacked, ways, Limits, Reader, Writer,
};
use mmtf_tests::shortest::{wide, Found};

const THREE_BITS: Limits = Limits { least: -4, most: 3 };
const EIGHT_BITS: Limits = Limits {
    least: -128,
    most: 127,
};
const SIXTEEN_BITS: Limits = Limits {
    least: -32_768,
    most: 32_767,
};

/// No payload beats the writer, some are the writer's own, and at least so many
/// were tried.
#[track_caller]
fn unbeaten(found: Found, least: u64) {
    assert!(!found.is_beaten(), "{found:?}");
    assert!(found.own > 0 && found.payloads() >= least, "{found:?}");
}

/// Every payload of up to so many packed numbers of a narrow width.
#[test]
fn packed_numbers_of_narrow_widths() {
    for (least, most, numbers) in [(-1, 1, 12), (-2, 1, 10), (-3, 2, 7), (-4, 3, 6), (-8, 7, 5)] {
        let found = search(Limits { least, most }, numbers, unpacked, packed);
        unbeaten(found.clone(), 250_000);
        assert!(found.refused > 0 && found.longer > 0, "{found:?}");
    }
}

/// Every payload of up to so many numbers of runs, counts below 1 among them.
#[test]
fn runs_of_narrow_numbers() {
    for (least, most, numbers) in [(-1, 2, 10), (-1, 3, 8), (-4, 3, 6)] {
        let found = search(Limits { least, most }, numbers, expanded, longest);
        unbeaten(found.clone(), 250_000);
        assert!(found.refused > 0 && found.longer > 0, "{found:?}");
    }
}

/// One value of 3, 8 and 16 bits, by all ways to make it of both limits with as
/// many numbers as the writer takes, or fewer: there is one, the writer's.
#[test]
fn one_value_by_both_limits() {
    let mut rng = Rng::new(0x7761_7973);
    for limits in [THREE_BITS, EIGHT_BITS, SIXTEEN_BITS] {
        for n in 0..1_500 {
            let times = rng.below(200) as i32;
            let limit = *rng.pick(&[limits.least, limits.most]);
            let value = match n % 3 {
                0 => times * limit,
                1 => times * limit + *rng.pick(&[-1, 1]),
                _ => times * limit + rng.within(0, limits.most as usize) as i32,
            };
            let taken = packed(limits, &[value]).len() as i64 - 1;
            let own = if value < 0 { (0, taken) } else { (taken, 0) };
            assert_eq!(ways(limits, value), [own], "{value} by {limits:?}");
        }
    }
}

/// Every payload of one or two bytes by codec 15, and some by codecs 14 and 7,
/// through both implementations: they decode and are encoded as the rules for
/// narrow widths say.
#[test]
fn narrow_rules_are_those_of_the_codecs() {
    let mut found = Found::default();
    let mut rng = Rng::new(0x7275_6c65);
    for first in -128..=127 {
        held_to_the_rules(15, &[first], &mut found);
        for second in -128..=127 {
            held_to_the_rules(15, &[first, second], &mut found);
        }
    }
    for _ in 0..20_000 {
        let numbers = |rng: &mut Rng, some: &[i32]| -> Vec<i32> {
            (0..rng.below(9)).map(|_| *rng.pick(some)).collect()
        };
        let packed = numbers(&mut rng, &[-32_768, 32_767, -32_767, 32_766, 0, 1, -9]);
        held_to_the_rules(14, &packed, &mut found);
        let runs = numbers(&mut rng, &[0, 1, 2, 3, 3, 4]);
        held_to_the_rules(7, &runs, &mut found);
    }
    unbeaten(found.clone(), 100_000);
    assert!(found.refused > 0 && found.longer > 0, "{found:?}");
}

/// Holds a payload of these numbers to the rules for narrow widths.
#[track_caller]
fn held_to_the_rules(codec: i32, numbers: &[i32], found: &mut Found) {
    let (limits, size, reader, writer): (_, _, Reader, Writer) = match codec {
        15 => (EIGHT_BITS, 1, unpacked, packed),
        14 => (SIXTEEN_BITS, 2, unpacked, packed),
        _ => (EIGHT_BITS, 4, expanded, longest),
    };
    let values = reader(limits, numbers);
    let payload = |numbers: &[i32]| -> Vec<u8> {
        let bytes = numbers.iter().map(|n| n.to_be_bytes());
        bytes.flat_map(|n| n[4 - size..].to_vec()).collect()
    };
    let column = Parts {
        codec,
        length: values.as_ref().map_or(0, Vec::len) as i32,
        parameter: 0,
        payload: payload(numbers),
    };
    let refused = found.refused;
    wide::try_to_beat(&column, found).unwrap_or_else(|difference| panic!("{difference}"));
    let case = format!("codec {codec}: {numbers:?}");
    assert_eq!(values.is_none(), found.refused > refused, "{case}");
    if let Some(values) = values {
        INT32.expect(&column.bytes(), &values, None, &case);
        let own = Parts {
            payload: payload(&writer(limits, &values)),
            ..column
        };
        TO_INT32.expect([codec, 0], &values, &own.bytes(), &case);
    }
}

/// Columns of each codec through both implementations.
#[test]
fn columns_by_each_codec() {
    for codec in 1..=16 {
        let mut rng = Rng::new(0x7368_6f72 + codec as u64);
        let found = wide::search(codec, 20_000, &mut rng)
            .unwrap_or_else(|difference| panic!("codec {codec}: {difference}"));
        unbeaten(found.clone(), 20_000);
        let one_form = matches!(codec, 1..=5 | 11);
        assert_eq!(found.longer == 0, one_form, "codec {codec}: {found:?}");
    }
}

/// A writer that takes the limit of the other sign first.
fn packed_by_the_other_sign(limits: Limits, values: &[i32]) -> Vec<i32> {
    let mut numbers = Vec::new();
    for &value in values {
        let limit = if value < 0 { limits.most } else { limits.least };
        numbers.push(limit);
        numbers.extend(packed(limits, &[value - limit]));
    }
    numbers
}

/// A writer that cuts every run of two cells or more in two.
fn cut_runs(limits: Limits, cells: &[i32]) -> Vec<i32> {
    let runs = longest(limits, cells);
    runs.chunks_exact(2)
        .flat_map(|run| match *run {
            [value, 1] => vec![value, 1],
            [value, count] => vec![value, 1, value, count - 1],
            _ => unreachable!("a run is two numbers"),
        })
        .collect()
}

/// A reader that takes a result as ended where the numbers end.
fn unpacked_without_a_last(limits: Limits, numbers: &[i32]) -> Option<Vec<i32>> {
    let mut numbers = numbers.to_vec();
    if unpacked(limits, &numbers).is_none() {
        numbers.push(0);
    }
    unpacked(limits, &numbers)
}

/// A writer whose numbers stand in another order.
fn packed_backwards(limits: Limits, values: &[i32]) -> Vec<i32> {
    packed(limits, values).into_iter().rev().collect()
}

/// The search finds payloads that are as short as the writer's and different.
#[test]
fn another_writer_ties() {
    let found = search(THREE_BITS, 4, unpacked, packed_backwards);
    assert!(found.tied > 0 && found.shorter == 0, "{found:?}");
    assert!(found.first.is_some(), "{found:?}");
}

/// The search beats a worse writer, and finds what a laxer reader lets through.
#[test]
fn worse_writers_are_beaten() {
    let cases: [(Reader, Writer); 3] = [
        (unpacked, packed_by_the_other_sign),
        (expanded, cut_runs),
        (unpacked_without_a_last, packed),
    ];
    for (n, (reader, writer)) in cases.into_iter().enumerate() {
        let found = search(THREE_BITS, 4, reader, writer);
        assert!(found.shorter > 0, "case {n}: {found:?}");
    }
}
