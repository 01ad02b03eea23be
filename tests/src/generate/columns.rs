//! Generated columns: every codec, whole and faulty.

mod faults;
mod parts;
mod values;

pub use faults::Fault;
pub use parts::{packed, Parts};
pub use values::{chars, integer, integers, names};

use super::{damaged, Rng};

/// A column, with the numbers that it gives where the making of it tells: its
/// own, and that of floats asked for with enough room.
pub struct ColumnCase {
    pub column: Vec<u8>,
    pub own: Option<u8>,
    pub float32: Option<u8>,
}

impl ColumnCase {
    fn of(column: Vec<u8>) -> ColumnCase {
        ColumnCase {
            column,
            own: None,
            float32: None,
        }
    }

    fn expecting(column: Vec<u8>, own: u8) -> ColumnCase {
        ColumnCase {
            column,
            own: Some(own),
            float32: None,
        }
    }
}

/// The kinds of generated columns.
#[derive(Clone, Copy, Debug, PartialEq, Eq)]
pub enum ColumnKind {
    Valid,
    Limits,
    OneFault,
    TwoFaults,
    LargeCounts,
    LargeLengths,
    Exactness,
    Damaged,
    Random,
}

/// Every kind, with how many of a hundred columns are of it.
pub const COLUMN_KINDS: [(ColumnKind, u64); 9] = [
    (ColumnKind::Valid, 20),
    (ColumnKind::Limits, 12),
    (ColumnKind::OneFault, 16),
    (ColumnKind::TwoFaults, 18),
    (ColumnKind::LargeCounts, 5),
    (ColumnKind::LargeLengths, 3),
    (ColumnKind::Exactness, 6),
    (ColumnKind::Damaged, 14),
    (ColumnKind::Random, 6),
];

/// One column of a kind.
pub fn column_case(kind: ColumnKind, rng: &mut Rng) -> ColumnCase {
    match kind {
        ColumnKind::Valid => ColumnCase::expecting(any(rng).bytes(), 0),
        ColumnKind::Limits => ColumnCase::expecting(limits(rng), 0),
        ColumnKind::OneFault => one_fault(rng),
        ColumnKind::TwoFaults => two_faults(rng),
        ColumnKind::LargeCounts => large_counts(rng),
        ColumnKind::LargeLengths => large_lengths(rng),
        ColumnKind::Exactness => exactness(rng),
        ColumnKind::Damaged => {
            let whole = any(rng).bytes();
            ColumnCase::of(damaged(rng, whole))
        }
        ColumnKind::Random => ColumnCase::of(random(rng)),
    }
}

/// A column without a fault, by any codec.
fn any(rng: &mut Rng) -> Parts {
    let codec = rng.within(1, 16) as i32;
    Parts::valid(rng, codec)
}

/// Packed and summed columns of numbers at and around the limits.
fn limits(rng: &mut Rng) -> Vec<u8> {
    let codec = *rng.pick(&[3, 4, 7, 8, 10, 11, 12, 13, 14, 15, 16]);
    Parts::of_limits(rng, codec).bytes()
}

fn one_fault(rng: &mut Rng) -> ColumnCase {
    let mut parts = any(rng);
    let fault = *rng.pick(Fault::of(parts.codec));
    let column = fault.put(rng, &mut parts);
    ColumnCase::expecting(column, fault.number())
}

/// The later fault in the order of checks is put in first, so that the earlier
/// one stays as it is.
fn two_faults(rng: &mut Rng) -> ColumnCase {
    let mut parts = any(rng);
    let faults = Fault::of(parts.codec);
    let earlier = rng.below(faults.len() - 1);
    let later = rng.within(earlier + 1, faults.len() - 1);
    faults[later].put(rng, &mut parts);
    let column = faults[earlier].put(rng, &mut parts);
    ColumnCase::expecting(column, faults[earlier].number())
}

/// Runs whose counts are far larger than the length; with 32 bits some of them
/// add up to it.
fn large_counts(rng: &mut Rng) -> ColumnCase {
    let codec = *rng.pick(&[6, 7, 8, 9, 16]);
    let length = rng.within(0, 40) as i32;
    let counts = match rng.below(5) {
        0 => vec![i32::MAX],
        1 => vec![i32::MAX, i32::MAX, length + 2],
        2 => vec![length + 2, i32::MAX, i32::MAX],
        3 => vec![i32::MAX; rng.within(2, 40)],
        _ => vec![16_777_216, rng.within(1, 1 << 30) as i32],
    };
    let mut parts = Parts::new(rng, codec, length);
    for count in counts {
        parts.number32(rng.below(128) as i32);
        parts.number32(count);
    }
    ColumnCase::expecting(parts.bytes(), 19)
}

/// Lengths of millions in the header, with little behind it.
fn large_lengths(rng: &mut Rng) -> ColumnCase {
    let mut parts = any(rng);
    let length = *rng.pick(&[16_777_215, 16_777_216, 16_777_217, 8_388_608, 1 << 30]);
    let number = match (length > 16_777_216, parts.codec) {
        (true, _) => 16,
        (false, 1..=5 | 11) => 17,
        (false, _) => 19,
    };
    parts.length = length;
    ColumnCase::expecting(parts.bytes(), number)
}

/// Fixed point columns with integers and divisors around the size that a float
/// holds; some have a length that differs as well.
fn exactness(rng: &mut Rng) -> ColumnCase {
    const EXACT: i32 = 16_777_216;
    let codec = *rng.pick(&[9, 10, 10, 11, 12, 12]);
    let count = rng.below(4);
    let values: Vec<i32> = (0..count)
        .map(|_| match codec {
            11 => rng.within(0, 65535) as i32 - 32768,
            _ => {
                let size = *rng.pick(&[EXACT - 1, EXACT, EXACT + 1, EXACT + 2, 5, 0]);
                *rng.pick(&[size, -size])
            }
        })
        .collect();
    let mut parts = Parts::holding(codec, &values);
    parts.parameter = *rng.pick(&[1, 1000, EXACT - 1, EXACT, EXACT + 1, i32::MAX]);
    let exact = values
        .iter()
        .chain([&parts.parameter])
        .all(|n| (-EXACT..=EXACT).contains(n));
    let whole = codec == 11 || rng.chance(3, 4);
    if !whole {
        parts.length += 1;
    }
    let (own, float32) = match (whole, exact) {
        (false, _) => (19, 19),
        (true, false) => (0, 27),
        (true, true) => (0, 0),
    };
    ColumnCase {
        column: parts.bytes(),
        own: Some(own),
        float32: Some(float32),
    }
}

/// A header that is likely to pass, and random bytes.
fn random(rng: &mut Rng) -> Vec<u8> {
    let codec = rng.within(0, 17) as i32;
    let length = rng.below(24) as i32;
    let mut parts = Parts::new(rng, codec, length);
    parts.payload = match rng.chance(1, 2) {
        true => rng.bytes(0, 48),
        false => {
            let n = rng.below(49);
            (0..n)
                .map(|_| *rng.pick(&[0, 0, 0, 1, 2, 0x7f, 0x80, 0xff]))
                .collect()
        }
    };
    parts.bytes()
}
