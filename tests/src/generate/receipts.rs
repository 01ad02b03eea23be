//! Stations and jobs, allowed and not, and texts that are receipts or nearly so.

use super::{damaged, Rng};
use crate::independent::receipt::{text, Numbers, LINES};

/// Stations and jobs that are allowed, at the ends of their digits.
pub const STATIONS: [u32; 4] = [1, 9, 10, 99];
pub const JOBS: [u32; 12] = [
    1, 9, 10, 99, 100, 999, 1_000, 9_999, 10_000, 99_999, 100_000, 999_999,
];

/// Those that are not; some are small with fewer bits.
pub const NO_STATIONS: [u32; 6] = [0, 100, 256 + 1, 65_536 + 99, 1 << 31, u32::MAX];
pub const NO_JOBS: [u32; 5] = [0, 1_000_000, (1 << 24) + 1, 1 << 31, u32::MAX];

/// The most of each count.
pub const LIMIT: u32 = 16_777_216;

/// A station and a job that are allowed.
pub fn allowed(rng: &mut Rng) -> [u32; 2] {
    let station = match rng.chance(1, 2) {
        true => *rng.pick(&STATIONS),
        false => rng.within(1, 99) as u32,
    };
    let job = match rng.chance(1, 2) {
        true => *rng.pick(&JOBS),
        false => rng.within(1, 999_999) as u32,
    };
    [station, job]
}

/// The same, but that the station or the job or both are not.
pub fn not_allowed(rng: &mut Rng) -> [u32; 2] {
    let [station, job] = allowed(rng);
    let no_station = *rng.pick(&NO_STATIONS);
    let no_job = *rng.pick(&NO_JOBS);
    *rng.pick(&[[no_station, job], [station, no_job], [no_station, no_job]])
}

/// The kinds of generated texts.
#[derive(Clone, Copy, Debug, PartialEq, Eq)]
pub enum TextKind {
    AnyNumbers,
    Damaged,
    Lines,
    Letters,
    Random,
}

/// Every kind, with how many of a hundred texts are of it.
pub const TEXT_KINDS: [(TextKind, u64); 5] = [
    (TextKind::AnyNumbers, 35),
    (TextKind::Damaged, 40),
    (TextKind::Lines, 10),
    (TextKind::Letters, 7),
    (TextKind::Random, 8),
];

/// One text of a kind.
pub fn receipt_text(kind: TextKind, rng: &mut Rng) -> Vec<u8> {
    match kind {
        TextKind::AnyNumbers => text(&any_numbers(rng)).into_bytes(),
        TextKind::Damaged => {
            let receipt = text(&any_numbers(rng)).into_bytes();
            damaged(rng, receipt)
        }
        TextKind::Lines => (0..10).flat_map(|_| random_line(rng)).collect(),
        TextKind::Letters => {
            let letters = b"station=job=verdict=\n\n\n0123456789";
            (0..rng.below(160)).map(|_| *rng.pick(letters)).collect()
        }
        TextKind::Random => rng.bytes(0, 160),
    }
}

/// The numbers of a receipt, of which up to two are changed.
pub fn any_numbers(rng: &mut Rng) -> Numbers {
    let mut numbers = match rng.chance(1, 2) {
        true => [0; 10].map(|_| rng.word() as u32 % (LIMIT + 1)),
        false => [0; 10],
    };
    numbers[0] = rng.within(1, 99) as u32;
    numbers[1] = rng.within(1, 999_999) as u32;
    numbers[2] = match numbers[9] {
        0 => rng.within(1, 24) as u32,
        _ => 0,
    };
    if numbers[2] == 0 {
        numbers[8] = rng.within(16, 39) as u32;
        numbers[9] = 1;
    }
    for _ in 0..rng.below(3) {
        numbers[rng.below(10)] = near(rng);
    }
    numbers
}

/// A number that is allowed at times, at the ends of what is.
fn near(rng: &mut Rng) -> u32 {
    let end = *rng.pick(&[0, 1, 16, 24, 39, 99, 999_999, LIMIT, u32::MAX]);
    match rng.below(4) {
        0 => end.wrapping_sub(1),
        1 => end.wrapping_add(1),
        _ => end,
    }
}

/// A line of any name, with any number of digits.
fn random_line(rng: &mut Rng) -> Vec<u8> {
    let digits: String = (0..rng.within(0, 9))
        .map(|_| char::from(b'0' + rng.below(10) as u8))
        .collect();
    format!("{}={digits}\n", rng.pick(&LINES)).into_bytes()
}
