//! Values of columns.

use super::Rng;

/// Integers at which something changes.
const TELLING: &[i32] = &[
    0,
    1,
    -1,
    126,
    127,
    128,
    -127,
    -128,
    -129,
    254,
    255,
    -256,
    32766,
    32767,
    32768,
    -32767,
    -32768,
    -32769,
    65534,
    65535,
    -65536,
    16_777_216,
    -16_777_216,
    i32::MAX,
    i32::MAX - 1,
    i32::MIN,
    i32::MIN + 1,
];

/// An integer: small, telling, or any.
pub fn integer(rng: &mut Rng) -> i32 {
    match rng.below(4) {
        0 => *rng.pick(TELLING),
        1 => rng.word() as i32,
        2 => rng.below(600) as i32 - 300,
        _ => rng.below(8) as i32 - 4,
    }
}

/// Integers of which at most so many numbers of 8 bits make one up, with runs.
pub fn integers(rng: &mut Rng, most: i32) -> Vec<i32> {
    let mut values = Vec::new();
    let mut step = 0;
    for _ in 0..rng.below(24) {
        let value = match rng.below(3) {
            0 => values.last().copied().unwrap_or(0i32).wrapping_add(step),
            _ => integer(rng),
        };
        step = *rng.pick(&[0, 0, 1, -1, 3]);
        let kept = if most < i32::MAX {
            value % (most + 1)
        } else {
            value
        };
        let times = *rng.pick(&[1, 1, 1, 2, 5, 40]);
        values.extend(std::iter::repeat_n(kept, times));
    }
    values
}

/// Chars, with runs.
pub fn chars(rng: &mut Rng) -> Vec<u8> {
    let mut values = Vec::new();
    for _ in 0..rng.below(12) {
        let any = rng.byte() & 127;
        let value = *rng.pick(&[0, b'A', b'B', b' ', 127, any]);
        let times = *rng.pick(&[1, 1, 2, 9]);
        values.extend(std::iter::repeat_n(value, times));
    }
    values
}

/// Names of so many bytes each, padded with 0 bytes.
pub fn names(rng: &mut Rng, size: usize, count: usize) -> Vec<u8> {
    let mut bytes = Vec::with_capacity(size * count);
    for _ in 0..count {
        let used = rng.within(0, size);
        bytes.extend((0..size).map(|at| match at < used {
            true => rng.within(1, 127) as u8,
            false => 0,
        }));
    }
    bytes
}
