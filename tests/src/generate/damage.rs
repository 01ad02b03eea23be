//! Damaged copies of a file.

use super::Rng;

/// Bytes that tend to change how a file is read.
const TELLING: &[u8] = &[
    0x00, 0x7f, 0x80, 0x81, 0x8f, 0x90, 0x91, 0x9f, 0xa0, 0xa1, 0xbf, 0xc0, 0xc4, 0xc5, 0xc6, 0xca,
    0xcb, 0xcc, 0xce, 0xcf, 0xd2, 0xd3, 0xd9, 0xda, 0xdb, 0xdc, 0xdd, 0xde, 0xdf, 0xe0, 0xff,
];

/// The bytes with one to three changes.
pub fn damaged(rng: &mut Rng, mut bytes: Vec<u8>) -> Vec<u8> {
    for _ in 0..rng.within(1, 3) {
        change(rng, &mut bytes);
    }
    bytes
}

fn telling(rng: &mut Rng) -> u8 {
    match rng.chance(1, 2) {
        true => *rng.pick(TELLING),
        false => rng.byte(),
    }
}

fn change(rng: &mut Rng, bytes: &mut Vec<u8>) {
    if bytes.is_empty() {
        bytes.push(telling(rng));
        return;
    }
    let at = rng.below(bytes.len());
    let other = rng.below(bytes.len());
    match rng.below(8) {
        0 => bytes[at] ^= 1 << rng.below(8),
        1 => bytes[at] = telling(rng),
        2 => bytes.truncate(at),
        3 => bytes.insert(at, telling(rng)),
        4 => bytes.extend(rng.bytes(1, 8)),
        5 => bytes.swap(at, other),
        6 => drop(bytes.remove(at)),
        _ => repeat(bytes, at, other),
    }
}

/// Puts a copy of up to 64 bytes from one place at another.
fn repeat(bytes: &mut Vec<u8>, from: usize, to: usize) {
    let end = bytes.len().min(from + 64);
    let copy = bytes[from..end].to_vec();
    bytes.splice(to..to, copy);
}
