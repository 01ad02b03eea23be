//! The integers of a checked column, looked at where they stand.

use super::codec::Layout;
use super::decode::{unpack, unpack_sums};
use super::header::Column;
use super::width::{runs, Width};

impl Column<'_> {
    /// Whether every integer is `least` to `most`.
    pub fn all_within(&self, least: i32, most: i32) -> bool {
        let inside = |n: i32| (least <= n) & (n <= most);
        let payload = self.payload;
        let mut all = true;
        match (self.codec.layout, self.codec.delta) {
            (Layout::Plain8 | Layout::Strings, _) => plain_all::<i8>(payload, inside),
            (Layout::Plain16, _) => plain_all::<i16>(payload, inside),
            (Layout::Plain32, _) => plain_all::<i32>(payload, inside),
            (Layout::Runs, false) => runs(payload).fold(true, |all, (n, _)| all & inside(n)),
            (Layout::Runs, true) => run_sums_all(payload, inside),
            (Layout::Packed8, _) => {
                unpack::<i8>(payload, |n| all &= inside(n));
                all
            }
            (Layout::Packed16, false) => {
                unpack::<i16>(payload, |n| all &= inside(n));
                all
            }
            (Layout::Packed16, true) => {
                unpack_sums::<i16>(payload, |n| all &= inside(n));
                all
            }
        }
    }

    /// Gives every integer in turn, and how often it stands there. Ends at the
    /// first error.
    pub fn each_run<E>(&self, mut each: impl FnMut(i32, u64) -> Result<(), E>) -> Result<(), E> {
        let payload = self.payload;
        match (self.codec.layout, self.codec.delta) {
            (Layout::Plain8 | Layout::Strings, _) => {
                i8::numbers(payload).try_for_each(|n| each(n, 1))
            }
            (Layout::Plain16, _) => i16::numbers(payload).try_for_each(|n| each(n, 1)),
            (Layout::Plain32, _) => i32::numbers(payload).try_for_each(|n| each(n, 1)),
            (Layout::Runs, false) => {
                runs(payload).try_for_each(|(n, count)| each(n, u64::from(count as u32)))
            }
            (Layout::Runs, true) => each_run_sum(payload, each),
            (Layout::Packed8, _) => each_packed::<i8, E>(payload, false, each),
            (Layout::Packed16, delta) => each_packed::<i16, E>(payload, delta, each),
        }
    }
}

fn plain_all<W: Width>(payload: &[u8], inside: impl Fn(i32) -> bool) -> bool {
    W::numbers(payload).fold(true, |all, n| all & inside(n))
}

/// The sums of a run rise or fall from its first to its last, so that these two
/// tell of all, unless they wrap: then each is looked at.
fn run_sums_all(payload: &[u8], inside: impl Fn(i32) -> bool) -> bool {
    let mut sum = 0i32;
    for (delta, count) in runs(payload) {
        let last = i64::from(sum) + i64::from(delta) * i64::from(count);
        match i32::try_from(last) {
            Ok(last) => {
                if !inside(sum + delta) | !inside(last) {
                    return false;
                }
                sum = last;
            }
            Err(_) => {
                for _ in 0..count {
                    sum = sum.wrapping_add(delta);
                    if !inside(sum) {
                        return false;
                    }
                }
            }
        }
    }
    true
}

fn each_run_sum<E>(
    payload: &[u8],
    mut each: impl FnMut(i32, u64) -> Result<(), E>,
) -> Result<(), E> {
    let mut sum = 0i32;
    for (delta, count) in runs(payload) {
        if delta == 0 {
            each(sum, u64::from(count as u32))?;
            continue;
        }
        for _ in 0..count {
            sum = sum.wrapping_add(delta);
            each(sum, 1)?;
        }
    }
    Ok(())
}

fn each_packed<W: Width, E>(
    payload: &[u8],
    delta: bool,
    mut each: impl FnMut(i32, u64) -> Result<(), E>,
) -> Result<(), E> {
    let mut sum = 0i32;
    for number in W::numbers(payload) {
        sum = sum.wrapping_add(number);
        if !W::is_limit(number) {
            each(sum, 1)?;
            sum = if delta { sum } else { 0 };
        }
    }
    Ok(())
}
