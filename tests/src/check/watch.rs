//! A buffer that is watched: what stands in it and around it before a call
//! stands there afterwards, but for the answer.

use crate::library::columns::{Answer, Outcome};

/// An element of a buffer.
pub trait Element: Copy + PartialEq + std::fmt::Debug {
    /// What stands at a place before the call; neighbours differ.
    fn before(place: usize) -> Self;
}

macro_rules! element {
    ($type:ty) => {
        impl Element for $type {
            fn before(place: usize) -> Self {
                (place as u32).wrapping_mul(0x9e37_79b1).wrapping_add(0x5a) as $type
            }
        }
    };
}

element!(u8);
element!(i32);
element!(u32);

/// What a call wrote: the elements, and the divisor if it has one.
#[derive(Clone, Debug, PartialEq)]
pub struct Output<T> {
    pub values: Vec<T>,
    pub divisor: Option<i32>,
}

/// How many elements stand before the lent part, and behind it.
const AROUND: usize = 8;

/// Lends a buffer of so many elements. Gives what was written to it, or says
/// what was changed that must not be.
pub fn watched<T: Element>(
    room: usize,
    call: impl FnOnce(&mut [T]) -> Outcome<Answer>,
) -> Outcome<Output<T>> {
    let mut buffer: Vec<T> = (0..room + 2 * AROUND).map(T::before).collect();
    let outcome = call(&mut buffer[AROUND..AROUND + room]);
    let number = match outcome {
        Outcome::Done(_) => 0,
        Outcome::Refused(n) | Outcome::Wrote(n, _) => n,
    };
    if !kept(&buffer, 0..AROUND) {
        return Outcome::Wrote(number, "before the buffer");
    }
    if !kept(&buffer, AROUND + room..buffer.len()) {
        return Outcome::Wrote(number, "behind the buffer");
    }
    match outcome {
        Outcome::Wrote(n, what) => Outcome::Wrote(n, what),
        Outcome::Refused(n) if kept(&buffer, AROUND..AROUND + room) => Outcome::Refused(n),
        Outcome::Refused(n) => Outcome::Wrote(n, "the buffer"),
        Outcome::Done(answer) => done(buffer, room, answer),
    }
}

/// Whether a part of the buffer is as it was.
fn kept<T: Element>(buffer: &[T], mut part: std::ops::Range<usize>) -> bool {
    part.all(|place| buffer[place] == T::before(place))
}

fn done<T: Element>(mut buffer: Vec<T>, room: usize, answer: Answer) -> Outcome<Output<T>> {
    if answer.count > room as u64 {
        return Outcome::Wrote(0, "a count that is larger than the buffer");
    }
    let end = AROUND + answer.count as usize;
    if !kept(&buffer, end..AROUND + room) {
        return Outcome::Wrote(0, "the buffer beyond the answer");
    }
    buffer.truncate(end);
    Outcome::Done(Output {
        values: buffer.split_off(AROUND),
        divisor: answer.divisor,
    })
}
