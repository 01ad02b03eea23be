//! The C call that opens a file. What stands in the two buffers, around them and
//! in the set of fields is watched.

use crate::independent::FIELDS;

extern "C" {
    fn mmtf_fields(
        file: *const u8,
        n: usize,
        presence: *mut u64,
        starts: *mut u64,
        lengths: *mut u64,
        room: usize,
    ) -> u8;
}

/// What the call came to.
#[derive(Clone, Debug, PartialEq, Eq)]
pub enum Opening {
    Fields {
        presence: u64,
        starts: Vec<u64>,
        lengths: Vec<u64>,
    },
    Refused(u8),
    /// It gave this number, and yet wrote what it must leave as it was.
    Wrote(u8, &'static str),
}

/// What stands in the set before a call.
const PRESENCE: u64 = 0xa5a5_5a5a_0f0f_1e1e;

/// How many elements stand before those that are lent, and behind them.
const AROUND: usize = 4;

/// What stands at a place of a buffer before a call; neighbours differ.
fn before(place: usize) -> u64 {
    (place as u64 + 1).wrapping_mul(0x9e37_79b9_7f4a_7c15)
}

/// Whether elements are as they were, the first being the one at `start`.
fn kept(elements: &[u64], start: usize) -> bool {
    let same = |(place, element): (usize, &u64)| *element == before(start + place);
    elements.iter().enumerate().all(same)
}

/// The call itself, with buffers that the caller lends, which are equally long.
/// Gives the number.
pub fn fields_into(file: &[u8], presence: &mut u64, starts: &mut [u64], lengths: &mut [u64]) -> u8 {
    assert_eq!(starts.len(), lengths.len(), "one room for both");
    // SAFETY: each pointer and length are those of a live slice or variable.
    unsafe {
        mmtf_fields(
            file.as_ptr(),
            file.len(),
            presence,
            starts.as_mut_ptr(),
            lengths.as_mut_ptr(),
            starts.len(),
        )
    }
}

/// Opens a file with room for so many elements in each buffer.
pub fn open(file: &[u8], room: usize) -> Opening {
    let mut presence = PRESENCE;
    let mut starts: Vec<u64> = (0..room + 2 * AROUND).map(before).collect();
    let mut lengths = starts.clone();
    let lent = AROUND..AROUND + room;
    let (first, second) = (&mut starts[lent.clone()], &mut lengths[lent]);
    let number = fields_into(file, &mut presence, first, second);
    let count = if number == 0 { FIELDS.len() } else { 0 };
    let end = AROUND + count;
    for (buffer, what) in [(&starts, "starts"), (&lengths, "lengths")] {
        if end + AROUND > buffer.len() || !kept(&buffer[..AROUND], 0) || !kept(&buffer[end..], end)
        {
            return Opening::Wrote(number, what);
        }
    }
    match number {
        0 => Opening::Fields {
            presence,
            starts: starts[AROUND..end].to_vec(),
            lengths: lengths[AROUND..end].to_vec(),
        },
        _ if presence != PRESENCE => Opening::Wrote(number, "the set of fields"),
        _ => Opening::Refused(number),
    }
}
