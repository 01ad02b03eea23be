//! The C calls for the meaning of a number and for the version. The count is
//! watched; the buffer is watched by the caller.

use super::columns::{outcome, Answer, Outcome, COUNT};

extern "C" {
    fn mmtf_meaning(number: u8, buffer: *mut u8, room: usize, written: *mut u64) -> u8;
    fn mmtf_version() -> u32;
}

/// Hands over the meaning of a number in words.
pub fn meaning(number: u8, buffer: &mut [u8]) -> Outcome<Answer> {
    let mut written = COUNT;
    // SAFETY: each pointer and length are those of a live slice or variable.
    let refusal = unsafe { mmtf_meaning(number, buffer.as_mut_ptr(), buffer.len(), &mut written) };
    outcome(refusal, written)
}

/// The version of the library.
pub fn version() -> u32 {
    // SAFETY: it takes nothing.
    unsafe { mmtf_version() }
}
