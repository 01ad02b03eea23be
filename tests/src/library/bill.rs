//! The C call for bills. The out parameter is watched; the buffer is watched by
//! the caller.

use super::columns::{outcome, Answer, Outcome, COUNT};

extern "C" {
    fn mmtf_bill(
        receipts: *const u8,
        n: usize,
        buffer: *mut u8,
        room: usize,
        written: *mut u64,
    ) -> u8;
}

/// The call itself, with an out parameter that the caller lends. Gives the
/// number.
pub fn bill_into(receipts: &[u8], buffer: &mut [u8], written: &mut u64) -> u8 {
    // SAFETY: each pointer and length are those of a live slice or variable.
    unsafe {
        mmtf_bill(
            receipts.as_ptr(),
            receipts.len(),
            buffer.as_mut_ptr(),
            buffer.len(),
            written,
        )
    }
}

/// Writes the bill of a run of receipts.
pub fn bill(receipts: &[u8], buffer: &mut [u8]) -> Outcome<Answer> {
    let mut written = COUNT;
    let refusal = bill_into(receipts, buffer, &mut written);
    outcome(refusal, written)
}
