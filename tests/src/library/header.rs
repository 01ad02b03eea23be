//! The C call for a column's header. The out parameters are watched.

use super::columns::Outcome;

extern "C" {
    fn mmtf_header(
        column: *const u8,
        n: usize,
        codec: *mut i32,
        length: *mut i32,
        parameter: *mut i32,
    ) -> u8;
}

/// What stands in the out parameters before a call.
const BEFORE: [i32; 3] = [0x1e2d_3c4b, -0x5a69_7887, 0x0f1e_2d3c];

/// Codec, length and parameter of a column.
pub fn header(column: &[u8]) -> Outcome<[i32; 3]> {
    let [mut codec, mut length, mut parameter] = BEFORE;
    // SAFETY: each pointer and length are those of a live slice or variable.
    let refusal = unsafe {
        mmtf_header(
            column.as_ptr(),
            column.len(),
            &mut codec,
            &mut length,
            &mut parameter,
        )
    };
    let fields = [codec, length, parameter];
    match refusal {
        0 => Outcome::Done(fields),
        n if fields == BEFORE => Outcome::Refused(n),
        n => Outcome::Wrote(n, "an out parameter"),
    }
}
