//! The C calls of libmmtf.a, with safe wrappers.

pub mod bill;
pub mod columns;
pub mod header;
pub mod matrix;
pub mod opening;
pub mod receipt;
pub mod words;

extern "C" {
    fn mmtf_container(file: *const u8, n: usize) -> u8;
    fn mmtf_verdict(file: *const u8, n: usize) -> u8;
    fn mmtf_view(
        file: *const u8,
        n: usize,
        name: *const u8,
        m: usize,
        start: *mut u64,
        length: *mut u64,
    ) -> u8;
}

/// What stands in the out parameters before a call.
const START: u64 = 0xa5a5_5a5a_0f0f_1e1e;
const LENGTH: u64 = 0x5a5a_a5a5_f0f0_e1e1;

/// The library's answer to a view by name.
#[derive(Clone, Copy, Debug, PartialEq, Eq)]
pub enum View {
    Part {
        start: u64,
        length: u64,
    },
    Refused(u8),
    /// Refused, and yet an out parameter was written.
    OutputChanged(u8),
}

/// The refusal number of the container.
pub fn container(file: &[u8]) -> u8 {
    // SAFETY: the pointer and the length are those of a live slice.
    unsafe { mmtf_container(file.as_ptr(), file.len()) }
}

/// The refusal number of the whole file.
pub fn verdict(file: &[u8]) -> u8 {
    // SAFETY: the pointer and the length are those of a live slice.
    unsafe { mmtf_verdict(file.as_ptr(), file.len()) }
}

/// The part of the file under an outer key.
pub fn view(file: &[u8], name: &[u8]) -> View {
    let mut start = START;
    let mut length = LENGTH;
    // SAFETY: each pointer and length are those of a live slice or variable.
    let refusal = unsafe {
        mmtf_view(
            file.as_ptr(),
            file.len(),
            name.as_ptr(),
            name.len(),
            &mut start,
            &mut length,
        )
    };
    match refusal {
        0 => View::Part { start, length },
        n if (start, length) == (START, LENGTH) => View::Refused(n),
        n => View::OutputChanged(n),
    }
}
