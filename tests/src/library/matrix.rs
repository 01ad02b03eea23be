//! The C call for a transform's matrix. What stands in the rows and around them
//! is watched.

extern "C" {
    fn mmtf_matrix(
        file: *const u8,
        n: usize,
        assembly: u64,
        transform: u64,
        rows: *mut [f32; 4],
    ) -> u8;
}

/// Four rows of four floats.
pub type Rows = [[f32; 4]; 4];

/// What the call came to. Floats are compared by their bits, but all NaNs are
/// one.
#[derive(Clone, Copy, Debug)]
pub enum Matrix {
    Rows(Rows),
    Refused(u8),
    /// It gave this number, and yet wrote what it must leave as it was.
    Wrote(u8, &'static str),
}

impl PartialEq for Matrix {
    fn eq(&self, other: &Matrix) -> bool {
        match (self, other) {
            (Matrix::Rows(a), Matrix::Rows(b)) => bits(a) == bits(b),
            (Matrix::Refused(a), Matrix::Refused(b)) => a == b,
            (Matrix::Wrote(a, what), Matrix::Wrote(b, other)) => (a, what) == (b, other),
            _ => false,
        }
    }
}

/// The bits of each float, those of one NaN for every NaN.
fn bits(rows: &Rows) -> [[u32; 4]; 4] {
    rows.map(|row| {
        row.map(|float| match float.is_nan() {
            true => f32::NAN.to_bits(),
            false => float.to_bits(),
        })
    })
}

/// How many rows stand before those that are lent, and behind them.
const AROUND: usize = 2;

/// What stands in a row before a call: no NaN, and neighbours differ.
fn before(row: usize) -> [f32; 4] {
    [0, 1, 2, 3].map(|column| f32::from_bits(0x2d5a_a5f0 + (4 * row + column) as u32))
}

/// Whether rows are as they were, the first being the one at `start`.
fn kept(rows: &[[f32; 4]], start: usize) -> bool {
    let same = |(place, row): (usize, &[f32; 4])| {
        row.map(f32::to_bits) == before(start + place).map(f32::to_bits)
    };
    rows.iter().enumerate().all(same)
}

/// The call itself, with rows that the caller lends. Gives the number.
pub fn matrix_into(file: &[u8], assembly: u64, transform: u64, rows: &mut Rows) -> u8 {
    // SAFETY: the pointer and the length are those of a live slice, and there
    // are four rows.
    unsafe {
        mmtf_matrix(
            file.as_ptr(),
            file.len(),
            assembly,
            transform,
            rows.as_mut_ptr(),
        )
    }
}

/// The matrix of a transform of an assembly.
pub fn matrix(file: &[u8], assembly: u64, transform: u64) -> Matrix {
    let mut rows: [[f32; 4]; 4 + 2 * AROUND] = std::array::from_fn(before);
    let lent = rows[AROUND..AROUND + 4].as_mut().try_into();
    let lent: &mut Rows = lent.expect("four rows");
    let refusal = matrix_into(file, assembly, transform, lent);
    let (first, rest) = rows.split_at(AROUND);
    let (lent, last) = rest.split_at(4);
    if !kept(first, 0) || !kept(last, AROUND + 4) {
        return Matrix::Wrote(refusal, "around the rows");
    }
    match refusal {
        0 => Matrix::Rows(lent.try_into().expect("four rows")),
        n if kept(lent, AROUND) => Matrix::Refused(n),
        n => Matrix::Wrote(n, "the rows"),
    }
}
