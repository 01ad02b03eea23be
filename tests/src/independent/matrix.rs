//! A transform's matrix.

use super::fields::Field;
use super::lists::assemblies;
use super::value::Reader;
use super::walk::each_entry;
use super::Refusal::{self, *};

/// The matrix of a transform of an assembly, by rows. Of the fields only
/// bioAssemblyList is judged, the whole of it.
pub fn matrix(file: &[u8], assembly: u64, transform: u64) -> Result<[[f32; 4]; 4], Refusal> {
    let mut list = None;
    each_entry(file, |key, value| {
        if key == Field::BioAssemblyList.name().as_bytes() {
            list = Some(value);
        }
    })?;
    let mut reader = Reader::new(list.ok_or(NoSuchField)?);
    let mut found = None;
    assemblies(&mut reader, |a, t, matrix| {
        if (a, t) == (assembly, transform) {
            found = Some(matrix);
        }
    })?;
    let matrix = found.ok_or(NoSuchEntry)?;
    Ok(std::array::from_fn(|row| {
        std::array::from_fn(|column| matrix[4 * row + column])
    }))
}
