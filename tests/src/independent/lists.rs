//! Arrays and maps inside fields: their types (13), and what the counts need to
//! know of them. Nothing is kept but that.

use super::value::Reader;
use super::Refusal::{self, FieldType};

/// An array of integers, summed up.
#[derive(Clone, Copy)]
pub struct Integers {
    pub count: u64,
    pub sum: i64,
    pub least: i32,
    pub most: i32,
}

impl Integers {
    pub const NONE: Integers = Integers {
        count: 0,
        sum: 0,
        least: i32::MAX,
        most: i32::MIN,
    };

    pub fn read(reader: &mut Reader) -> Result<Integers, Refusal> {
        let mut all = Integers::NONE;
        all.add(reader)?;
        Ok(all)
    }

    /// Adds the integers of the next array.
    pub fn add(&mut self, reader: &mut Reader) -> Result<(), Refusal> {
        let count = reader.array()?;
        for _ in 0..count {
            let number = match reader.small() {
                Some(number) => number,
                None => reader.integer()?,
            };
            self.sum += i64::from(number);
            self.least = self.least.min(number);
            self.most = self.most.max(number);
        }
        self.count += u64::from(count);
        Ok(())
    }

    /// Whether each is `least` to `most`.
    pub fn within(&self, least: i64, most: i64) -> bool {
        self.count == 0 || i64::from(self.least) >= least && i64::from(self.most) <= most
    }

    /// Whether each is an index of a table of so many rows.
    pub fn index(&self, rows: u64) -> bool {
        self.within(0, rows as i64 - 1)
    }
}

/// An array of strings. Gives how many.
pub fn strings(reader: &mut Reader) -> Result<u64, Refusal> {
    let count = reader.array()?;
    for _ in 0..count {
        if !reader.short_string() {
            reader.string()?;
        }
    }
    Ok(u64::from(count))
}

/// An array of just so many floats.
pub fn floats<const N: usize>(reader: &mut Reader) -> Result<[f32; N], Refusal> {
    if reader.array()? as usize != N {
        return Err(FieldType);
    }
    let mut floats = [0.0; N];
    for float in &mut floats {
        *float = reader.float()?;
    }
    Ok(floats)
}

/// An array of operators.
pub fn operators(reader: &mut Reader) -> Result<(), Refusal> {
    for _ in 0..reader.array()? {
        floats::<16>(reader)?;
    }
    Ok(())
}

/// The entities. Gives the indices of chains.
pub fn entities(reader: &mut Reader) -> Result<Integers, Refusal> {
    let mut chains = Integers::NONE;
    for _ in 0..reader.array()? {
        let mut required = 4;
        for _ in 0..reader.map()? {
            match reader.string()? {
                b"chainIndexList" => chains.add(reader)?,
                b"description" | b"type" | b"sequence" => drop(reader.string()?),
                _ => {
                    reader.skip();
                    continue;
                }
            }
            required -= 1;
        }
        if required > 0 {
            return Err(FieldType);
        }
    }
    Ok(chains)
}

/// The assemblies. `each` gets every transform's matrix with the numbers of the
/// assembly and the transform. Gives the indices of chains.
pub fn assemblies(
    reader: &mut Reader,
    mut each: impl FnMut(u64, u64, [f32; 16]),
) -> Result<Integers, Refusal> {
    let mut chains = Integers::NONE;
    for assembly in 0..u64::from(reader.array()?) {
        let mut required = 2;
        for _ in 0..reader.map()? {
            match reader.string()? {
                b"name" => drop(reader.string()?),
                b"transformList" => {
                    for transform in 0..u64::from(reader.array()?) {
                        each(assembly, transform, one_transform(reader, &mut chains)?);
                    }
                }
                _ => {
                    reader.skip();
                    continue;
                }
            }
            required -= 1;
        }
        if required > 0 {
            return Err(FieldType);
        }
    }
    Ok(chains)
}

/// A transform, whose indices of chains are added. Gives its matrix.
fn one_transform(reader: &mut Reader, chains: &mut Integers) -> Result<[f32; 16], Refusal> {
    let mut indices = false;
    let mut matrix = None;
    for _ in 0..reader.map()? {
        match reader.string()? {
            b"chainIndexList" => {
                chains.add(reader)?;
                indices = true;
            }
            b"matrix" => matrix = Some(floats(reader)?),
            _ => reader.skip(),
        }
    }
    matrix.filter(|_| indices).ok_or(FieldType)
}
