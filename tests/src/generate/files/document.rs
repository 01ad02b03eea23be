//! The fields of a file as values, and the file written from them.

use super::shape::near;
use super::structure::shuffle;
use super::value::{Heads, Value};
use super::Rng;
use crate::generate::text;
use crate::independent::{Field, FIELDS};

#[derive(Clone, Debug)]
pub struct Document {
    /// The named fields that are there, by the field's place.
    pub fields: [Option<Value>; FIELDS.len()],
    /// Fields under names that are not theirs.
    pub renamed: Vec<(Vec<u8>, Value)>,
}

impl Document {
    pub fn field(&mut self, field: Field) -> &mut Option<Value> {
        &mut self.fields[field as usize]
    }

    /// The named fields that are there.
    pub fn present(&self) -> Vec<Field> {
        let there = |field: &Field| self.fields[*field as usize].is_some();
        FIELDS.into_iter().filter(there).collect()
    }

    /// A file with the fields in order, the shortest heads, and nothing else.
    pub fn plain(&self) -> Vec<u8> {
        let fields = FIELDS.into_iter().zip(&self.fields);
        let entries = fields.filter_map(|(field, value)| {
            let key = field.name().as_bytes().to_vec();
            Some((key, value.clone()?))
        });
        Value::Map(entries.collect()).bytes()
    }

    /// A file with the fields in any order, in any heads, and unknown fields
    /// between them.
    pub fn file(self, rng: &mut Rng) -> Vec<u8> {
        let mut entries = self.renamed;
        for (field, value) in FIELDS.into_iter().zip(self.fields) {
            if let Some(value) = value {
                entries.push((field.name().as_bytes().to_vec(), value));
            }
        }
        unknown(rng, &mut entries);
        if rng.chance(3, 4) {
            shuffle(rng, &mut entries);
        }
        let heads = *rng.pick(&[Heads::Shortest, Heads::Any]);
        let mut out = Vec::new();
        Value::Map(entries).write(rng, heads, &mut out);
        out
    }
}

/// Adds fields that are not named, some of them with names near the real ones.
fn unknown(rng: &mut Rng, entries: &mut Vec<(Vec<u8>, Value)>) {
    let number = match rng.below(40) {
        0 => rng.within(150, 200),
        1..=15 => rng.below(4),
        _ => 0,
    };
    for _ in 0..number {
        let name = match rng.chance(1, 2) {
            true => {
                let field = *rng.pick(&FIELDS);
                near(rng, field.name())
            }
            false => text(rng, 14),
        };
        let named = FIELDS.iter().any(|field| field.name().as_bytes() == name);
        if !named && entries.iter().all(|(key, _)| *key != name) {
            entries.push((name, Value::any(rng, 3)));
        }
    }
}
