//! A file opened: which of the named fields it has, and where the part of each
//! stands.

use super::check::check;
use super::fields::FIELDS;
use super::walk::part_of;
use super::Refusal;

/// What is known of an accepted file once it is open.
#[derive(Clone, Copy, Debug, PartialEq, Eq)]
pub struct Opened {
    /// Bit i is set if field i is there.
    pub presence: u64,
    /// Where the part of each field starts in the file, 0 if it is absent.
    pub starts: [u64; FIELDS.len()],
    /// How long it is.
    pub lengths: [u64; FIELDS.len()],
}

/// Checks the whole file once, and says where its fields are.
pub fn open(file: &[u8]) -> Result<Opened, Refusal> {
    let (fields, _) = check(file)?;
    let mut opened = Opened {
        presence: 0,
        starts: [0; FIELDS.len()],
        lengths: [0; FIELDS.len()],
    };
    for field in FIELDS {
        if let Some(value) = fields.value(field) {
            let part = part_of(value);
            let place = field as usize;
            opened.presence |= 1 << place;
            // The value is a part of the file, and this a part of the value.
            opened.starts[place] = (part.as_ptr() as usize - file.as_ptr() as usize) as u64;
            opened.lengths[place] = part.len() as u64;
        }
    }
    Ok(opened)
}
