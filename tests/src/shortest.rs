//! A search that tries to beat the writer: it looks for payloads that decode to
//! a column and are shorter than the writer's for that column, or as short and
//! different. `narrow` goes through all payloads of narrow widths, and `wide`
//! takes columns of the sixteen codecs through both implementations.

pub mod narrow;
pub mod wide;

use std::cmp::Ordering;
use std::fmt::Debug;

/// How many payloads a search met, beside those that the writer makes of what
/// they decode to.
#[derive(Clone, Debug, Default, PartialEq, Eq)]
pub struct Found {
    /// They do not decode.
    pub refused: u64,
    pub longer: u64,
    /// They are the writer's own.
    pub own: u64,
    /// They are as short as the writer's, and others.
    pub tied: u64,
    pub shorter: u64,
    /// The first that is tied or shorter, beside the writer's.
    pub first: Option<String>,
}

impl Found {
    pub fn payloads(&self) -> u64 {
        self.refused + self.longer + self.own + self.tied + self.shorter
    }

    /// Whether a payload is shorter than the writer's, or as short and different.
    pub fn is_beaten(&self) -> bool {
        self.tied + self.shorter > 0
    }

    fn note<T: PartialEq + Debug>(&mut self, payload: &[T], own: &[T]) {
        let place = match payload.len().cmp(&own.len()) {
            Ordering::Greater => &mut self.longer,
            Ordering::Equal if payload == own => &mut self.own,
            Ordering::Equal => &mut self.tied,
            Ordering::Less => &mut self.shorter,
        };
        *place += 1;
        if self.is_beaten() && self.first.is_none() {
            self.first = Some(format!("{payload:?}, the writer's {own:?}"));
        }
    }
}
