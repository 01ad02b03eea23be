//! The container walk, views by name, columns, the whole check, files opened,
//! transform matrices, receipts and bills, written from the format's rules
//! alone, with nothing taken from the library that it is compared with.

pub mod bill;
mod check;
pub mod columns;
mod counts;
mod fields;
mod groups;
mod lists;
mod matrix;
mod opening;
pub mod receipt;
mod refusal;
pub mod utf8;
mod value;
mod walk;

pub use check::verdict;
pub use fields::{Field, FIELDS, REQUIRED};
pub use matrix::matrix;
pub use opening::{open, Opened};
pub use refusal::{Refusal, NUMBERS};
pub use walk::{
    container, outer_binaries, outer_entries, outer_keys, view, ENTRY_LIMIT, FILE_LIMIT,
    LEVEL_LIMIT,
};
