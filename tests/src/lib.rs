//! An independent implementation of the MMTF container, of columns, of the
//! whole check, of receipts and of bills, the library's C calls, and what is
//! needed to compare the two.

pub mod check;
pub mod corpus;
pub mod generate;
pub mod guard;
pub mod independent;
pub mod json;
pub mod library;
pub mod shortest;
