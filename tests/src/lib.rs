//! The rules once more, written from their text alone: the programs and the library of this project are compared with
//! this. Clarity goes before speed. A row is a sign and a list of letters, and only the record, as a caller hands it
//! over, has masks and phases: they come from the letters one by one, so that a mistake about them is not made here as
//! well.

pub mod admission;
pub mod answers;
pub mod cases;
pub mod classical;
pub mod codes;
pub mod compare;
pub mod damage;
pub mod decoding;
pub mod faults;
pub mod group;
pub mod guarantee;
pub mod lists;
pub mod logical_errors;
pub mod parts;
pub mod product;
pub mod program;
pub mod published;
pub mod questions;
pub mod random;
pub mod record;
pub mod report;
pub mod reports;
#[cfg(test)]
mod sample_files;
pub mod samples;
pub mod sheet;
pub mod strings;
pub mod syndromes;
pub mod tally;
