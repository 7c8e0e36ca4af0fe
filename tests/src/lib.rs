//! A second implementation of the checker and writer, written from documents 01 and 02 alone, and
//! what is needed to compare it with the static library.

pub mod branches;
pub mod claim;
pub mod comparison;
pub mod fraction;
pub mod guard;
pub mod library;
pub mod make;
pub mod measure;
pub mod model;
pub mod runs;

#[cfg(test)]
mod cases;
#[cfg(test)]
mod faults;
