//! Fresh settlement of the monthly book of document 01: everything is settled
//! from scratch at each round, day by day and point by point.

#![forbid(unsafe_code)]

pub mod book;
pub mod calendar;
pub mod file;
pub mod run;

pub use run::{Event, output, run, run_counting};
