//! An incremental settlement of the monthly book of document 01, written for
//! speed: each message moves the lines that it reaches and nothing is settled
//! again. It is what the proved book is measured against.

#![forbid(unsafe_code)]

mod book;
mod file;

pub use book::{
    Book, Line, MOST_POINTS, PACKED_SIZE, Period, Record, message, open, packed, read_packed,
    two_parts,
};
