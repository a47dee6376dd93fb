//! The settlement file of document 01: its fields, what they open a book with, and
//! what `settle` prints for a file or the book that the file leaves, with any book that
//! takes messages ([`Settle`]).

#![forbid(unsafe_code)]

mod calendar;
mod fields;
mod settle;

pub use calendar::{DAY_COUNT, days_in_month, first_day};
pub use fields::{Message, Messages, Opening};
pub use settle::{RECORD_SIZE, Settle, output, print_month, print_record, program, settled};

/// A calendar month: year 2000 to 2099, month 1 to 12.
#[derive(Clone, Copy, Debug, PartialEq, Eq)]
pub struct Month {
    pub year: u64,
    pub month: u64,
}

/// How many of each a book has: 1 to 256 points, 1 to 16 suppliers and 1 to 64
/// elements.
#[derive(Clone, Copy, Debug, PartialEq, Eq)]
pub struct Counts {
    pub points: u64,
    pub suppliers: u64,
    pub elements: u64,
}

/// A price element: kind 1 subscription, 2 fee or 3 tariff; owner 1 the grid
/// company or 2 Energinet; marks 1 VAT, 2 pass-on, 4 tax and 8 hourly prices.
#[derive(Clone, Copy, Debug, PartialEq, Eq)]
pub struct Element {
    pub kind: u8,
    pub owner: u8,
    pub marks: u8,
}
