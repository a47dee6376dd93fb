//! The monthly settlement book of document 01, proved in Rattle, for Rust.
//!
//! A [`Book`] is one grid company's month. It is opened with its counts, elements
//! and prices, takes messages, and answers what a supplier owes for an element, or
//! for all elements of an owner as a packed amount, which periods are recorded, and on
//! which day a point has no holder.
//!
//! ```
//! use settlement_book::{Book, Counts, Element, Fields, Month, read_packed};
//!
//! let month = Month { year: 2024, month: 3 };
//! let counts = Counts { points: 1, suppliers: 2, elements: 1 };
//! let subscription = Element { kind: 1, owner: 1, marks: 0 };
//! let mut prices = [0; 24];
//! prices[0] = 20_000_000;
//! let mut book = Book::open(month, counts, &[subscription], &prices)?;
//!
//! let received = 8826;
//! let state = Fields { kind: 5, role: 1, received, day: 8826, value: 2, ..Fields::default() };
//! let holder = Fields { kind: 4, role: 2, received, day: 8826, value: 1, ..Fields::default() };
//! let link = Fields { kind: 1, role: 1, received, day: 8826, value: 2, ..Fields::default() };
//! for message in [state, holder, link] {
//!     assert!(book.message(&message)?.is_empty());
//! }
//! assert_eq!(book.line(1, 0)?.kroner, 39);
//! // 39.999982 kroner are 4,000 øre, the nearest.
//! let packed = book.packed_sum(1, 1)?;
//! assert_eq!(packed, [0, 0, 0, 0, 0, 0x04, 0x00, 0x0c]);
//! assert_eq!(read_packed(&packed)?, 4_000);
//! # Ok::<(), settlement_book::Question>(())
//! ```
//!
//! What is proved is what the exported functions do; their promises are in
//! `crates/settlement_book`. This crate sees to what they ask of a caller, which
//! no proof covers: it is tested against fresh settlement (`rust/`).

#![deny(unsafe_code)]

// The one module with `unsafe`: it has the type whose privacy it relies on.
#[allow(unsafe_code)]
mod book;
mod file;
mod question;

pub use book::{Book, PACKED_SIZE, read_packed};
pub use question::Question;
pub use settlement_file::{Counts, Element, Month, RECORD_SIZE};

/// A message as it comes; the fields that its kind does not use are 0.
#[derive(Clone, Copy, Debug, Default, PartialEq, Eq)]
pub struct Fields {
    /// 1 link, 2 stop, 3 quantity, 4 holder, 5 state, 6 reading, 7 block, 8 round.
    pub kind: u64,
    /// 1 grid company, 2 Energinet, 3 supplier.
    pub role: u64,
    /// The supplier's number, else 0.
    pub sender: u64,
    pub received: u64,
    pub point: u64,
    pub element: u64,
    pub day: u64,
    pub hour: u64,
    pub value: u64,
}

impl From<[u64; 9]> for Fields {
    /// The fields in their order.
    fn from(numbers: [u64; 9]) -> Fields {
        let [
            kind,
            role,
            sender,
            received,
            point,
            element,
            day,
            hour,
            value,
        ] = numbers;
        Fields {
            kind,
            role,
            sender,
            received,
            point,
            element,
            day,
            hour,
            value,
        }
    }
}

/// One difference that a round sends, and what the line stands at after it. Its fields
/// lie as the exported functions write a record: [`RECORD_SIZE`] numbers of 64 bits.
#[derive(Clone, Copy, Debug, Default, PartialEq, Eq)]
#[repr(C)]
pub struct Record {
    /// 1 fixing, 2 refixing, 3 any later.
    pub kind: u64,
    pub supplier: u64,
    pub element: u64,
    pub quantity: i64,
    pub kroner: i64,
    /// 0 to 999,999,999, counting upwards from the kroner.
    pub billionths: u64,
    /// The line's quantity after the round.
    pub balance_quantity: i64,
    pub balance_kroner: i64,
    /// 0 to 999,999,999, counting upwards from the kroner.
    pub balance_billionths: u64,
}

impl Record {
    /// The fields in their order.
    pub fn numbers(&self) -> [i64; RECORD_SIZE] {
        [
            self.kind as i64,
            self.supplier as i64,
            self.element as i64,
            self.quantity,
            self.kroner,
            self.billionths as i64,
            self.balance_quantity,
            self.balance_kroner,
            self.balance_billionths as i64,
        ]
    }
}

/// What a supplier owes for an element.
#[derive(Clone, Copy, Debug, PartialEq, Eq)]
pub struct Line {
    pub quantity: i64,
    pub kroner: i64,
    /// 0 to 999,999,999, counting upwards from the kroner.
    pub billionths: u64,
}

/// One period of an element on a point: the first day is in it, `past` is not.
#[derive(Clone, Copy, Debug, PartialEq, Eq)]
pub struct Period {
    pub first: u64,
    pub past: u64,
    pub quantity: u64,
}

impl Period {
    /// From a row of the link table: point, element, first day, end day and
    /// quantity, packed into a word.
    fn of_row(word: u64) -> Period {
        Period {
            first: word >> 26 & 0xffff,
            past: word >> 10 & 0xffff,
            quantity: word & 0x3ff,
        }
    }
}
