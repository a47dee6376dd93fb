//! The proved settlement, through the safe wrapper of its static library: messages
//! and queries of a book that is well formed.

use crate::settlement::{PackedAmount, Record, Settlement};
use settlement_book::{Book, Fields};
use settlement_file::Opening;

pub struct Library {
    book: Book,
    /// Of the last round.
    records: Vec<settlement_book::Record>,
}

impl Library {
    /// How many periods stand before those of a point and an element, how many these
    /// are, and how many the query read.
    pub fn place_of(&self, point: u64, element: u64) -> (u64, u64, u64) {
        let elements = self.book.counts().elements;
        let pair = point * elements + element;
        let count = |pair, read: &mut u64| {
            let periods = self.book.periods(pair / elements, pair % elements, read);
            periods.map_or(0, |periods| periods.len() as u64)
        };
        let before = (0..pair).map(|earlier| count(earlier, &mut 0)).sum();
        let mut read = 0;
        (before, count(pair, &mut read), read)
    }

    /// How many periods are recorded for a point and an element, by the function that
    /// asks questions 2 to 5 first.
    pub fn period_count_checked(&self, point: u64, element: u64) -> u64 {
        let periods = self.book.periods_checked(point, element, &mut 0);
        periods.map_or(0, |periods| periods.len() as u64)
    }
}

impl Settlement for Library {
    fn open(opening: &Opening) -> Self {
        let (elements, prices) = (&opening.elements, &opening.prices);
        match Book::open(opening.month, opening.counts, elements, prices) {
            Ok(book) => Library {
                book,
                records: Vec::with_capacity(1024),
            },
            Err(question) => panic!("the opening is {question}"),
        }
    }

    #[inline]
    fn message(&mut self, fields: &[u64; 9]) -> u64 {
        match self.book.message(&Fields::from(*fields)) {
            Ok(records) => {
                self.records.clear();
                self.records.extend_from_slice(records);
                0
            }
            Err(question) => question.number(),
        }
    }

    fn records(&self) -> Vec<Record> {
        self.records
            .iter()
            .map(settlement_book::Record::numbers)
            .collect()
    }

    #[inline]
    fn line(&self, supplier: u64, element: u64) -> (i64, i64, u64) {
        match self.book.line(supplier, element) {
            Ok(line) => (line.quantity, line.kroner, line.billionths),
            Err(_) => (0, 0, 0),
        }
    }

    fn period_count(&mut self, point: u64, element: u64) -> u64 {
        let periods = self.book.periods(point, element, &mut 0);
        periods.map_or(0, |periods| periods.len() as u64)
    }

    fn day_without_holder(&self, point: u64) -> Option<u64> {
        self.book.day_without_holder(point).ok().flatten()
    }

    fn packed_sum(&self, supplier: u64, owner: u64) -> PackedAmount {
        self.book.packed_sum(supplier, owner).unwrap_or_default()
    }
}
