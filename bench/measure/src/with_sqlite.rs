//! The settlement with SQLite, its database in memory: lines updated by each message,
//! or summed by each round and line query.

use crate::settlement::{PackedAmount, Record, Settlement};
use settlement_file::Opening;
use sqlite::{Book, Lines};

pub struct Sqlite<const SUMS: bool> {
    book: Book,
    records: Vec<twin::Record>,
}

impl<const SUMS: bool> Settlement for Sqlite<SUMS> {
    const SHARE: usize = if SUMS { 100 } else { 1 };

    fn open(opening: &Opening) -> Self {
        let (elements, prices) = (&opening.elements, &opening.prices);
        let (month, counts) = (opening.month, opening.counts);
        let lines = if SUMS { Lines::Summed } else { Lines::Updated };
        match Book::open(":memory:", lines, month, counts, elements, prices) {
            Ok(book) => Sqlite {
                book,
                records: Vec::with_capacity(1024),
            },
            Err(slip) => panic!("{slip}"),
        }
    }

    fn message(&mut self, fields: &[u64; 9]) -> u64 {
        self.records.clear();
        self.book.message(fields, &mut self.records);
        0
    }

    fn records(&self) -> Vec<Record> {
        self.records.iter().map(twin::Record::numbers).collect()
    }

    fn line(&self, supplier: u64, element: u64) -> (i64, i64, u64) {
        match self.book.line(supplier, element) {
            Some([quantity, amount]) => (
                quantity,
                amount.div_euclid(1_000_000_000),
                amount.rem_euclid(1_000_000_000) as u64,
            ),
            None => (0, 0, 0),
        }
    }

    fn period_count(&mut self, point: u64, element: u64) -> u64 {
        self.book.period_count(point, element)
    }

    fn day_without_holder(&self, point: u64) -> Option<u64> {
        self.book.day_without_holder(point)
    }

    fn packed_sum(&self, supplier: u64, owner: u64) -> PackedAmount {
        self.book.packed_sum(supplier, owner)
    }

    fn finish(self) {
        if let Err(slip) = self.book.commit() {
            panic!("{slip}");
        }
    }
}
