//! The settlement of `twin`.

use crate::settlement::{PackedAmount, Record, Settlement};
use settlement_file::Opening;
use twin::two_parts;

pub struct Twin {
    book: twin::Book,
    records: Vec<twin::Record>,
}

impl Settlement for Twin {
    fn open(opening: &Opening) -> Self {
        let (elements, prices) = (&opening.elements, &opening.prices);
        match twin::open(opening.month, opening.counts, elements, prices) {
            Ok(book) => Twin {
                book,
                records: Vec::with_capacity(1024),
            },
            Err(question) => panic!("the opening is refused by question {question}"),
        }
    }

    #[inline]
    fn message(&mut self, fields: &[u64; 9]) -> u64 {
        self.records.clear();
        twin::message(&mut self.book, fields, &mut self.records)
    }

    fn records(&self) -> Vec<Record> {
        self.records.iter().map(twin::Record::numbers).collect()
    }

    #[inline]
    fn line(&self, supplier: u64, element: u64) -> (i64, i64, u64) {
        match self.book.line(supplier, element) {
            Ok(line) => {
                let (kroner, billionths) = two_parts(line.amount);
                (line.quantity, kroner, billionths)
            }
            Err(_) => (0, 0, 0),
        }
    }

    fn period_count(&mut self, point: u64, element: u64) -> u64 {
        let periods = self.book.periods(point, element);
        periods.map_or(0, |periods| periods.len() as u64)
    }

    fn day_without_holder(&self, point: u64) -> Option<u64> {
        self.book
            .day_without_holder(point)
            .ok()
            .flatten()
            .map(u64::from)
    }

    fn packed_sum(&self, supplier: u64, owner: u64) -> PackedAmount {
        self.book.packed_sum(supplier, owner).unwrap_or_default()
    }
}
