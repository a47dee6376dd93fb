//! The book as one that a file is settled with.

use crate::book::{Book, Record, message, open};
use settlement_file::{Counts, Element, Month, RECORD_SIZE, Settle};

impl Settle for Book {
    fn open(
        month: Month,
        counts: Counts,
        elements: &[Element],
        prices: &[i64],
    ) -> Result<Book, u64> {
        open(month, counts, elements, prices)
    }

    fn dates(&self) -> (u64, u64) {
        (self.days.into(), self.first_day.into())
    }

    #[inline]
    fn message(
        &mut self,
        fields: &[u64; 9],
        each: impl FnMut([i64; RECORD_SIZE]),
    ) -> Result<(), u64> {
        let mut records = Vec::new();
        match message(self, fields, &mut records) {
            0 => {
                records.iter().map(Record::numbers).for_each(each);
                Ok(())
            }
            question => Err(question),
        }
    }
}
