//! The book as one that a file is settled with.

use crate::{Book, Counts, Element, Fields, Month, Question, RECORD_SIZE, Record};
use settlement_file::Settle;

impl Settle for Book {
    fn open(
        month: Month,
        counts: Counts,
        elements: &[Element],
        prices: &[i64],
    ) -> Result<Book, u64> {
        Book::open(month, counts, elements, prices).map_err(Question::number)
    }

    fn dates(&self) -> (u64, u64) {
        (self.days(), self.first_day())
    }

    #[inline]
    fn message(
        &mut self,
        fields: &[u64; 9],
        each: impl FnMut([i64; RECORD_SIZE]),
    ) -> Result<(), u64> {
        let records = Book::message(self, &Fields::from(*fields)).map_err(Question::number)?;
        records.iter().map(Record::numbers).for_each(each);
        Ok(())
    }
}
