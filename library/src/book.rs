//! The book, and the calls of the exported functions: the one module with `unsafe`.
//!
//! Each exported function whose name ends in `_within` asks that its slices have the
//! lengths named below and that the book is well formed (`Whole` in
//! `crates/rules/specs/Whole.antt`); this module is their only caller. The others ask
//! nothing. Both hold of every [`Book`]:
//!
//! - A `Book` comes from [`Book::open`] alone, or is a clone of one. It is made where
//!   `settlement_book_open` answers 0, whose promise says that the book's numbers and
//!   the tables are then well formed.
//! - Nothing writes them but the two message functions. `settlement_book_message_within`
//!   promises that the book stays well formed. `settlement_book_message` promises the
//!   same step of the same book (`RepliesIn` in `crates/settlement_book`).
//! - The fields are private to this module, which hands out no `&mut` to them and
//!   never changes their lengths: those that the opening has accepted.
//! - All tables are their own allocations, so no two slices overlap, and `&mut self`
//!   or `&self` holds them for the time of the call. Every number is an integer of
//!   the same width on both sides, and no pointer is kept.
//!
//! What is lent beside a book is a value of the call itself, or its caller's, by a
//! reference that holds it for the time of the call: `&mut` where it is written.
//! [`read_packed`] is lent no book, and its exported function asks nothing.

use crate::{Counts, Element, Fields, Line, Month, Period, Question, RECORD_SIZE, Record};
use settlement_file::days_in_month;

/// The numbers of a book, of a message and of a line.
const BOOK_SIZE: usize = 11;
const FIELDS_SIZE: usize = 9;
const LINE_SIZE: usize = 3;
/// The bytes of a packed amount.
pub const PACKED_SIZE: usize = 8;
// The list of records is lent as the numbers that its records are.
const _: () = assert!(size_of::<Record>() == RECORD_SIZE * size_of::<i64>());
/// Places for periods, for holders and for states.
const PLACES: u64 = 1024;
/// What stands for no day: the number behind the last day.
const NO_DAY: u64 = settlement_file::DAY_COUNT;

/// Declares exported functions that are lent the tables, with what follows those.
/// A slice is a pointer and a length.
macro_rules! exported {
    ($own:tt: $($name:ident($($more:ident: $type:ty),*);)*) => {
        unsafe extern "C" {
            $(fn $name(
                book: *$own u64, book_length: usize,
                element_data: *const u8, element_data_length: usize,
                prices: *const i64, prices_length: usize,
                links: *$own u64, links_length: usize,
                holders: *$own u64, holders_length: usize,
                states: *$own u64, states_length: usize,
                readings: *$own u32, readings_length: usize,
                blocks: *$own u8, blocks_length: usize,
                lines: *$own i64, lines_length: usize,
                sent: *$own i64, sent_length: usize,
                $($more: $type),*
            ) -> u64;)*
        }
    };
}

exported! { mut:
    settlement_book_open();
    settlement_book_message(
        records: *mut i64, records_length: usize,
        fields: *const u64, fields_length: usize,
        count: *mut u64
    );
    settlement_book_message_within(
        records: *mut i64, records_length: usize,
        fields: *const u64, fields_length: usize,
        count: *mut u64
    );
}

exported! { const:
    settlement_book_line(supplier: u64, element: u64, line: *mut i64, line_length: usize);
    settlement_book_periods(
        point: u64, element: u64,
        place: *mut u64, count: *mut u64, read: *mut u64
    );
    settlement_book_day_without_holder(point: u64, day: *mut u64);
    settlement_book_packed_sum(
        supplier: u64, owner: u64,
        bytes: *mut u8, bytes_length: usize
    );
}

// The queries of a well-formed book are lent the tables that they read.
#[rustfmt::skip]
unsafe extern "C" {
    fn settlement_book_line_within(
        book: *const u64, book_length: usize,
        lines: *const i64, lines_length: usize,
        supplier: u64, element: u64,
        line: *mut i64, line_length: usize,
    ) -> u64;
    fn settlement_book_periods_within(
        book: *const u64, book_length: usize,
        links: *const u64, links_length: usize,
        point: u64, element: u64,
        place: *mut u64, count: *mut u64, read: *mut u64,
    ) -> u64;
    fn settlement_book_day_without_holder_within(
        book: *const u64, book_length: usize,
        links: *const u64, links_length: usize,
        holders: *const u64, holders_length: usize,
        states: *const u64, states_length: usize,
        point: u64,
        day: *mut u64,
    ) -> u64;
    fn settlement_book_packed_sum_within(
        book: *const u64, book_length: usize,
        element_data: *const u8, element_data_length: usize,
        lines: *const i64, lines_length: usize,
        supplier: u64, owner: u64,
        bytes: *mut u8, bytes_length: usize,
    ) -> u64;
}

// Lent no book.
unsafe extern "C" {
    fn settlement_book_read_packed(bytes: *const u8, bytes_length: usize, amount: *mut i64) -> u64;
}

/// Calls an exported function with a book's tables, for writing.
macro_rules! write_with {
    ($book:ident, $function:ident($($more:expr),*)) => {
        $function(
            $book.numbers.as_mut_ptr(), $book.numbers.len(),
            $book.element_data.as_ptr(), $book.element_data.len(),
            $book.prices.as_ptr(), $book.prices.len(),
            $book.links.as_mut_ptr(), $book.links.len(),
            $book.holders.as_mut_ptr(), $book.holders.len(),
            $book.states.as_mut_ptr(), $book.states.len(),
            $book.readings.as_mut_ptr(), $book.readings.len(),
            $book.blocks.as_mut_ptr(), $book.blocks.len(),
            $book.lines.as_mut_ptr(), $book.lines.len(),
            $book.sent.as_mut_ptr(), $book.sent.len(),
            $($more),*
        )
    };
}

/// Calls an exported function with a book's tables, for reading.
macro_rules! read_with {
    ($book:ident, $function:ident($($more:expr),*)) => {
        $function(
            $book.numbers.as_ptr(), $book.numbers.len(),
            $book.element_data.as_ptr(), $book.element_data.len(),
            $book.prices.as_ptr(), $book.prices.len(),
            $book.links.as_ptr(), $book.links.len(),
            $book.holders.as_ptr(), $book.holders.len(),
            $book.states.as_ptr(), $book.states.len(),
            $book.readings.as_ptr(), $book.readings.len(),
            $book.blocks.as_ptr(), $book.blocks.len(),
            $book.lines.as_ptr(), $book.lines.len(),
            $book.sent.as_ptr(), $book.sent.len(),
            $($more),*
        )
    };
}

/// One grid company's month, with everything that it is lent. It is well formed at
/// all times.
#[derive(Clone)]
pub struct Book {
    /// Year, month, points, suppliers, elements; periods, holders and states in
    /// use; the kind of the next round.
    numbers: [u64; BOOK_SIZE],
    element_data: Box<[u8]>,
    prices: Box<[i64]>,
    links: Box<[u64]>,
    holders: Box<[u64]>,
    states: Box<[u64]>,
    readings: Box<[u32]>,
    blocks: Box<[u8]>,
    lines: Box<[i64]>,
    sent: Box<[i64]>,
    /// One place for each line, so a round always fits.
    records: Box<[Record]>,
}

fn zeros<T: Clone + Default>(count: u64) -> Box<[T]> {
    vec![T::default(); count as usize].into_boxed_slice()
}

impl Book {
    /// Opens a month with 24 prices for each element, or names the first of questions
    /// 2 to 4 that says no.
    pub fn open(
        month: Month,
        counts: Counts,
        elements: &[Element],
        prices: &[i64],
    ) -> Result<Book, Question> {
        // Tables at their exact lengths. Counts past their limits are question 2, which
        // comes before the tables are looked at, so those need no room. Were the month's
        // days wrong, the opening would refuse the readings' length.
        let points = counts.points.min(256);
        let places = counts.suppliers.min(16) * counts.elements.min(64);
        let days = days_in_month(month.year, month.month);
        let element_data = elements.iter().flat_map(|e| [e.kind, e.owner, e.marks]);
        let mut book = Book {
            numbers: [
                month.year,
                month.month,
                counts.points,
                counts.suppliers,
                counts.elements,
                0,
                0,
                0,
                0,
                0,
                0,
            ],
            element_data: element_data.collect(),
            prices: prices.into(),
            links: zeros(PLACES),
            holders: zeros(PLACES),
            states: zeros(PLACES),
            readings: zeros(points * days * 24),
            blocks: zeros(points),
            lines: zeros(places * LINE_SIZE as u64),
            sent: zeros(places * LINE_SIZE as u64),
            records: zeros(places),
        };
        // Safety: the function takes anything; each slice is a list with its length.
        let answer = unsafe { write_with!(book, settlement_book_open()) };
        Question::none_of(answer).map(|()| book)
    }

    /// Takes a message: the records of a round, none for any other kind, or the first
    /// of questions 6 to 17 that says no; then nothing has changed.
    #[inline]
    pub fn message(&mut self, fields: &Fields) -> Result<&[Record], Question> {
        self.message_by(fields, false)
    }

    /// The same through the exported function that asks questions 2 to 5 of the whole
    /// book first. They never say no, so the answer is the same; it takes longer.
    pub fn message_checked(&mut self, fields: &Fields) -> Result<&[Record], Question> {
        self.message_by(fields, true)
    }

    #[inline]
    fn message_by(&mut self, fields: &Fields, checked: bool) -> Result<&[Record], Question> {
        let fields: [u64; FIELDS_SIZE] = [
            fields.kind,
            fields.role,
            fields.sender,
            fields.received,
            fields.point,
            fields.element,
            fields.day,
            fields.hour,
            fields.value,
        ];
        let mut count = 0;
        // A record is numbers of 64 bits, each of which may be anything.
        let records = self.records.as_mut_ptr().cast();
        let length = self.records.len() * RECORD_SIZE;
        let (message, size) = (fields.as_ptr(), fields.len());
        // Safety: a book's numbers and a message's. The book is well formed, as the head
        // of this module says.
        let answer = unsafe {
            if checked {
                write_with!(
                    self,
                    settlement_book_message(records, length, message, size, &mut count)
                )
            } else {
                write_with!(
                    self,
                    settlement_book_message_within(records, length, message, size, &mut count)
                )
            }
        };
        Question::none_of(answer).map(|()| &self.records[..count as usize])
    }

    /// What a supplier owes for an element, or question 6 or 8.
    #[inline]
    pub fn line(&self, supplier: u64, element: u64) -> Result<Line, Question> {
        let mut line = [0; LINE_SIZE];
        // Safety: a book's numbers, a line's, and the book is well formed.
        let answer = unsafe {
            settlement_book_line_within(
                self.numbers.as_ptr(),
                self.numbers.len(),
                self.lines.as_ptr(),
                self.lines.len(),
                supplier,
                element,
                line.as_mut_ptr(),
                line.len(),
            )
        };
        Question::none_of(answer).map(|()| line_of(line))
    }

    /// The same through the exported function that asks questions 2 to 5 first.
    pub fn line_checked(&self, supplier: u64, element: u64) -> Result<Line, Question> {
        let mut line = [0; LINE_SIZE];
        // Safety: the function takes anything; each slice is a list with its length.
        let answer = unsafe {
            read_with!(
                self,
                settlement_book_line(supplier, element, line.as_mut_ptr(), line.len())
            )
        };
        Question::none_of(answer).map(|()| line_of(line))
    }

    /// Everything recorded for a point and an element, by first day, or question 7 or
    /// 8: that part of the link table, not a copy. `read` becomes how many periods the
    /// search read: the first beyond the point and element and all before it, or all in
    /// use where none is beyond; 0 where the query is refused.
    #[inline]
    pub fn periods<'a>(
        &'a self,
        point: u64,
        element: u64,
        read: &mut u64,
    ) -> Result<impl ExactSizeIterator<Item = Period> + use<'a>, Question> {
        let (mut place, mut count) = (0, 0);
        // Safety: a book's numbers, and the book is well formed.
        let answer = unsafe {
            settlement_book_periods_within(
                self.numbers.as_ptr(),
                self.numbers.len(),
                self.links.as_ptr(),
                self.links.len(),
                point,
                element,
                &mut place,
                &mut count,
                read,
            )
        };
        Question::none_of(answer).map(|()| self.periods_at(place, count))
    }

    /// The same through the exported function that asks questions 2 to 5 first.
    pub fn periods_checked<'a>(
        &'a self,
        point: u64,
        element: u64,
        read: &mut u64,
    ) -> Result<impl ExactSizeIterator<Item = Period> + use<'a>, Question> {
        let (mut place, mut count) = (0, 0);
        // Safety: the function takes anything; each slice is a list with its length.
        let answer = unsafe {
            read_with!(
                self,
                settlement_book_periods(point, element, &mut place, &mut count, read)
            )
        };
        Question::none_of(answer).map(|()| self.periods_at(place, count))
    }

    #[inline]
    fn periods_at(&self, place: u64, count: u64) -> impl ExactSizeIterator<Item = Period> + '_ {
        let rows = &self.links[place as usize..][..count as usize];
        rows.iter().map(|word| Period::of_row(*word))
    }

    /// The earliest day of the month on which the point counts but for a missing holder
    /// and has a link, if there is one; or question 7. A point counts in the states
    /// connected and disconnected, and in a month up to December 2018 in every state,
    /// once it exists.
    #[inline]
    pub fn day_without_holder(&self, point: u64) -> Result<Option<u64>, Question> {
        let mut day = NO_DAY;
        // Safety: a book's numbers, and the book is well formed.
        let answer = unsafe {
            settlement_book_day_without_holder_within(
                self.numbers.as_ptr(),
                self.numbers.len(),
                self.links.as_ptr(),
                self.links.len(),
                self.holders.as_ptr(),
                self.holders.len(),
                self.states.as_ptr(),
                self.states.len(),
                point,
                &mut day,
            )
        };
        Question::none_of(answer).map(|()| (day < NO_DAY).then_some(day))
    }

    /// The same through the exported function that asks questions 2 to 5 first.
    pub fn day_without_holder_checked(&self, point: u64) -> Result<Option<u64>, Question> {
        let mut day = NO_DAY;
        // Safety: the function takes anything; each slice is a list with its length.
        let answer =
            unsafe { read_with!(self, settlement_book_day_without_holder(point, &mut day)) };
        Question::none_of(answer).map(|()| (day < NO_DAY).then_some(day))
    }

    /// What a supplier owes for the elements of an owner, 1 the grid company or 2
    /// Energinet, as a packed amount: the amounts of those lines added up, then rounded
    /// once to the øre, halves away from zero. Or question 6. The sum of a book that was
    /// opened always has few enough digits, so question 24 never says no.
    #[inline]
    pub fn packed_sum(&self, supplier: u64, owner: u64) -> Result<[u8; PACKED_SIZE], Question> {
        let mut bytes = [0; PACKED_SIZE];
        // Safety: a book's numbers, and the book is well formed.
        let answer = unsafe {
            settlement_book_packed_sum_within(
                self.numbers.as_ptr(),
                self.numbers.len(),
                self.element_data.as_ptr(),
                self.element_data.len(),
                self.lines.as_ptr(),
                self.lines.len(),
                supplier,
                owner,
                bytes.as_mut_ptr(),
                bytes.len(),
            )
        };
        Question::none_of(answer).map(|()| bytes)
    }

    /// The same through the exported function that asks questions 2 to 5 first.
    pub fn packed_sum_checked(
        &self,
        supplier: u64,
        owner: u64,
    ) -> Result<[u8; PACKED_SIZE], Question> {
        let mut bytes = [0; PACKED_SIZE];
        let (lent, length) = (bytes.as_mut_ptr(), bytes.len());
        // Safety: the function takes anything; each slice is a list with its length.
        let answer = unsafe {
            read_with!(
                self,
                settlement_book_packed_sum(supplier, owner, lent, length)
            )
        };
        Question::none_of(answer).map(|()| bytes)
    }

    /// The month of the book.
    pub fn month(&self) -> Month {
        Month {
            year: self.numbers[0],
            month: self.numbers[1],
        }
    }

    /// The first day of the book's month.
    pub fn first_day(&self) -> u64 {
        self.numbers[9]
    }

    /// How many days the book's month has.
    pub fn days(&self) -> u64 {
        self.numbers[10]
    }

    /// The counts of the book.
    pub fn counts(&self) -> Counts {
        Counts {
            points: self.numbers[2],
            suppliers: self.numbers[3],
            elements: self.numbers[4],
        }
    }
}

/// The øre of a packed amount: eight bytes, fifteen digits, highest first from the upper
/// half of the first byte, and in the last half-byte C for zero and above or D below. Or
/// question 24: another length, a digit above 9, another sign, or minus zero.
pub fn read_packed(bytes: &[u8]) -> Result<i64, Question> {
    let mut amount = 0;
    // Safety: the function takes anything; the slice is a list with its length.
    let answer = unsafe { settlement_book_read_packed(bytes.as_ptr(), bytes.len(), &mut amount) };
    Question::none_of(answer).map(|()| amount)
}

fn line_of([quantity, kroner, billionths]: [i64; LINE_SIZE]) -> Line {
    Line {
        quantity,
        kroner,
        // Promised to be 0 to 999,999,999.
        billionths: billionths as u64,
    }
}

#[cfg(test)]
mod tests {
    use super::*;

    fn book_of(points: u64, elements: u64) -> Book {
        let month = Month {
            year: 2024,
            month: 3,
        };
        let counts = Counts {
            points,
            suppliers: 2,
            elements,
        };
        // Fees, so that each link is a period of one day.
        let element = Element {
            kind: 2,
            owner: 1,
            marks: 0,
        };
        let (data, prices) = (vec![element; elements as usize], zeros(elements * 24));
        let mut book = Book::open(month, counts, &data, &prices).unwrap();
        for point in 0..points {
            let connected = Fields::from([5, 1, 0, 8826, point, 0, 8826, 0, 2]);
            assert_eq!(book.message(&connected), Ok(&[][..]));
        }
        book
    }

    fn book() -> Book {
        book_of(1, 1)
    }

    /// What makes a book wrong.
    type Slip = fn(&mut Book);

    fn link(point: u64, element: u64, day: u64) -> Fields {
        Fields::from([1, 1, 0, 8826, point, element, day, 0, 1])
    }

    /// The query for periods of any book: the answer, and the place, count and number of
    /// periods read, which were 6, 7 and 8.
    fn periods_lent(book: &Book, point: u64, element: u64) -> (u64, u64, u64, u64) {
        let (mut place, mut count, mut read) = (6, 7, 8);
        let answer = unsafe {
            read_with!(
                book,
                settlement_book_periods(point, element, &mut place, &mut count, &mut read)
            )
        };
        (answer, place, count, read)
    }

    /// The same without questions 2 to 5, of a book whose rows may be out of order. That is
    /// less than the function asks; `queries::search_pair`, by which it searches, asks no
    /// order, and the numbers are an opened book's, so it stays within the rows in use.
    fn searched(book: &Book, point: u64, element: u64) -> (u64, u64, u64, u64) {
        let (mut place, mut count, mut read) = (6, 7, 8);
        let answer = unsafe {
            settlement_book_periods_within(
                book.numbers.as_ptr(),
                book.numbers.len(),
                book.links.as_ptr(),
                book.links.len(),
                point,
                element,
                &mut place,
                &mut count,
                &mut read,
            )
        };
        (answer, place, count, read)
    }

    /// The functions for any book ask nothing of their callers: another length is
    /// question 3, and nothing is written.
    #[test]
    fn other_lengths_are_question_3() {
        let mut book = book();
        let mut count = 7;
        let round = [8, 2, 0, 8826, 0, 0, 0, 0];
        let records = &mut [5i64; RECORD_SIZE];
        let (list, length) = (records.as_mut_ptr(), records.len());
        let (message, size) = (round.as_ptr(), round.len());
        let answer = unsafe {
            write_with!(
                book,
                settlement_book_message(list, length, message, size, &mut count)
            )
        };
        assert_eq!((answer, count, *records), (3, 7, [5; RECORD_SIZE]));

        let line = &mut [5i64; 2];
        let answer = unsafe { read_with!(book, settlement_book_line(1, 0, line.as_mut_ptr(), 2)) };
        assert_eq!((answer, *line), (3, [5; 2]));

        book.links = zeros(PLACES - 1);
        assert_eq!(periods_lent(&book, 0, 0), (3, 6, 7, 0));
    }

    /// A refused message and a refused query leave the lent numbers, but that a refused
    /// query for periods tells that it read none.
    #[test]
    fn a_refusal_leaves_the_lent_numbers() {
        let mut book = book();
        let mut count = 7;
        let block = [7, 1, 0, 8826, 1, 0, 0, 0, 1];
        let (message, size) = (block.as_ptr(), block.len());
        let list = [0i64; 0].as_mut_ptr();
        let answer = unsafe {
            write_with!(
                book,
                settlement_book_message_within(list, 0, message, size, &mut count)
            )
        };
        assert_eq!((answer, count), (7, 7));
        // With a period in the table, one would have been read.
        assert_eq!(book.message(&link(0, 0, 8826)), Ok(&[][..]));
        assert_eq!(periods_lent(&book, 0, 0), (0, 0, 1, 1));
        assert_eq!(periods_lent(&book, 1, 0), (7, 6, 7, 0));
        assert_eq!(periods_lent(&book, 0, 1), (8, 6, 7, 0));
        let mut read = 5;
        assert_eq!(
            book.periods(1, 0, &mut read).err(),
            Some(Question::UnknownPoint)
        );
        assert_eq!(read, 0);
        let slips: [(u64, Slip); 4] = [
            (2, |book| book.numbers[0] = 1999),
            (3, |book| book.blocks = zeros(2)),
            (4, |book| book.element_data[0] = 4),
            (5, |book| book.links[1] = 1),
        ];
        for (question, slip) in slips {
            let mut wrong = book.clone();
            slip(&mut wrong);
            assert_eq!(periods_lent(&wrong, 0, 0), (question, 6, 7, 0));
        }
    }

    /// A round that is refused leaves the list: by its sender, and where the list has no
    /// room for the second of its two records. With room it writes both.
    #[test]
    fn a_refused_round_leaves_the_list() {
        let mut book = book_of(1, 2);
        for message in [
            Fields::from([4, 2, 0, 8826, 0, 0, 8826, 0, 1]),
            link(0, 0, 8826),
            link(0, 1, 8830),
        ] {
            assert_eq!(book.message(&message), Ok(&[][..]));
        }
        let mut round = |role, length| {
            let mut count = 7;
            let fields = [8, role, 0, 8826, 0, 0, 0, 0, 0];
            let (message, size) = (fields.as_ptr(), fields.len());
            let mut records = [5i64; 3 * RECORD_SIZE];
            let list = records.as_mut_ptr();
            let answer = unsafe {
                write_with!(
                    book,
                    settlement_book_message(list, length, message, size, &mut count)
                )
            };
            (answer, count, records)
        };
        let untouched = [5; 3 * RECORD_SIZE];
        assert_eq!(round(1, 3 * RECORD_SIZE), (9, 7, untouched));
        for length in [0, RECORD_SIZE, 2 * RECORD_SIZE - 1] {
            assert_eq!(round(2, length), (18, 7, untouched));
        }
        let (answer, count, records) = round(2, 2 * RECORD_SIZE);
        assert_eq!((answer, count), (0, 2));
        let (written, behind) = records.split_at(2 * RECORD_SIZE);
        let expected = [0, 1].map(|element| [1, 1, element, 1, 0, 0, 1, 0, 0]);
        assert_eq!(written, expected.as_flattened());
        assert_eq!(behind, [5; RECORD_SIZE]);
    }

    /// The search by itself: what stands behind the first period beyond the point and
    /// element changes neither the part nor how many periods were read, in order or not.
    #[test]
    fn the_search_does_not_look_behind_its_end() {
        let mut book = book_of(3, 3);
        for (point, element) in [(0, 0), (0, 2), (1, 1), (1, 2), (2, 0), (2, 1), (2, 2)] {
            for day in [8826, 8840] {
                assert_eq!(book.message(&link(point, element, day)), Ok(&[][..]));
            }
        }
        // Place, count and periods read, of each point and element.
        let expected = [
            [(0, 2, 3), (2, 0, 3), (2, 2, 5)],
            [(4, 0, 5), (4, 2, 7), (6, 2, 9)],
            [(8, 2, 11), (10, 2, 13), (12, 2, 14)],
        ];
        for (point, element) in (0..3).flat_map(|point| (0..3).map(move |e| (point, e))) {
            let (place, count, read) = expected[point as usize][element as usize];
            let found = (0, place, count, read);
            assert_eq!(searched(&book, point, element), found);
            let behind = read as usize..14;
            let mut other = book.clone();
            other.links[behind.clone()].reverse();
            assert_eq!(searched(&other, point, element), found);
            for word in [0, book.links[0], u64::MAX] {
                other.links[behind.clone()].fill(word);
                assert_eq!(searched(&other, point, element), found);
            }
            // The query for any book refuses such a table, and reads none of it.
            if !behind.is_empty() {
                assert_eq!(periods_lent(&other, point, element), (5, 6, 7, 0));
            }
        }
    }

    const KRONE: i128 = 1_000_000_000;
    const ORE: i128 = KRONE / 100;
    /// What fifteen digits come to, in øre.
    const MOST: i128 = 999_999_999_999_999;
    /// What question 5 lets a line come to.
    const MOST_LINE: i128 = 1_000_000_000_000 * KRONE;
    /// What the lent bytes were.
    const LENT: u8 = 0x5a;

    /// A book whose lines were not settled: its elements have these owners, and its lines
    /// these amounts in billionths of a krone, supplier 1's and then supplier 2's.
    fn book_owing(owners: &[u8], amounts: &[i128]) -> Book {
        let mut book = book_of(1, owners.len() as u64);
        for (element, owner) in owners.iter().enumerate() {
            book.element_data[3 * element + 1] = *owner;
        }
        for (line, amount) in book.lines.chunks_exact_mut(LINE_SIZE).zip(amounts) {
            line[1] = amount.div_euclid(KRONE) as i64;
            line[2] = amount.rem_euclid(KRONE) as i64;
        }
        book
    }

    /// One in which the grid company's lines of supplier 1 add up to this, each of them
    /// within question 5.
    fn book_owing_in_all(sum: i128) -> Book {
        let mut left = sum;
        let amounts = [(); 12].map(|()| {
            let amount = left.clamp(-MOST_LINE, MOST_LINE);
            left -= amount;
            amount
        });
        assert_eq!(left, 0);
        book_owing(&[1; 12], &amounts)
    }

    /// The packed sum of any book: the answer, and nine bytes of which so many were lent.
    fn packed_lent(book: &Book, supplier: u64, owner: u64, length: usize) -> (u64, [u8; 9]) {
        let mut bytes = [LENT; 9];
        let lent = bytes.as_mut_ptr();
        let answer = unsafe {
            read_with!(
                book,
                settlement_book_packed_sum(supplier, owner, lent, length)
            )
        };
        (answer, bytes)
    }

    /// The same of a book that questions 2 to 5 pass, which is all that the function for a
    /// well-formed book asks; both give the same.
    fn packed_into(book: &Book, supplier: u64, owner: u64, length: usize) -> (u64, [u8; 9]) {
        let any = packed_lent(book, supplier, owner, length);
        assert!(![2, 3, 4, 5].contains(&any.0), "question {}", any.0);
        let mut bytes = [LENT; 9];
        let answer = unsafe {
            settlement_book_packed_sum_within(
                book.numbers.as_ptr(),
                book.numbers.len(),
                book.element_data.as_ptr(),
                book.element_data.len(),
                book.lines.as_ptr(),
                book.lines.len(),
                supplier,
                owner,
                bytes.as_mut_ptr(),
                length,
            )
        };
        assert_eq!((answer, bytes), any);
        any
    }

    fn packed(book: &Book, supplier: u64, owner: u64) -> (u64, [u8; 9]) {
        packed_into(book, supplier, owner, PACKED_SIZE)
    }

    /// Eight bytes written, and nothing behind them.
    fn written(half_bytes: u64) -> (u64, [u8; 9]) {
        let mut bytes = [LENT; 9];
        bytes[..PACKED_SIZE].copy_from_slice(&half_bytes.to_be_bytes());
        (0, bytes)
    }

    /// Nothing written.
    fn refused(question: u64) -> (u64, [u8; 9]) {
        (question, [LENT; 9])
    }

    /// The half-bytes of an amount in øre: fifteen digits and a sign.
    fn half_bytes(ore: i128) -> u64 {
        let sign = if ore < 0 { 'd' } else { 'c' };
        let digits = format!("{:015}{sign}", ore.abs());
        assert_eq!(digits.len(), 16);
        u64::from_str_radix(&digits, 16).unwrap()
    }

    /// Bytes that are read: the answer, and the amount, which was 5.
    fn read(bytes: &[u8]) -> (u64, i64) {
        let mut amount = 5;
        let answer =
            unsafe { settlement_book_read_packed(bytes.as_ptr(), bytes.len(), &mut amount) };
        let expected = Question::none_of(answer).map(|()| amount);
        assert_eq!(read_packed(bytes), expected);
        (answer, amount)
    }

    /// Worked out by hand; in some no digit is like the next, so their order is seen.
    #[test]
    fn known_amounts_are_packed_and_read() {
        for (ore, half_bytes) in [
            (0, 0x0000_0000_0000_000c),
            (1, 0x0000_0000_0000_001c),
            (-1, 0x0000_0000_0000_001d),
            (-7, 0x0000_0000_0000_007d),
            (-10, 0x0000_0000_0000_010d),
            (123_456, 0x0000_0000_0123_456c),
            (-123_456, 0x0000_0000_0123_456d),
            (9_876_543_210, 0x0000_0987_6543_210c),
            (123_456_789_098_765, 0x1234_5678_9098_765c),
            (-987_654_321_012_345, 0x9876_5432_1012_345d),
            (100_000_000_000_000, 0x1000_0000_0000_000c),
            (-900_000_000_000_001, 0x9000_0000_0000_001d),
            (MOST, 0x9999_9999_9999_999c),
            (-MOST, 0x9999_9999_9999_999d),
        ] {
            let book = book_owing_in_all(ore * ORE);
            assert_eq!(packed(&book, 1, 1), written(half_bytes), "{ore}");
            let bytes = half_bytes.to_be_bytes();
            assert_eq!(read(&bytes), (0, ore as i64));
        }
        // The bytes one by one: 1,234.56 kroner.
        let bytes = [0x00, 0x00, 0x00, 0x00, 0x01, 0x23, 0x45, 0x6c];
        assert_eq!(
            packed(&book_owing_in_all(123_456 * ORE), 1, 1).1[..8],
            bytes
        );
        assert_eq!(read(&bytes), (0, 123_456));
    }

    #[test]
    fn an_ore_beyond_fifteen_digits_is_question_24() {
        for (sum, is_packed) in [
            (MOST * ORE, true),
            // Below half an øre more it is rounded to what fits.
            (MOST * ORE + ORE / 2 - 1, true),
            (MOST * ORE + ORE / 2, false),
            ((MOST + 1) * ORE, false),
            ((MOST + 2) * ORE, false),
            (12 * MOST_LINE, false),
        ] {
            for (sum, largest) in [(sum, 0x9999_9999_9999_999c), (-sum, 0x9999_9999_9999_999d)] {
                let book = book_owing_in_all(sum);
                let expected = if is_packed {
                    written(largest)
                } else {
                    refused(24)
                };
                assert_eq!(packed(&book, 1, 1), expected, "{sum}");
                // The sums beside it are zero, and are packed.
                assert_eq!(packed(&book, 1, 2), written(0xc));
                assert_eq!(packed(&book, 2, 1), written(0xc));
            }
        }
        // The most lines of the largest amounts.
        for amount in [MOST_LINE, -MOST_LINE] {
            let book = book_owing(&[1; 64], &[amount; 64]);
            assert_eq!(packed(&book, 1, 1), refused(24));
        }
        // The whole sum is asked: here the first eleven lines alone would not fit.
        let amounts = [[MOST_LINE; 11], [-MOST_LINE; 11]].concat();
        let book = book_owing(&[1; 22], &amounts);
        assert_eq!(packed(&book, 1, 1), written(0xc));
    }

    #[test]
    fn halves_of_an_ore_are_rounded_away_from_zero() {
        for (size, ore) in [
            (0, 0),
            (1, 0),
            (4_000_000, 0),
            (4_999_999, 0),
            (5_000_000, 1),
            (5_000_001, 1),
            (ORE, 1),
            (14_999_999, 1),
            (15_000_000, 2),
            (24_999_999, 2),
            (25_000_000, 3),
            (KRONE - 5_000_001, 99),
            (KRONE - 5_000_000, 100),
            (MOST_LINE - 5_000_001, 99_999_999_999_999),
            (MOST_LINE - 5_000_000, 100_000_000_000_000),
        ] {
            for (sum, ore) in [(size, ore), (-size, -ore)] {
                let expected = written(half_bytes(ore));
                let book = book_owing_in_all(sum);
                assert_eq!(packed(&book, 1, 1), expected, "{sum}");
            }
        }
        // The sign is that of the rounded sum.
        let packed = |sum| packed(&book_owing_in_all(sum), 1, 1);
        assert_eq!(packed(-4_000_000), written(0xc));
        assert_eq!(packed(-5_000_000), written(0x1d));
    }

    #[test]
    fn a_sum_is_rounded_once() {
        for (amounts, half_bytes) in [
            (&[4_000_000, 4_000_000][..], 0x1c),
            (&[-4_000_000, -4_000_000], 0x1d),
            (&[5_000_000, 5_000_000], 0x1c),
            (&[-5_000_000, -5_000_000], 0x1d),
            (&[5_000_000, -5_000_000], 0xc),
            (&[5_000_000, -5_000_001], 0xc),
            (&[-5_000_000, 0, 1], 0xc),
            (&[4_999_999, 0, 1], 0x1c),
            (&[4_000_000; 10], 0x4c),
            (&[-4_000_000; 10], 0x4d),
            (&[6_000_000; 10], 0x6c),
        ] {
            let book = book_owing(&[1; 10], amounts);
            let expected = written(half_bytes);
            assert_eq!(packed(&book, 1, 1), expected, "{amounts:?}");
        }
    }

    /// Each line has a digit of its own.
    #[test]
    fn only_lines_of_the_supplier_and_the_owner_are_added() {
        let ore = [
            1, 20, 300, 4_000, // supplier 1
            50_000, 600_000, 7_000_000, 80_000_000,
        ];
        let book = book_owing(&[1, 2, 2, 1], &ore.map(|ore| ore * ORE));
        assert_eq!(packed(&book, 1, 1), written(0x0004_001c));
        assert_eq!(packed(&book, 1, 2), written(0x320c));
        assert_eq!(packed(&book, 2, 1), written(0x0008_0050_000c));
        assert_eq!(packed(&book, 2, 2), written(0x7600_000c));

        // Sums that do not fit take nothing from those that do.
        let mut owners = [2; 11];
        owners[10] = 1;
        let mut amounts = [[MOST_LINE; 11], [0; 11]].concat();
        amounts[10] = 7 * ORE;
        let book = book_owing(&owners, &amounts);
        assert_eq!(packed(&book, 1, 2), refused(24));
        assert_eq!(packed(&book, 1, 1), written(0x7c));
        assert_eq!(packed(&book, 2, 2), written(0xc));
    }

    #[test]
    fn other_lengths_than_eight_are_question_24() {
        let book = book_owing_in_all(7 * ORE);
        for length in [0, 1, 7, 9] {
            assert_eq!(packed_into(&book, 1, 1, length), refused(24), "{length}");
        }
        assert_eq!(packed(&book, 1, 1), written(0x7c));
        let seven = [0, 0, 0, 0, 0, 0, 0, 0x7c, 0x7c, 0x7c];
        for length in [0, 1, 7, 9, 10] {
            assert_eq!(read(&seven[..length]), (24, 5), "{length}");
            let last = &seven[10 - length..];
            assert_eq!(read(last), (24, 5), "the last {length}");
        }
        assert_eq!(read(&seven[..PACKED_SIZE]), (0, 7));
    }

    /// Question 6 is asked before the length and the digits, and questions 2 to 5 before
    /// question 6.
    #[test]
    fn question_24_is_asked_last() {
        let mut book = book_owing_in_all(12 * MOST_LINE);
        let numbers = [(0, 1), (3, 1), (1, 0), (1, 3), (u64::MAX, 1), (1, u64::MAX)];
        for length in [0, 7, 8, 9] {
            assert_eq!(packed_into(&book, 1, 1, length), refused(24));
            for (supplier, owner) in numbers {
                assert_eq!(packed_into(&book, supplier, owner, length), refused(6));
            }
        }
        let slips: [(u64, Slip); 4] = [
            (5, |book| book.links[1] = 1),
            (4, |book| book.element_data[0] = 4),
            (3, |book| book.blocks = zeros(2)),
            (2, |book| book.numbers[0] = 1999),
        ];
        // Each slip comes to those before it, whose questions are asked later.
        for (question, slip) in slips {
            slip(&mut book);
            for (supplier, length) in [(1, 8), (0, 8), (1, 7), (0, 7)] {
                let found = packed_lent(&book, supplier, 1, length);
                assert_eq!(found, refused(question));
            }
        }
    }

    /// Question 5 asks the lines that are added, and they are added only where it passes.
    #[test]
    fn lines_out_of_bounds_are_question_5() {
        for size in [MOST_LINE, -MOST_LINE] {
            let book = book_owing(&[1], &[size]);
            let expected = written(half_bytes(size / ORE));
            assert_eq!(packed(&book, 1, 1), expected);
            let book = book_owing(&[1], &[size + size.signum()]);
            assert_eq!(packed_lent(&book, 1, 1, PACKED_SIZE), refused(5));
        }
        for billionths in [-1, KRONE as i64, i64::MIN, i64::MAX] {
            let mut book = book_owing(&[1], &[0]);
            book.lines[2] = billionths;
            assert_eq!(packed_lent(&book, 1, 1, PACKED_SIZE), refused(5));
        }
    }

    /// Sums of one digit up to fifteen, each some billionths off what it is rounded to.
    #[test]
    fn what_is_packed_is_read_back() {
        for k in 1..=5_000 {
            // Fractional parts of multiples of the golden ratio.
            let number = (k as u64).wrapping_mul(0x9e37_79b9_7f4a_7c15) >> 1;
            let size = i128::from(number) % 10_i128.pow(1 + k % 15);
            let off = i128::from(number) % (ORE - 1) - (ORE / 2 - 1);
            let ore = if k % 2 == 0 { size } else { -size };
            let book = book_owing_in_all(ore * ORE + off);
            let (answer, bytes) = packed(&book, 1, 1);
            assert_eq!((answer, bytes), written(half_bytes(ore)), "{ore}, {off}");
            assert_eq!(read(&bytes[..PACKED_SIZE]), (0, ore as i64));
        }
    }

    /// Half-bytes with one of them another.
    fn with_half(half_bytes: u64, place: usize, half: u64) -> [u8; PACKED_SIZE] {
        let shift = 60 - 4 * place;
        (half_bytes & !(0xf << shift) | half << shift).to_be_bytes()
    }

    #[test]
    fn each_half_byte_is_read() {
        for number in [0xc, 0x1d, 0x1234_5678_9098_765c, 0x9999_9999_9999_999d] {
            for place in 0..15 {
                for half in 0..16 {
                    let bytes = with_half(number, place, half);
                    // The half-byte counts by its place; minus zero is no number.
                    let others = u64::from_be_bytes(with_half(number, place, 0));
                    let digits = format!("{:x}", others >> 4).parse::<i64>().unwrap();
                    let size = digits + half as i64 * 10_i64.pow(14 - place as u32);
                    let is_minus = number & 0xf == 0xd;
                    let expected = match half {
                        10.. => (24, 5),
                        _ if is_minus && size == 0 => (24, 5),
                        _ if is_minus => (0, -size),
                        _ => (0, size),
                    };
                    assert_eq!(read(&bytes), expected, "{bytes:02x?}");
                }
            }
        }
    }

    #[test]
    fn each_sign_is_read() {
        for (number, size) in [(0x70, 7), (0x1234_5678_9098_7650, 123_456_789_098_765)] {
            for sign in 0..16 {
                let expected = match sign {
                    0xc => (0, size),
                    0xd => (0, -size),
                    _ => (24, 5),
                };
                assert_eq!(read(&with_half(number, 15, sign)), expected, "{sign:x}");
            }
        }
        // Zero has the one form.
        for sign in 0..16 {
            let expected = if sign == 0xc { (0, 0) } else { (24, 5) };
            assert_eq!(read(&with_half(0, 15, sign)), expected, "{sign:x}");
        }
    }
}
