//! The questions of document 01 and of request 11 that an entry point can answer with
//! no.

/// The first question that says no. Question 1 is the file's.
#[derive(Clone, Copy, Debug, PartialEq, Eq)]
pub enum Question {
    /// The file field is whole, with tag, length and order.
    BrokenField = 1,
    /// The month and every count are within their limits.
    OutOfLimits = 2,
    /// Each lent table has its exact length.
    WrongLength = 3,
    /// Each element obeys its rules.
    WrongElement = 4,
    /// The book is well formed.
    IllFormed = 5,
    /// Kind and fields are in range.
    OutOfRange = 6,
    /// The point is in the book.
    UnknownPoint = 7,
    /// The element is in the book.
    UnknownElement = 8,
    /// The sender may.
    NotPermitted = 9,
    /// The day is within the sender's time.
    OutOfTime = 10,
    /// The point exists on the day.
    NotExisting = 11,
    /// The point is other than closed on the day.
    Closed = 12,
    /// The element is not linked on the day.
    AlreadyLinked = 13,
    /// Some day before and some day from the stop on is linked.
    NothingToStop = 14,
    /// No tariff, and linked on the day.
    NoSuchQuantity = 15,
    /// The reading's day is in the month.
    OutsideMonth = 16,
    /// Rows and lines fit.
    TableFull = 17,
    /// The list holds every record.
    ListFull = 18,
    /// The bytes are eight; a sum to be packed has at most fifteen digits, and bytes that
    /// are read are a packed amount.
    NotPacked = 24,
}

use Question::*;

const ALL: [Question; 19] = [
    BrokenField,
    OutOfLimits,
    WrongLength,
    WrongElement,
    IllFormed,
    OutOfRange,
    UnknownPoint,
    UnknownElement,
    NotPermitted,
    OutOfTime,
    NotExisting,
    Closed,
    AlreadyLinked,
    NothingToStop,
    NoSuchQuantity,
    OutsideMonth,
    TableFull,
    ListFull,
    NotPacked,
];

impl Question {
    /// Its number in document 01 or request 11.
    pub fn number(self) -> u64 {
        self as u64
    }

    /// What an exported function answers: 0 where no question says no.
    pub(crate) fn none_of(number: u64) -> Result<(), Question> {
        if number == 0 {
            return Ok(());
        }
        let named = ALL.into_iter().find(|question| question.number() == number);
        Err(named.expect("the exported functions promise a number of the list"))
    }
}

impl std::fmt::Display for Question {
    fn fmt(&self, f: &mut std::fmt::Formatter<'_>) -> std::fmt::Result {
        write!(f, "refused by question {}", self.number())
    }
}

impl std::error::Error for Question {}

#[cfg(test)]
mod tests {
    use super::*;

    #[test]
    fn numbers_are_in_order() {
        let numbers = (1..=18).chain([24]);
        assert!(ALL.into_iter().map(Question::number).eq(numbers));
        for question in ALL {
            assert_eq!(Question::none_of(question.number()), Err(question));
        }
        assert_eq!(Question::none_of(0), Ok(()));
    }
}
