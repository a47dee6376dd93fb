//! From the bytes of a file to what `settle` prints for it.

use crate::book::{Book, Record, States, StatesByYear, billionths, counting_states, kroner};
use crate::file::{Element, Field, Month, Reader};
use std::fmt;

/// What happens in a run, in order. An accepted message prints nothing itself.
#[derive(Clone, Debug, PartialEq, Eq)]
pub enum Event {
    Book {
        year: u16,
        month: u8,
        days: u32,
        first_day: u32,
    },
    Accepted {
        kind: u8,
    },
    Record(Record),
    /// Message number from 1; 0 where the run ends.
    Refused {
        message: u64,
        question: u8,
    },
}

impl fmt::Display for Event {
    fn fmt(&self, f: &mut fmt::Formatter<'_>) -> fmt::Result {
        match self {
            Event::Book {
                year,
                month,
                days,
                first_day,
            } => writeln!(f, "book {year} {month} {days} {first_day}"),
            Event::Accepted { .. } => Ok(()),
            Event::Record(r) => writeln!(
                f,
                "record {} {} {} {} {} {} {} {} {}",
                r.kind,
                r.supplier,
                r.element,
                r.quantity,
                kroner(r.amount),
                billionths(r.amount),
                r.balance_quantity,
                kroner(r.balance_amount),
                billionths(r.balance_amount)
            ),
            Event::Refused { message, question } => writeln!(f, "refused {message} {question}"),
        }
    }
}

/// What `settle` prints for these bytes.
pub fn output(bytes: &[u8]) -> String {
    run(bytes).iter().map(Event::to_string).collect()
}

pub fn run(bytes: &[u8]) -> Vec<Event> {
    run_counting(bytes, counting_states)
}

/// The same where the year chooses the states that count in another way, to see
/// which files tell the two ways apart.
pub fn run_counting(bytes: &[u8], states_of: StatesByYear) -> Vec<Event> {
    let mut events = Vec::new();
    if let Err(question) = run_into(bytes, states_of, &mut events) {
        events.push(Event::Refused {
            message: 0,
            question,
        });
    }
    events
}

/// Runs to the end, or to the question from 1 to 4 that ends the run.
fn run_into(bytes: &[u8], states_of: StatesByYear, events: &mut Vec<Event>) -> Result<(), u8> {
    let mut reader = Reader::new(bytes);
    let Some(Ok(Field::Month(month))) = reader.next_field() else {
        return Err(1);
    };
    let states = states_of(month.year);
    let mut elements = Vec::new();
    let mut open_book: Option<Book> = None;
    let mut message_number = 0;

    while let Some(field) = reader.next_field() {
        match field {
            Err(_) => return Err(1),
            // The month stands once.
            Ok(Field::Month(_)) => return Err(1),
            Ok(Field::Element(element)) => {
                // All elements stand before the messages.
                if open_book.is_some() {
                    return Err(1);
                }
                elements.push(element);
            }
            Ok(Field::Message(message)) => {
                let mut book = match open_book.take() {
                    Some(book) => book,
                    None => open(&month, &elements, states, events)?,
                };
                message_number += 1;
                match book.take_message(&message) {
                    Ok(records) => {
                        events.push(Event::Accepted { kind: message.kind });
                        events.extend(records.into_iter().map(Event::Record));
                    }
                    Err(question) => events.push(Event::Refused {
                        message: message_number,
                        question,
                    }),
                }
                open_book = Some(book);
            }
        }
    }
    if open_book.is_none() {
        open(&month, &elements, states, events)?;
    }
    Ok(())
}

fn open(
    month: &Month,
    elements: &[Element],
    states: States,
    events: &mut Vec<Event>,
) -> Result<Book, u8> {
    let book = Book::open(month, elements, states)?;
    events.push(Event::Book {
        year: month.year,
        month: month.month,
        days: book.days(),
        first_day: book.first_day(),
    });
    Ok(book)
}
