//! The states that count in December 2018 and in January 2019, and in some months before
//! and after, through the library: each month takes the same messages on the same days of
//! the month, and the lines and the earliest day without a holder are compared with what
//! was worked out by hand.

mod support;

use settlement_book::{Book, Fields, Month, Question, Record};
use support::{CONNECTED, counts, element, holder, link, prices, state, told};

const NOBODY: u64 = 0;
const NEW: u64 = 1;
const DISCONNECTED: u64 = 3;
const CLOSED: u64 = 4;
const SUBSCRIPTION: u64 = 0;
const FEE: u64 = 1;
const TARIFF: u64 = 2;

/// A book of a month of 31 days with one point and two suppliers. A subscription at a
/// krone a day, a fee of a krone and a tariff of a krone a kWh. Days are those of the
/// month, from 1.
struct MonthBook {
    book: Book,
    /// The day before the first.
    before: u64,
}

fn open(year: u64, month: u64, before: u64) -> MonthBook {
    let elements = [element(1, 1, 0), element(2, 1, 0), element(3, 1, 0)];
    let prices = prices(&[31_000_000, 1_000_000, 1_000_000]);
    let book = Book::open(Month { year, month }, counts(1, 2, 3), &elements, &prices);
    MonthBook {
        book: book.unwrap(),
        before,
    }
}

fn december() -> MonthBook {
    open(2018, 12, 6908)
}

fn january() -> MonthBook {
    open(2019, 1, 6939)
}

impl MonthBook {
    /// What both forms of the call answer.
    fn message(&mut self, message: Fields) -> Result<Vec<Record>, Question> {
        let message = Fields {
            received: self.before + 1,
            // A round has no day.
            day: message.day + if message.kind == 8 { 0 } else { self.before },
            ..message
        };
        let mut checked = self.book.clone();
        let checked = checked.message_checked(&message).map(<[Record]>::to_vec);
        let answer = self.book.message(&message).map(<[Record]>::to_vec);
        assert_eq!(answer, checked, "{message:?}");
        answer
    }

    fn tell(&mut self, messages: &[Fields]) {
        for message in messages {
            assert_eq!(self.message(*message), Ok(vec![]), "{message:?}");
        }
    }

    /// Supplier, element, quantity and balance of the records of a round.
    fn round(&mut self) -> Vec<(u64, u64, i64, i64)> {
        let records = self.message(told(8, 2, 0, 0, 0, 0)).unwrap();
        let numbers = |r: &Record| (r.supplier, r.element, r.quantity, r.balance_quantity);
        records.iter().map(numbers).collect()
    }

    /// Quantity and thousandths of a krone of a line.
    fn line(&self, supplier: u64, element: u64) -> (i64, i64) {
        let line = self.book.line(supplier, element).unwrap();
        assert_eq!(self.book.line_checked(supplier, element), Ok(line));
        let thousandths = line.billionths as i64 / 1_000_000;
        assert_eq!(thousandths as u64 * 1_000_000, line.billionths);
        (line.quantity, line.kroner * 1000 + thousandths)
    }

    fn earliest(&self) -> Option<u64> {
        let day = self.book.day_without_holder(0).unwrap();
        assert_eq!(self.book.day_without_holder_checked(0), Ok(day));
        day.map(|day| day - self.before)
    }
}

/// Connected and held by supplier 1 throughout, with a fee of three on the 20th, 100 Wh on
/// the 11th and 400 on the 12th.
fn connected() -> [Fields; 7] {
    let three = link(FEE, 20);
    [
        state(1, CONNECTED),
        holder(1, 1),
        link(SUBSCRIPTION, 1),
        Fields { value: 3, ..three },
        link(TARIFF, 1),
        told(6, 1, 0, 11, 23, 100),
        told(6, 1, 0, 12, 0, 400),
    ]
}

/// The lines of supplier 1 where all of these count, and where none does.
const ALL: [(i64, i64); 3] = [(31, 31_000), (3, 3_000), (500, 500)];
const NONE: [(i64, i64); 3] = [(0, 0); 3];

fn lines(month: &MonthBook, supplier: u64) -> [(i64, i64); 3] {
    [SUBSCRIPTION, FEE, TARIFF].map(|element| month.line(supplier, element))
}

#[test]
fn every_state_counts_up_to_2018_and_two_from_2019_on() {
    for (month_state, later) in [
        (NEW, NONE),
        (CONNECTED, ALL),
        (DISCONNECTED, ALL),
        (CLOSED, NONE),
    ] {
        for (mut month, expected) in [
            (open(2000, 3, 59), ALL),
            (open(2018, 1, 6574), ALL),
            (december(), ALL),
            (january(), later),
            (open(2019, 12, 7273), later),
            (open(2099, 12, 36_493), later),
        ] {
            month.tell(&connected());
            month.tell(&[state(1, month_state)]);
            let name = (month.book.month(), month_state);
            assert_eq!(lines(&month, 1), expected, "{name:?}");
        }
    }
}

#[test]
fn closing_a_point_leaves_a_line_of_december() {
    let fixing = [(1, 0, 31, 31), (1, 1, 3, 3), (1, 2, 500, 500)];
    let mut december = december();
    december.tell(&connected());
    assert_eq!(december.round(), fixing);
    december.tell(&[state(12, CLOSED)]);
    assert_eq!(lines(&december, 1), ALL);
    assert_eq!(december.round(), []);

    let mut january = january();
    january.tell(&connected());
    assert_eq!(january.round(), fixing);
    january.tell(&[state(12, CLOSED)]);
    assert_eq!(lines(&january, 1), [(11, 11_000), (0, 0), (100, 100)]);
    let refixing = [(1, 0, -20, 11), (1, 1, -3, 0), (1, 2, -400, 100)];
    assert_eq!(january.round(), refixing);
}

/// Supplier 2 takes over on the 20th, when the point has been closed for eight days.
#[test]
fn a_switch_on_a_closed_day_moves_a_line_of_december() {
    let closed = [state(12, CLOSED), holder(20, 2)];
    let mut december = december();
    december.tell(&connected());
    december.tell(&closed);
    assert_eq!(lines(&december, 1), [(19, 19_000), (0, 0), (500, 500)]);
    assert_eq!(lines(&december, 2), [(12, 12_000), (3, 3_000), (0, 0)]);
    december.tell(&[holder(20, NOBODY)]);
    assert_eq!(lines(&december, 1), [(19, 19_000), (0, 0), (500, 500)]);
    assert_eq!(lines(&december, 2), NONE);

    let mut january = january();
    january.tell(&connected());
    january.tell(&closed);
    assert_eq!(lines(&january, 1), [(11, 11_000), (0, 0), (100, 100)]);
    assert_eq!(lines(&january, 2), NONE);
    january.tell(&[holder(20, NOBODY)]);
    assert_eq!(lines(&january, 1), [(11, 11_000), (0, 0), (100, 100)]);
}

/// New from the 5th, connected from the 10th, closed from the 20th on.
#[test]
fn questions_11_and_12_are_the_same_in_both_months() {
    for (mut month, days) in [(december(), 27), (january(), 10)] {
        month.tell(&[state(5, NEW), state(10, CONNECTED), state(20, CLOSED)]);
        month.tell(&[holder(1, 1)]);
        assert_eq!(month.message(link(FEE, 4)), Err(Question::NotExisting));
        month.tell(&[link(SUBSCRIPTION, 5), link(FEE, 19)]);
        for day in [20, 31] {
            let twice = Fields {
                kind: 3,
                value: 2,
                ..link(SUBSCRIPTION, day)
            };
            let stop = told(2, 1, SUBSCRIPTION, day, 0, 0);
            for message in [link(TARIFF, day), twice, stop] {
                let answer = month.message(message);
                assert_eq!(answer, Err(Question::Closed), "{message:?}");
            }
        }
        let expected = [(days, days * 1000), (1, 1_000), (0, 0)];
        assert_eq!(lines(&month, 1), expected);
    }
}

/// Messages one after the other, with the day that the query names then in December and
/// in January.
#[test]
fn the_earliest_day_without_a_holder_by_the_states_that_count() {
    let steps = [
        // The point does not exist before the 10th, and is new from then on.
        (state(10, NEW), None, None),
        (link(SUBSCRIPTION, 10), Some(10), None),
        (state(15, CONNECTED), Some(10), Some(15)),
        (state(15, DISCONNECTED), Some(10), Some(15)),
        (state(15, CLOSED), Some(10), None),
        (state(25, DISCONNECTED), Some(10), Some(25)),
        (holder(10, 1), None, None),
        // Closed from the 15th to the 24th.
        (holder(20, NOBODY), Some(20), Some(25)),
        // On the 8th and 9th there is no link, and then there is a fee on the 9th.
        (state(8, NEW), Some(20), Some(25)),
        (link(FEE, 9), Some(9), Some(25)),
        (state(9, DISCONNECTED), Some(9), Some(9)),
        (holder(9, 2), Some(20), Some(25)),
        (holder(20, 1), None, None),
        // The last day, closed and then connected.
        (state(31, CLOSED), None, None),
        (holder(31, NOBODY), Some(31), None),
        (state(31, CONNECTED), Some(31), Some(31)),
    ];
    let (mut december, mut january) = (december(), january());
    for (message, in_december, in_january) in steps {
        december.tell(&[message]);
        january.tell(&[message]);
        assert_eq!(december.earliest(), in_december, "{message:?}");
        assert_eq!(january.earliest(), in_january, "{message:?}");
    }
}
