//! Both forms of SQLite give the twin's records, lines and days without a holder, in months
//! in which every state counts and in months in which only two do.

#[path = "../../twin/tests/generated/mod.rs"]
mod generated;

use generated::{MONTHS, cheap_elements, first_states, number, random_message};
use settlement_file::{Counts, Month};
use sqlite::{Book, Lines};

/// How many answers there were of some sorts.
#[derive(Debug, Default)]
struct Seen {
    accepted: u64,
    /// Refused by question 11 and by question 12.
    not_existing: u64,
    closed: u64,
    records: usize,
    days: u64,
}

/// Lines and days without a holder are the twin's.
fn compare(book: &Book, twin: &twin::Book, counts: Counts, seen: &mut Seen) {
    for supplier in 1..=counts.suppliers {
        for element in 0..counts.elements {
            let [quantity, amount] = book.line(supplier, element).expect("a line");
            let line = twin.line(supplier, element).expect("a line");
            assert_eq!((quantity, i128::from(amount)), (line.quantity, line.amount));
        }
    }
    for point in 0..counts.points {
        let expected = twin.day_without_holder(point).expect("a point");
        assert_eq!(book.day_without_holder(point), expected.map(u64::from));
        seen.days += u64::from(expected.is_some());
    }
}

/// Takes messages of every kind; SQLite gets those that the twin accepts.
fn compare_month(month: Month, state: &mut u64, seen: &mut Seen) {
    let counts = Counts {
        points: 1 + number(state) % 4,
        suppliers: 1 + number(state) % 3,
        elements: 1 + number(state) % 6,
    };
    let (elements, prices) = cheap_elements(counts.elements, state);
    let mut twin = twin::open(month, counts, &elements, &prices).expect("a right opening");
    let mut books = [Lines::Updated, Lines::Summed].map(|lines| {
        Book::open(":memory:", lines, month, counts, &elements, &prices).expect("a database")
    });
    let others = (0..300).map(|_| random_message(month, counts, &elements, state));
    for fields in first_states(month, counts).chain(others) {
        let mut expected = Vec::new();
        let answer = twin::message(&mut twin, &fields, &mut expected);
        seen.not_existing += u64::from(answer == 11);
        seen.closed += u64::from(answer == 12);
        if answer != 0 {
            continue;
        }
        seen.accepted += 1;
        seen.records += expected.len();
        for book in &mut books {
            let mut records = Vec::new();
            book.message(&fields, &mut records);
            assert_eq!(records, expected);
            compare(book, &twin, counts, seen);
        }
    }
}

#[test]
fn generated_messages() {
    let mut state = 6;
    let mut seen = Seen::default();
    for month in MONTHS.into_iter().cycle().take(64) {
        compare_month(month, &mut state, &mut seen);
    }
    assert!(seen.accepted > 5_000 && seen.records > 1_000, "{seen:?}");
    assert!(seen.not_existing > 100 && seen.closed > 100, "{seen:?}");
    assert!(seen.days > 1_000, "{seen:?}");
}
