//! Document 01's listing through the library, what it refuses, the balances of records,
//! the earliest day without a holder, how many periods the query for them reads, and its
//! two forms of each call against each other.

mod support;

use std::collections::BTreeMap;

use settlement_book::{Book, Counts, Fields, Line, Month, Period, Question, Record};
use support::{
    CONNECTED, FIRST, MARCH, Random, counts, element, holder, link, listing, prices, state, tell,
    told,
};

const LAST: u64 = 8856;

/// A record of a line: kind, supplier and element, then quantity, kroner and billionths
/// of the difference and of the balance.
fn record(line: (u64, u64, u64), moved: (i64, i64, u64), balance: (i64, i64, u64)) -> Record {
    Record {
        kind: line.0,
        supplier: line.1,
        element: line.2,
        quantity: moved.0,
        kroner: moved.1,
        billionths: moved.2,
        balance_quantity: balance.0,
        balance_kroner: balance.1,
        balance_billionths: balance.2,
    }
}

/// The line that a record's balance names.
fn balance(record: &Record) -> Line {
    Line {
        quantity: record.balance_quantity,
        kroner: record.balance_kroner,
        billionths: record.balance_billionths,
    }
}

fn round() -> Fields {
    told(8, 2, 0, 0, 0, 0)
}

#[test]
fn the_listing_gives_its_records() {
    let mut book = listing();
    let round = round();
    let fixing = [
        ((1, 1, 0), (30, 19, 354_830_000)),
        ((1, 1, 1), (1000, 0, 500_000_000)),
        ((1, 2, 0), (32, 20, 645_152_000)),
        ((1, 2, 1), (3000, 1, 500_000_000)),
    ];
    // At the fixing nothing was sent before.
    let fixing = fixing.map(|(line, moved)| record(line, moved, moved));
    assert_eq!(book.message(&round), Ok(&fixing[..]));
    assert_eq!(book.message(&told(6, 1, 0, 8841, 0, 2500)), Ok(&[][..]));
    let refixing = record((2, 2, 1), (-500, -1, 750_000_000), (2500, 1, 250_000_000));
    assert_eq!(book.message(&round), Ok(&[refixing][..]));
    let again = told(1, 1, 0, 8830, 0, 1);
    assert_eq!(book.message(&again), Err(Question::AlreadyLinked));
    // The kind advances even where there is nothing to send.
    assert_eq!(book.message_checked(&round), Ok(&[][..]));
    let line = Line {
        quantity: 2500,
        kroner: 1,
        billionths: 250_000_000,
    };
    assert_eq!(book.line(2, 1), Ok(line));
    assert_eq!(book.line_checked(2, 1), Ok(line));
}

/// Sends a round, and compares its records with these and their balances with the lines.
fn round_gives(book: &mut Book, expected: &[Record]) {
    let found = book.message(&round()).unwrap().to_vec();
    assert_eq!(found.len(), expected.len());
    for (found, expected) in found.iter().zip(expected) {
        assert_eq!(found, expected);
        assert_balance_is_line(book, found);
    }
}

fn assert_balance_is_line(book: &Book, record: &Record) {
    let line = book.line(record.supplier, record.element);
    assert_eq!(line, Ok(balance(record)), "{record:?}");
}

#[test]
fn a_line_that_returns_to_zero_has_a_balance_of_zero() {
    let mut book = listing();
    assert_eq!(book.message(&round()).unwrap().len(), 4);
    tell(&mut book, told(6, 1, 0, 8841, 0, 0));
    let back = record((2, 2, 1), (-3000, -2, 500_000_000), (0, 0, 0));
    round_gives(&mut book, &[back]);
    round_gives(&mut book, &[]);
    // The next record of the line begins at zero; that of the other, which had none in
    // two rounds, includes the fixing's.
    tell(&mut book, told(6, 1, 0, 8841, 0, 700));
    tell(&mut book, told(6, 1, 0, 8840, 0, 200));
    let kept = record((3, 1, 1), (200, 0, 100_000_000), (1200, 0, 600_000_000));
    let anew = record((3, 2, 1), (700, 0, 350_000_000), (700, 0, 350_000_000));
    round_gives(&mut book, &[kept, anew]);
}

/// A tariff with a krone a kWh in hour 0 and minus three in hour 1.
#[test]
fn balances_below_zero_count_their_billionths_upwards() {
    let mut prices = prices(&[1_000_000]);
    prices[1] = -3_000_000;
    let hourly = [element(3, 1, 8)];
    let mut book = Book::open(MARCH, counts(1, 1, 1), &hourly, &prices).unwrap();
    for message in [state(FIRST, CONNECTED), holder(FIRST, 1), link(0, FIRST)] {
        tell(&mut book, message);
    }
    let mut read = |kind, hour, wh, moved, balance| {
        tell(&mut book, told(6, 1, 0, 8840, hour, wh));
        round_gives(&mut book, &[record((kind, 1, 0), moved, balance)]);
    };
    // -0.3; a krone more; 1.5 less; 0.3 more, below zero still; back to zero in the amount.
    read(1, 1, 100, (100, -1, 700_000_000), (100, -1, 700_000_000));
    read(2, 0, 1000, (1000, 1, 0), (1100, 0, 700_000_000));
    read(3, 1, 600, (500, -2, 500_000_000), (1600, -1, 200_000_000));
    read(3, 1, 500, (-100, 0, 300_000_000), (1500, -1, 500_000_000));
    read(3, 0, 1500, (500, 0, 500_000_000), (2000, 0, 0));
}

/// 16 suppliers and 64 elements of e kroner a day. Supplier p + 1 holds point p, until
/// supplier 1 gets all points from a later day on, and then from the first.
#[test]
fn the_fullest_list_carries_its_balances() {
    let data = vec![element(1, 1, 0); 64];
    let each: Vec<i64> = (0..64).map(|e| e * 31_000_000).collect();
    let mut book = Book::open(MARCH, counts(16, 16, 64), &data, &prices(&each)).unwrap();
    for point in 0..16 {
        let links = (0..64).map(|e| link(e, FIRST));
        let messages = [state(FIRST, CONNECTED), holder(FIRST, point + 1)];
        for message in messages.into_iter().chain(links) {
            tell(&mut book, Fields { point, ..message });
        }
    }
    // Of each round the days that supplier 1 and the others have more, and then have.
    let rounds = [
        (1, None, (31, 31), (31, 31)),
        (2, Some(LAST - 10), (165, 196), (-11, 20)),
        (3, Some(FIRST), (300, 496), (-20, 0)),
    ];
    for (kind, day, of_first, of_others) in rounds {
        for (point, day) in (1..16).filter_map(|point| Some((point, day?))) {
            let message = holder(day, 1);
            tell(&mut book, Fields { point, ..message });
        }
        let mut expected = Vec::new();
        for supplier in 1..=16 {
            let (more, now) = if supplier == 1 { of_first } else { of_others };
            expected.extend((0..64).map(|e| {
                let price = e as i64;
                let (moved, balance) = ((more, more * price, 0), (now, now * price, 0));
                record((kind, supplier, e), moved, balance)
            }));
        }
        assert_eq!(expected.len(), 1024);
        round_gives(&mut book, &expected);
    }
}

/// What the query for periods answers, and how many periods it says that it read. Both
/// forms of the call say the same.
fn periods(book: &Book, point: u64, element: u64) -> (Result<Vec<Period>, Question>, u64) {
    let (mut read, mut read_checked) = (9, 10);
    let found = book.periods(point, element, &mut read);
    let checked = book.periods_checked(point, element, &mut read_checked);
    let (found, checked) = (found.map(Iterator::collect), checked.map(Iterator::collect));
    assert_eq!((&found, read), (&checked, read_checked));
    (found, read)
}

#[test]
fn queries_answer_or_name_the_question() {
    let mut book = listing();
    assert_eq!(book.line(0, 0), Err(Question::OutOfRange));
    assert_eq!(book.line(3, 0), Err(Question::OutOfRange));
    assert_eq!(book.line(1, 2), Err(Question::UnknownElement));
    let whole = Period {
        first: FIRST,
        past: 36_525,
        quantity: 2,
    };
    assert_eq!(
        periods(&book, 0, 0),
        (Ok(vec![whole]), 2),
        "one period, which nothing ends, and the one behind it"
    );
    assert_eq!(book.message(&told(3, 1, 0, 8830, 0, 5)), Ok(&[][..]));
    let split = [
        Period {
            past: 8830,
            ..whole
        },
        Period {
            first: 8830,
            quantity: 5,
            ..whole
        },
    ];
    assert_eq!(periods(&book, 0, 0), (Ok(split.to_vec()), 3));
    let behind = Period {
        quantity: 1,
        ..whole
    };
    assert_eq!(periods(&book, 0, 1), (Ok(vec![behind]), 3));
    assert_eq!(periods(&book, 1, 0), (Err(Question::UnknownPoint), 0));
    assert_eq!(periods(&book, 0, 2), (Err(Question::UnknownElement), 0));
    assert_eq!(book.day_without_holder(0), Ok(None));
    assert_eq!(book.message(&told(4, 2, 0, 8850, 0, 0)), Ok(&[][..]));
    assert_eq!(book.day_without_holder(0), Ok(Some(8850)));
    assert_eq!(book.day_without_holder(1), Err(Question::UnknownPoint));
}

const NOBODY: u64 = 0;
const NEW: u64 = 1;
const DISCONNECTED: u64 = 3;
const CLOSED: u64 = 4;
const SUBSCRIPTION: u64 = 0;
const FEE: u64 = 1;

/// A month with two points, two suppliers, a subscription and a fee.
fn open(month: Month) -> Book {
    let elements = [element(1, 1, 0), element(2, 1, 0)];
    let prices = prices(&[20_000_000, 150_000_000]);
    Book::open(month, counts(2, 2, 2), &elements, &prices).unwrap()
}

/// March after these messages about point 0.
fn march(messages: &[Fields]) -> Book {
    let mut book = open(MARCH);
    for message in messages {
        tell(&mut book, *message);
    }
    book
}

/// What both forms of the query for point 0 answer.
fn earliest(book: &Book) -> Option<u64> {
    let day = book.day_without_holder(0).unwrap();
    assert_eq!(book.day_without_holder_checked(0), Ok(day));
    day
}

/// A point that counts and is linked throughout the month, held by supplier 1 but on
/// these days; the holder messages come in the order of the list.
fn held_but_on(days: &[u64]) -> Book {
    let mut book = march(&[
        state(FIRST, CONNECTED),
        link(SUBSCRIPTION, FIRST),
        holder(FIRST, 1),
    ]);
    for &day in days {
        if !days.contains(&(day + 1)) {
            tell(&mut book, holder(day + 1, 1));
        }
        tell(&mut book, holder(day, NOBODY));
    }
    book
}

#[test]
fn the_earliest_day_without_a_holder_is_named() {
    for days in [
        &[][..],
        &[8840],
        &[FIRST],
        &[LAST],
        &[8830, 8850],
        &[8850, 8830],
        &[FIRST, LAST],
        &[LAST, FIRST],
        &[8840, 8841],
        &[8841, 8840],
        &[8830, 8840, 8850],
        &[8850, 8840, 8830],
        &[8840, 8850, 8830],
        &[LAST, 8840, FIRST],
    ] {
        let mut book = held_but_on(days);
        // One works forward from it: a day that has found its holder is passed.
        let mut left = days.to_vec();
        left.sort();
        for day in left {
            assert_eq!(earliest(&book), Some(day), "{days:?}");
            tell(&mut book, holder(day, 2));
        }
        assert_eq!(earliest(&book), None, "{days:?}");
    }
}

#[test]
fn before_any_holder_the_first_day_that_counts_with_a_link_is_named() {
    let mut book = march(&[]);
    assert_eq!(earliest(&book), None, "neither state nor link");
    tell(&mut book, state(FIRST, CONNECTED));
    assert_eq!(earliest(&book), None, "no link");
    tell(&mut book, link(FEE, LAST));
    assert_eq!(earliest(&book), Some(LAST), "a fee on the last day");
    tell(&mut book, link(SUBSCRIPTION, 8830));
    assert_eq!(earliest(&book), Some(8830));
    tell(&mut book, link(FEE, FIRST));
    assert_eq!(earliest(&book), Some(FIRST), "a fee on the first day");
    tell(&mut book, holder(FIRST, 1));
    assert_eq!(earliest(&book), None);
}

#[test]
fn a_day_with_a_link_that_does_not_count_is_passed() {
    let mut book = march(&[state(FIRST, NEW), link(SUBSCRIPTION, FIRST)]);
    assert_eq!(earliest(&book), None, "new");
    tell(&mut book, state(LAST, CONNECTED));
    assert_eq!(earliest(&book), Some(LAST));
    tell(&mut book, state(8835, DISCONNECTED));
    assert_eq!(earliest(&book), Some(8835));
    tell(&mut book, state(8835, CLOSED));
    assert_eq!(earliest(&book), Some(LAST), "closed");
    tell(&mut book, state(LAST, CLOSED));
    assert_eq!(earliest(&book), None);
}

#[test]
fn days_outside_the_month_are_not_named() {
    let before = FIRST - 5;
    let mut book = march(&[state(before, CONNECTED), link(SUBSCRIPTION, before)]);
    tell(&mut book, holder(FIRST, 1));
    assert_eq!(earliest(&book), None, "before");
    tell(&mut book, holder(LAST + 1, NOBODY));
    assert_eq!(earliest(&book), None, "after");
    tell(&mut book, holder(LAST, NOBODY));
    assert_eq!(earliest(&book), Some(LAST));
    tell(&mut book, holder(FIRST, NOBODY));
    assert_eq!(earliest(&book), Some(FIRST));
}

#[test]
fn another_point_is_not_looked_at() {
    let mut book = held_but_on(&[8840]);
    assert_eq!(book.day_without_holder(1), Ok(None));
    for mut message in [state(8830, CONNECTED), link(SUBSCRIPTION, 8830)] {
        message.point = 1;
        tell(&mut book, message);
    }
    assert_eq!(book.day_without_holder(1), Ok(Some(8830)));
    assert_eq!(earliest(&book), Some(8840));
}

#[test]
fn the_first_and_the_last_day_of_months_of_every_length() {
    for (year, month, first, days) in [
        (2023, 2, 8432, 28),
        (2024, 2, 8797, 29),
        (2024, 4, 8857, 30),
        (2000, 1, 0, 31),
        (2099, 12, 36_494, 31),
    ] {
        let last = first + days - 1;
        let mut book = open(Month { year, month });
        let mut hear = |mut message: Fields| {
            message.received = first;
            tell(&mut book, message);
            earliest(&book)
        };
        assert_eq!(hear(state(first, CONNECTED)), None);
        assert_eq!(hear(link(FEE, last)), Some(last));
        assert_eq!(hear(link(SUBSCRIPTION, first)), Some(first));
        assert_eq!(hear(holder(first, 1)), None);
        assert_eq!(hear(holder(last, NOBODY)), Some(last));
        assert_eq!(hear(holder(first, NOBODY)), Some(first));
        assert_eq!(hear(holder(first + 1, 1)), Some(first));
        assert_eq!(hear(holder(first, 1)), Some(last));
        assert_eq!(hear(holder(last, 1)), None);
    }
}

#[test]
fn an_opening_names_the_question() {
    let tariff = [element(3, 1, 0)];
    let price = prices(&[1]);
    let open = |month: Month, counts: Counts| Book::open(month, counts, &tariff, &price).err();
    let one = counts(1, 1, 1);
    assert_eq!(open(MARCH, one), None);
    for (year, month) in [(1999, 12), (2100, 1), (2024, 0), (2024, 13), (u64::MAX, 2)] {
        assert_eq!(
            open(Month { year, month }, one),
            Some(Question::OutOfLimits)
        );
    }
    for wrong in [
        counts(0, 1, 1),
        counts(257, 1, 1),
        counts(1, 0, 1),
        counts(1, 17, 1),
        counts(1, 1, 0),
        counts(1, 1, 65),
        counts(u64::MAX, u64::MAX, u64::MAX),
    ] {
        assert_eq!(open(MARCH, wrong), Some(Question::OutOfLimits));
    }
    assert_eq!(open(MARCH, counts(1, 1, 2)), Some(Question::WrongLength));
    let short = Book::open(MARCH, one, &tariff, &price[..23]).err();
    assert_eq!(short, Some(Question::WrongLength));
    let wrong = Book::open(MARCH, one, &[element(4, 1, 0)], &price).err();
    assert_eq!(wrong, Some(Question::WrongElement));
}

#[test]
fn every_month_opens() {
    for year in 2000..2100 {
        for month in 1..=12 {
            let month = Month { year, month };
            let book = Book::open(month, counts(3, 1, 1), &[element(3, 1, 0)], &prices(&[1]));
            assert_eq!(book.unwrap().month(), month);
        }
    }
}

#[test]
fn both_forms_of_each_call_agree() {
    let elements = [
        element(1, 1, 1),
        element(2, 1, 0),
        element(3, 1, 1),
        element(3, 2, 4),
    ];
    let prices = prices(&[21_000_000, 150_000_000, -30_000, 761_000]);
    let mut book = Book::open(MARCH, counts(4, 3, 4), &elements, &prices).unwrap();
    let mut checked = book.clone();
    let mut random = Random(7);
    let mut accepted = 0;
    for _ in 0..20_000 {
        let message = random.message();
        let answer = book.message(&message).map(<[Record]>::to_vec);
        accepted += u64::from(answer.is_ok());
        let other = checked.message_checked(&message).map(<[Record]>::to_vec);
        assert_eq!(answer, other, "{message:?}");
        for record in answer.iter().flatten() {
            assert_balance_is_line(&book, record);
        }
        let (one, two) = (random.below(6), random.below(6));
        assert_eq!(book.line(one, two), checked.line_checked(one, two));
        let day = book.day_without_holder(one);
        assert_eq!(day, checked.day_without_holder_checked(one));
        let packed = book.packed_sum(one, two);
        assert_eq!(packed, checked.packed_sum_checked(one, two));
        assert_eq!(periods(&book, one, two), periods(&checked, one, two));
    }
    assert!(accepted > 5_000, "{accepted} accepted");
}

/// Quantity and billionths, of an amount in its one form.
fn numbers_of(line: Line) -> (i64, i128) {
    assert!(line.billionths < 1_000_000_000, "{line:?}");
    let amount = i128::from(line.kroner) * 1_000_000_000 + i128::from(line.billionths);
    (line.quantity, amount)
}

#[test]
fn balances_are_the_lines_and_the_sums_of_records() {
    let elements = [
        element(1, 1, 0),
        element(2, 1, 0),
        element(3, 1, 0),
        element(1, 1, 1),
    ];
    let prices = prices(&[21_000_000, 150_000_000, -30_000, -761_000]);
    let mut random = Random(17);
    let (mut zeros, mut negatives, mut without) = (0, 0, 0);
    for _ in 0..60 {
        let mut book = Book::open(MARCH, counts(4, 3, 4), &elements, &prices).unwrap();
        // By supplier and element, of those that have records.
        let mut sums = BTreeMap::new();
        for _ in 0..500 {
            let message = random.message();
            let Ok(records) = book.message(&message).map(<[Record]>::to_vec) else {
                continue;
            };
            if message.kind != 8 {
                assert_eq!(records, []);
                continue;
            }
            let mut passed = sums.clone();
            for record in &records {
                let place = (record.supplier, record.element);
                passed.remove(&place);
                let moved = numbers_of(Line {
                    quantity: record.quantity,
                    kroner: record.kroner,
                    billionths: record.billionths,
                });
                assert_ne!(moved, (0, 0), "{record:?}");
                let sum = sums.entry(place).or_insert((0, 0));
                *sum = (sum.0 + moved.0, sum.1 + moved.1);
                assert_eq!(numbers_of(balance(record)), *sum, "{record:?}");
                assert_balance_is_line(&book, record);
                zeros += u64::from(*sum == (0, 0));
                negatives += u64::from(sum.1 < 0);
            }
            // A line without a record stands at its last balance.
            for ((supplier, element), sum) in &passed {
                let line = book.line(*supplier, *element).unwrap();
                assert_eq!(numbers_of(line), *sum);
            }
            without += passed.len();
        }
    }
    assert!(zeros > 100, "{zeros} balances of zero");
    assert!(negatives > 100, "{negatives} balances below zero");
    assert!(without > 100, "{without} lines without a record in a round");
}

/// What one point has heard: holders and states by first day, and of each element its
/// periods, first day and the day behind the last.
#[derive(Clone, Default)]
struct Heard {
    holders: BTreeMap<u64, u64>,
    states: BTreeMap<u64, u64>,
    periods: [BTreeMap<u64, u64>; 4],
}

impl Heard {
    fn hear(&mut self, message: &Fields) {
        let day = message.day;
        let periods = &mut self.periods[message.element as usize];
        match message.kind {
            1 => {
                let next = periods.range(day + 1..).next();
                let next = next.map_or(36_525, |(first, _)| *first);
                let is_fee = message.element == FEE;
                periods.insert(day, if is_fee { day + 1 } else { next });
            }
            2 => {
                periods.retain(|first, _| *first < day);
                for past in periods.values_mut() {
                    *past = day.min(*past);
                }
            }
            3 => {
                let (_, covering) = periods.range_mut(..=day).next_back().unwrap();
                let past = std::mem::replace(covering, day);
                periods.insert(day, past);
            }
            4 => drop(self.holders.insert(day, message.value)),
            5 => drop(self.states.insert(day, message.value)),
            _ => {}
        }
    }

    fn lacks_holder(&self, day: u64, counting: &[u64]) -> bool {
        let on = |values: &BTreeMap<u64, u64>| {
            let latest = values.range(..=day).next_back();
            latest.map_or(0, |(_, value)| *value)
        };
        let covers = |(first, past): (&u64, &u64)| *first <= day && day < *past;
        on(&self.holders) == 0
            && counting.contains(&on(&self.states))
            && self.periods.iter().flatten().any(covers)
    }
}

/// The same message in another month of 31 days.
fn moved(message: Fields, first: u64) -> Fields {
    let moved = |day: u64| day.wrapping_add(first).wrapping_sub(FIRST);
    let has_day = message.kind < 7;
    Fields {
        received: moved(message.received),
        day: if has_day {
            moved(message.day)
        } else {
            message.day
        },
        ..message
    }
}

/// Random months of 31 days in which days count in these states: after each message the
/// query names the earliest day that the messages heard so far give.
fn assert_earliest_days(month: Month, first: u64, counting: &[u64]) {
    let elements = [
        element(1, 1, 0),
        element(2, 1, 0),
        element(3, 1, 0),
        element(1, 1, 1),
    ];
    let prices = prices(&[21_000_000, 150_000_000, -30_000, 761_000]);
    let days = first..first + 31;
    let mut random = Random(11);
    let mut named = BTreeMap::new();
    for _ in 0..200 {
        let mut book = Book::open(month, counts(4, 3, 4), &elements, &prices).unwrap();
        let mut heard = vec![Heard::default(); 4];
        for _ in 0..300 {
            let message = moved(random.message(), first);
            if book.message(&message).is_ok() {
                heard[message.point as usize].hear(&message);
            }
            for (point, heard) in heard.iter().enumerate() {
                let day = days.clone().find(|day| heard.lacks_holder(*day, counting));
                assert_eq!(book.day_without_holder(point as u64), Ok(day));
                *named.entry(day).or_insert(0) += 1;
            }
        }
    }
    // Each day of the month is named often enough to have been tried.
    let times = |day| named.get(&Some(day)).copied().unwrap_or(0);
    assert!(days.clone().all(|day| times(day) > 100), "{named:?}");
}

#[test]
fn the_earliest_day_is_that_of_the_messages_heard() {
    assert_earliest_days(MARCH, FIRST, &[CONNECTED, DISCONNECTED]);
}

#[test]
fn the_earliest_day_is_that_of_the_messages_heard_on_both_sides_of_2019() {
    let every_state = [NEW, CONNECTED, DISCONNECTED, CLOSED];
    let december = Month {
        year: 2018,
        month: 12,
    };
    let january = Month {
        year: 2019,
        month: 1,
    };
    assert_earliest_days(december, 6909, &every_state);
    assert_earliest_days(january, 6940, &[CONNECTED, DISCONNECTED]);
}

/// A book of subscriptions on connected points, with these links, the last first: the
/// one before ends where the next begins.
fn linked(points: u64, elements: u64, links: &[(u64, u64, u64)]) -> Book {
    let each = element(1, 1, 0);
    let prices = vec![0; elements as usize * 24];
    let data = vec![each; elements as usize];
    let mut book = Book::open(MARCH, counts(points, 1, elements), &data, &prices).unwrap();
    for point in 0..points {
        let message = Fields {
            point,
            ..state(FIRST, CONNECTED)
        };
        assert_eq!(book.message(&message), Ok(&[][..]), "{message:?}");
    }
    for (point, element, day) in links.iter().rev() {
        let message = Fields {
            point: *point,
            ..link(*element, *day)
        };
        assert_eq!(book.message(&message), Ok(&[][..]), "{message:?}");
    }
    book
}

/// How many periods the query reads for each pair of a book, and how many it gives.
fn reads(book: &Book) -> Vec<(u64, u64)> {
    let Counts {
        points, elements, ..
    } = book.counts();
    let pairs = (0..points).flat_map(|point| (0..elements).map(move |element| (point, element)));
    let counted = pairs.map(|(point, element)| {
        let (found, read) = periods(book, point, element);
        (read, found.unwrap().len() as u64)
    });
    counted.collect()
}

#[test]
fn the_search_ends_at_the_first_period_beyond() {
    // An empty table: nothing is read.
    assert_eq!(reads(&linked(2, 2, &[])), [(0, 0); 4]);
    // One period alone is beyond the pairs before it, and none is beyond it.
    let one = linked(2, 2, &[(1, 0, FIRST)]);
    assert_eq!(reads(&one), [(1, 0), (1, 0), (1, 1), (1, 0)]);
    let links = [
        (0, 1, FIRST),
        (0, 1, FIRST + 1),
        (1, 0, FIRST),
        (1, 2, FIRST),
        (1, 2, FIRST + 2),
        (1, 2, FIRST + 5),
        (2, 0, FIRST),
    ];
    let expected = [
        // No period, and the first of the table is beyond; the first pair that has some;
        // none between two pairs that have some.
        (1, 0),
        (3, 2),
        (3, 0),
        (4, 1),
        (4, 0),
        (7, 3),
        // The last pair that has some, and pairs behind it: none is beyond.
        (7, 1),
        (7, 0),
        (7, 0),
    ];
    let mut book = linked(3, 3, &links);
    assert_eq!(reads(&book), expected);
    // A stop takes two periods away, and what is behind them stands two places sooner.
    let stop = Fields {
        point: 1,
        ..told(2, 1, 2, FIRST + 1, 0, 0)
    };
    assert_eq!(book.message(&stop), Ok(&[][..]));
    let sooner = [(5, 1), (5, 1), (5, 0), (5, 0)];
    assert_eq!(reads(&book), [&expected[..5], &sooner].concat());
}

#[test]
fn a_full_table_is_read_up_to_the_next_pair() {
    // Two periods of the first element and two of the last on each point.
    let each = |point| {
        [(0, FIRST), (0, FIRST + 7), (63, FIRST), (63, FIRST + 7)].map(|(e, d)| (point, e, d))
    };
    let links = (0..256).flat_map(each).collect::<Vec<_>>();
    assert_eq!(links.len(), 1024);
    let mut book = linked(256, 64, &links);
    for point in 0..256 {
        let found = [0, 1, 62, 63].map(|element| {
            let (found, read) = periods(&book, point, element);
            (read, found.unwrap().len())
        });
        let before = 4 * point;
        // Behind the last pair none is beyond.
        let last = 1024.min(before + 5);
        let expected = [(before + 3, 2), (before + 3, 0), (before + 3, 0), (last, 2)];
        assert_eq!(found, expected, "point {point}");
    }
    // There is no place for a further period.
    let further = told(1, 1, 1, FIRST, 0, 1);
    assert_eq!(book.message(&further), Err(Question::TableFull));
}

#[test]
fn the_periods_read_are_those_of_the_messages_heard() {
    let elements = [
        element(1, 1, 0),
        element(2, 1, 0),
        element(3, 1, 0),
        element(1, 1, 1),
    ];
    let prices = prices(&[21_000_000, 150_000_000, -30_000, 761_000]);
    let mut random = Random(13);
    let mut times = BTreeMap::new();
    for _ in 0..100 {
        let mut book = Book::open(MARCH, counts(4, 3, 4), &elements, &prices).unwrap();
        let mut heard = vec![Heard::default(); 4];
        for _ in 0..200 {
            let message = random.message();
            if book.message(&message).is_ok() {
                heard[message.point as usize].hear(&message);
            }
            let all = heard.iter().flat_map(|heard| &heard.periods);
            let lengths = all.map(|periods| periods.len() as u64).collect::<Vec<_>>();
            for place in 0..16 {
                let (point, element) = (place / 4, place % 4);
                let (found, read) = periods(&book, point as u64, element as u64);
                let days = found.unwrap().into_iter().map(|p| (p.first, p.past));
                let expected = heard[point].periods[element].clone();
                assert!(days.eq(expected));
                let up_to = lengths[..=place].iter().sum::<u64>();
                let beyond = lengths[place + 1..].iter().any(|count| *count > 0);
                assert_eq!(read, up_to + u64::from(beyond));
                *times.entry((read, beyond)).or_insert(0) += 1;
            }
        }
    }
    // Searches that end at a period beyond and searches that find none, of many lengths.
    assert!(
        (1..=10).all(|read| times[&(read, true)] > 1000),
        "{times:?}"
    );
    assert!(
        (1..=10).all(|read| times[&(read, false)] > 100),
        "{times:?}"
    );
}
