//! Nothing panics whatever the fields, balances are lines and sums of records, the largest
//! amounts are right, and answers, records, lines, days without a holder and packed amounts
//! are those of the proved library.

mod generated;

use generated::{MONTHS, cheap_elements, first_states, number, random_message};
use settlement_book::Question;
use settlement_file::{Counts, Element, Month, first_day, output};
use std::collections::BTreeMap;
use twin::{Book, Record, message, open, read_packed, two_parts};

/// Mostly small numbers, days of a month that begins on `first` and edges, now and then any
/// number.
fn field(first: u64, state: &mut u64) -> u64 {
    let edges = [
        0,
        1,
        23,
        24,
        36_524,
        36_525,
        9_999_999,
        u64::MAX,
        u64::MAX / 2,
    ];
    match number(state) % 10 {
        0..=4 => number(state) % 4,
        5 => first + number(state) % 40,
        6 => number(state) % 2000,
        7 | 8 => edges[number(state) as usize % edges.len()],
        _ => number(state),
    }
}

fn everything(book: &Book) -> Vec<i128> {
    let lines = (1..=2).flat_map(|s| (0..3).filter_map(move |e| book.line(s, e).ok()));
    lines
        .flat_map(|line| [i128::from(line.quantity), line.amount])
        .collect()
}

fn elements() -> (Vec<Element>, Vec<i64>) {
    let element = |kind, marks| Element {
        kind,
        owner: 1 + u8::from(kind == 3),
        marks,
    };
    let mut prices = vec![0; 72];
    prices[0] = 9_999_999_999;
    prices[24] = -9_999_999_999;
    prices[48..].fill(9_999_999);
    (vec![element(1, 0), element(2, 0), element(3, 8)], prices)
}

/// Any fields, half of the time nearer to what is accepted, and every tenth time a round,
/// which other numbers hardly ever are.
fn any_message(first: u64, turn: u64, state: &mut u64) -> [u64; 9] {
    if turn % 10 == 9 {
        return [8, 2, 0, first + 14, 0, 0, 0, 0, 0];
    }
    let mut fields = [0; 9].map(|_: u64| field(first, state));
    if number(state).is_multiple_of(2) {
        fields[0] = 1 + number(state) % 8;
        fields[1] = 1 + number(state) % 2;
        fields[2] = 0;
        fields[3] = first + 14;
        fields[6] = (first + number(state) % 40).saturating_sub(6);
        fields[7] = 0;
        if fields[0] >= 4 {
            fields[5] = 0;
        }
    }
    fields
}

#[test]
fn any_fields() {
    let (elements, prices) = elements();
    let counts = Counts {
        points: 3,
        suppliers: 2,
        elements: 3,
    };
    let mut state = 1;
    let (mut accepted, mut zeros, mut negatives) = (0, 0, 0);
    for month in MONTHS.into_iter().cycle().take(32) {
        let first = first_day(month.year, month.month);
        let mut book = open(month, counts, &elements, &prices).expect("a right opening");
        let mut records: Vec<Record> = Vec::new();
        let mut sums: BTreeMap<(u8, u8), (i64, i128)> = BTreeMap::new();
        for turn in 0..50_000 {
            let fields = any_message(first, turn, &mut state);
            let before = everything(&book);
            let answer = message(&mut book, &fields, &mut records);
            assert!(answer == 0 || (6..=17).contains(&answer));
            if answer != 0 {
                assert_eq!(everything(&book), before);
            }
            accepted += u64::from(answer == 0);
            for record in records.drain(..) {
                let Record {
                    supplier,
                    element,
                    balance_quantity,
                    balance_amount,
                    ..
                } = record;
                let sum = sums.entry((supplier, element)).or_default();
                sum.0 += record.quantity;
                sum.1 += record.amount;
                let line = book.line(supplier.into(), element.into());
                let line = line.map(|line| (line.quantity, line.amount));
                assert_eq!(line, Ok((balance_quantity, balance_amount)));
                assert_eq!(line, Ok(*sum));
                zeros += u64::from(*sum == (0, 0));
                negatives += u64::from(sum.1 < 0);
            }
            let _ = book.line(fields[2], fields[5]);
            let _ = book.periods(fields[4], fields[5]);
            let _ = book.day_without_holder(fields[4]);
            let _ = book.packed_sum(fields[2], fields[1]);
        }
    }
    assert!(accepted > 10_000, "only {accepted} accepted");
    assert!(zeros > 50, "only {zeros} balances of zero");
    assert!(negatives > 100, "only {negatives} balances below zero");
}

#[test]
fn any_opening() {
    let mut state = 2;
    for _ in 0..100_000 {
        let mut field = || field(0, &mut state);
        let month = Month {
            year: 2000 + field() % 101,
            month: field(),
        };
        let counts = Counts {
            points: field(),
            suppliers: field(),
            elements: 1 + field() % 2,
        };
        let count = counts.elements as usize;
        let elements: Vec<Element> = (0..count)
            .map(|_| Element {
                kind: field() as u8,
                owner: field() as u8,
                marks: field() as u8,
            })
            .collect();
        let prices: Vec<i64> = (0..24 * count).map(|_| field() as i64).collect();
        let _ = open(month, counts, &elements, &prices);
    }
}

#[test]
fn any_bytes() {
    let mut state = 3;
    for _ in 0..100_000 {
        let length = number(&mut state) % 80;
        let limit = [4, 20, 256][number(&mut state) as usize % 3];
        let bytes: Vec<u8> = (0..length)
            .map(|_| (number(&mut state) % limit) as u8)
            .collect();
        assert!(!output::<Book>(&bytes, 16).is_empty());
    }
}

#[test]
fn largest_month() {
    let (elements, prices) = elements();
    let counts = Counts {
        points: 256,
        suppliers: 2,
        elements: 3,
    };
    let month = Month {
        year: 2024,
        month: 3,
    };
    let mut book = open(month, counts, &elements, &prices).expect("a right opening");
    let mut records = Vec::new();
    let mut take = |fields: [u64; 9]| assert_eq!(message(&mut book, &fields, &mut records), 0);
    for point in 0..256 {
        take([5, 1, 0, 8826, point, 0, 8826, 0, 2]);
        take([4, 2, 0, 8826, point, 0, 8826, 0, 1]);
        take([1, 2, 0, 8826, point, 2, 8826, 0, 1]);
        take([1, 1, 0, 8826, point, 0, 8826, 0, 999]);
        for day in 8826..8857 {
            for hour in 0..24 {
                take([6, 1, 0, 8826, point, 0, day, hour, 9_999_999]);
            }
        }
        // To the other supplier and back.
        take([4, 2, 0, 8826, point, 0, 8826, 0, 2]);
        take([4, 2, 0, 8826, point, 0, 8830, 0, 1]);
        take([4, 2, 0, 8826, point, 0, 8826, 0, 1]);
    }
    for day in 8826..8828 {
        for point in 0..256 {
            take([1, 1, 0, 8826, point, 1, day, 0, 999]);
        }
    }
    take([8, 2, 0, 8826, 0, 0, 0, 0, 0]);
    let hours = 256 * 744;
    let record = |element, quantity, amount| Record {
        kind: 1,
        supplier: 1,
        element,
        quantity,
        amount,
        // Nothing was sent before.
        balance_quantity: quantity,
        balance_amount: amount,
    };
    let day_price = 322_580_645;
    assert_eq!(
        records,
        [
            record(0, 256 * 31 * 999, 256 * 31 * 999 * day_price * 1000),
            record(1, 512 * 999, 512 * 999 * -9_999_999_999_000),
            record(
                2,
                hours * 9_999_999,
                i128::from(hours) * 9_999_999 * 9_999_999
            ),
        ]
    );
    // The second sum has more than 64 bits.
    let packed = |owner| book.packed_sum(1, owner).map(u64::from_be_bytes);
    assert_eq!(packed(1), Ok(0x0002_5574_4000_077d));
    assert_eq!(packed(2), Ok(0x0019_0463_9619_072c));
}

#[test]
fn a_record_in_numbers() {
    // Minus a quarter of a krone, of a line that stands at minus one and three quarters.
    let record = Record {
        kind: 3,
        supplier: 16,
        element: 63,
        quantity: 250,
        amount: -250_000_000,
        balance_quantity: 1750,
        balance_amount: -1_750_000_000,
    };
    let expected = [3, 16, 63, 250, -1, 750_000_000, 1750, -2, 250_000_000];
    assert_eq!(record.numbers(), expected);
}

/// How many sums there were of some sorts, and how many days without a holder.
#[derive(Debug, Default)]
struct Seen {
    above: u64,
    below: u64,
    halves: u64,
    /// Below zero, and zero when rounded.
    to_zero: u64,
    days: u64,
}

/// Packed sums are those of the library and of the lines.
fn compare_sums(
    book: &Book,
    proved: &settlement_book::Book,
    elements: &[Element],
    seen: &mut Seen,
) {
    let suppliers = 0..=proved.counts().suppliers + 1;
    for supplier in suppliers.chain([1 << 32 | 1, u64::MAX]) {
        for owner in [0, 1, 2, 3, 257, u64::MAX] {
            let found = book.packed_sum(supplier, owner);
            let expected = proved.packed_sum(supplier, owner);
            assert_eq!(found, expected.map_err(Question::number));
            let Ok(packed) = found else {
                continue;
            };
            let owned = (0..)
                .zip(elements)
                .filter(|(_, e)| u64::from(e.owner) == owner);
            let lines = owned.map(|(element, _)| book.line(supplier, element));
            let sum: i128 = lines.map(|line| line.map_or(0, |line| line.amount)).sum();
            let ore = (sum.abs() + 5_000_000) / 10_000_000 * sum.signum();
            assert_eq!(read_packed(&packed).map(i128::from), Ok(ore));
            seen.above += u64::from(ore > 0);
            seen.below += u64::from(ore < 0);
            seen.halves += u64::from(sum.rem_euclid(10_000_000) == 5_000_000);
            seen.to_zero += u64::from(sum < 0 && ore == 0);
        }
    }
}

/// Lines and days without a holder are those of the library.
fn compare_lines_and_days(book: &Book, proved: &settlement_book::Book, seen: &mut Seen) {
    let counts = proved.counts();
    for supplier in 1..=counts.suppliers {
        for element in 0..counts.elements {
            let found = book.line(supplier, element);
            let found = found.map(|line| (line.quantity, two_parts(line.amount)));
            let expected = proved.line(supplier, element);
            let expected = expected.map(|line| (line.quantity, (line.kroner, line.billionths)));
            assert_eq!(found, expected.map_err(Question::number));
        }
    }
    for point in 0..=counts.points {
        let found = book.day_without_holder(point);
        let expected = proved.day_without_holder(point).map_err(Question::number);
        assert_eq!(found.map(|day| day.map(u64::from)), expected);
        seen.days += u64::from(found.is_ok_and(|day| day.is_some()));
    }
}

/// Takes messages of every kind, which must leave the same book as in the library. Answers
/// how many were accepted.
fn compare_books(month: Month, elements: u64, state: &mut u64, seen: &mut Seen) -> u64 {
    let counts = Counts {
        points: 1 + number(state) % 4,
        suppliers: 1 + number(state) % 16,
        elements,
    };
    let (elements, prices) = cheap_elements(counts.elements, state);
    let mut book = open(month, counts, &elements, &prices).expect("a right opening");
    let mut proved =
        settlement_book::Book::open(month, counts, &elements, &prices).expect("a right opening");
    compare_sums(&book, &proved, &elements, seen);
    let mut accepted = 0;
    let others = (0..400).map(|_| random_message(month, counts, &elements, state));
    for fields in first_states(month, counts).chain(others) {
        let mut records = Vec::new();
        let answer = message(&mut book, &fields, &mut records);
        match proved.message(&fields.into()) {
            Ok(expected) => {
                assert_eq!(answer, 0);
                let records = records.iter().map(Record::numbers);
                assert!(records.eq(expected.iter().map(settlement_book::Record::numbers)));
                accepted += 1;
                compare_sums(&book, &proved, &elements, seen);
                compare_lines_and_days(&book, &proved, seen);
            }
            Err(question) => assert_eq!(answer, question.number(), "{month:?} {fields:?}"),
        }
    }
    accepted
}

#[test]
fn books_are_those_of_the_library() {
    let mut state = 4;
    let (mut seen, mut accepted) = (Seen::default(), 0);
    for (turn, month) in MONTHS.into_iter().cycle().take(72).enumerate() {
        // The most elements now and then, in each of the months.
        let elements = if turn % 9 == 0 {
            64
        } else {
            1 + number(&mut state) % 12
        };
        accepted += compare_books(month, elements, &mut state, &mut seen);
    }
    assert!(accepted > 10_000, "only {accepted} accepted");
    assert!(seen.above > 10_000 && seen.below > 10_000, "{seen:?}");
    assert!(seen.halves > 10_000 && seen.to_zero > 1_000, "{seen:?}");
    assert!(seen.days > 1_000, "{seen:?}");
}

#[test]
fn packed_amounts_are_read_as_the_library_reads_them() {
    let mut state = 5;
    let (mut above, mut below, mut minus_zeros, mut refused) = (0, 0, 0, 0);
    for turn in 0..300_000 {
        let mut half_bytes = number(&mut state);
        if turn % 4 != 0 {
            // An amount, half of the time with another half-byte.
            let limit = 10_u64.pow((number(&mut state) % 16) as u32);
            let sign = ["c", "d"][number(&mut state) as usize % 2];
            let digits = format!("{:015}{sign}", number(&mut state) % limit);
            half_bytes = u64::from_str_radix(&digits, 16).expect("sixteen half-bytes");
            if number(&mut state).is_multiple_of(2) {
                half_bytes ^= (number(&mut state) % 16) << (4 * (number(&mut state) % 16));
            }
        }
        let mut bytes = half_bytes.to_be_bytes().to_vec();
        if turn % 16 == 1 {
            // Some of them only, or zeros before or behind.
            let longer = (u128::from(half_bytes) << 32).to_be_bytes();
            let [first, length] = [7, 10].map(|limit| number(&mut state) as usize % limit);
            bytes = longer[first..first + length].to_vec();
        }
        let found = read_packed(&bytes);
        let expected = settlement_book::read_packed(&bytes).map_err(Question::number);
        assert_eq!(found, expected, "{bytes:02x?}");
        above += u64::from(found.is_ok_and(|ore| ore > 0));
        below += u64::from(found.is_ok_and(|ore| ore < 0));
        minus_zeros += u64::from(bytes == 0xd_u64.to_be_bytes());
        refused += u64::from(found.is_err());
    }
    let many = [above, below, refused, 20 * minus_zeros];
    assert!(many.into_iter().all(|count| count > 50_000), "{many:?}");
}
