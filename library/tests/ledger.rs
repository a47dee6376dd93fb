//! Packed sums of opened books through the library: the two forms of the call against
//! each other, against the lines and against fresh settlement; and packed amounts that
//! are read. Books that were not opened are tested in `src/book.rs`.

mod support;

use std::collections::BTreeMap;

use settlement_book::{Book, Fields, Question, read_packed};
use support::{
    CONNECTED, FIRST, MARCH, Random, counts, element, holder, link, listing, prices, state, tell,
    told,
};

const GRID_COMPANY: u64 = 1;
const ENERGINET: u64 = 2;
/// The billionths of an øre.
const ORE: i128 = 10_000_000;

/// The half-bytes of a packed sum, its digits and its sign; both forms of the call give
/// them.
fn packed(book: &Book, supplier: u64, owner: u64) -> Result<u64, Question> {
    let packed = book.packed_sum(supplier, owner);
    assert_eq!(book.packed_sum_checked(supplier, owner), packed);
    packed.map(u64::from_be_bytes)
}

/// To the øre, halves away from zero.
fn rounded(billionths: i128) -> i128 {
    let size = billionths.abs();
    let up = i128::from(size % ORE >= ORE / 2);
    (size / ORE + up) * billionths.signum()
}

/// The half-bytes of an amount in øre.
fn half_bytes(ore: i128) -> u64 {
    let sign = if ore < 0 { 'd' } else { 'c' };
    let digits = format!("{:015}{sign}", ore.abs());
    assert_eq!(digits.len(), 16);
    u64::from_str_radix(&digits, 16).unwrap()
}

/// 30 × 0.645161 and 0.5 are 19.85483 kroner; 32 × 0.645161 and 1.5 are 22.145152, and
/// with 1.25 they are 21.895152.
#[test]
fn the_listing_is_packed() {
    let mut book = listing();
    assert_eq!(book.packed_sum(1, 1), Ok([0, 0, 0, 0, 0, 0x01, 0x98, 0x5c]));
    assert_eq!(packed(&book, 1, GRID_COMPANY), Ok(0x1985c));
    assert_eq!(packed(&book, 2, GRID_COMPANY), Ok(0x2215c));
    // The elements are the grid company's.
    assert_eq!(packed(&book, 1, ENERGINET), Ok(0xc));
    assert_eq!(packed(&book, 2, ENERGINET), Ok(0xc));
    // A round moves no line; a reading does, sent or not.
    assert!(book.message(&told(8, 2, 0, 0, 0, 0)).is_ok());
    assert_eq!(packed(&book, 2, GRID_COMPANY), Ok(0x2215c));
    tell(&mut book, told(6, 1, 0, 8841, 0, 2500));
    assert_eq!(packed(&book, 1, GRID_COMPANY), Ok(0x1985c));
    assert_eq!(packed(&book, 2, GRID_COMPANY), Ok(0x2190c));
}

#[test]
fn another_supplier_or_owner_is_question_6() {
    let book = listing();
    let suppliers = [0, 3, u64::MAX].map(|supplier| (supplier, GRID_COMPANY));
    let owners = [0, 3, u64::MAX].map(|owner| (1, owner));
    for (supplier, owner) in [suppliers, owners].concat() {
        let found = packed(&book, supplier, owner);
        assert_eq!(found, Err(Question::OutOfRange), "{supplier} {owner}");
    }
}

/// One Wh on a point of supplier 1 with tariffs at these prices: a line each, of as many
/// billionths.
fn metered(each: &[i64]) -> Book {
    let tariffs = vec![element(3, 1, 0); each.len()];
    let counts = counts(1, 1, each.len() as u64);
    let mut book = Book::open(MARCH, counts, &tariffs, &prices(each)).unwrap();
    let links = (0..counts.elements).map(|e| link(e, FIRST));
    let messages = [
        state(FIRST, CONNECTED),
        holder(FIRST, 1),
        told(6, 1, 0, FIRST, 0, 1),
    ];
    for message in messages.into_iter().chain(links) {
        tell(&mut book, message);
    }
    book
}

#[test]
fn sums_are_rounded_once_with_halves_away_from_zero() {
    for (each, expected) in [
        (&[4_999_999][..], 0xc),
        (&[5_000_000], 0x1c),
        (&[-4_000_000], 0xc),
        (&[-4_999_999], 0xc),
        (&[-5_000_000], 0x1d),
        (&[4_000_000, 4_000_000], 0x1c),
        (&[-4_000_000, -4_000_000], 0x1d),
        (&[5_000_000, 5_000_000], 0x1c),
        (&[5_000_000, -5_000_000], 0xc),
        (&[9_999_999, 4_999_999, 1], 0x1c),
        (&[9_999_999, 4_999_999, 2], 0x2c),
        (&[-9_999_999, -4_999_999, -2], 0x2d),
    ] {
        let found = packed(&metered(each), 1, GRID_COMPANY);
        assert_eq!(found, Ok(expected), "{each:?}");
    }
}

/// Two suppliers with a point each, and a third point that nobody holds. The fees are of
/// 1, 20, 300 and 4,000 kroner, once, twice and four times over.
#[test]
fn only_lines_of_the_supplier_and_the_owner_are_added() {
    let owners = [GRID_COMPANY, ENERGINET, ENERGINET, GRID_COMPANY];
    let fees = owners.map(|owner| element(2, owner as u8, 0));
    let prices = prices(&[1_000_000, 20_000_000, 300_000_000, 4_000_000_000]);
    let mut book = Book::open(MARCH, counts(3, 2, 4), &fees, &prices).unwrap();
    for (point, supplier, value) in [(0, 1, 1), (1, 2, 2), (2, 0, 4)] {
        let links = owners.iter().zip(0..).map(|(role, element)| Fields {
            role: *role,
            value,
            ..link(element, FIRST)
        });
        let messages = [state(FIRST, CONNECTED), holder(FIRST, supplier)];
        for message in messages.into_iter().chain(links) {
            tell(&mut book, Fields { point, ..message });
        }
    }
    assert_eq!(packed(&book, 1, GRID_COMPANY), Ok(0x0400_100c));
    assert_eq!(packed(&book, 1, ENERGINET), Ok(0x0032_000c));
    assert_eq!(packed(&book, 2, GRID_COMPANY), Ok(0x0800_200c));
    assert_eq!(packed(&book, 2, ENERGINET), Ok(0x0064_000c));
}

/// As many periods as a book has places for, each of what costs most: a tariff at the
/// largest price over the largest readings of every hour. These are
/// 1,024 × 744 × 9,999,999 × 9,999,999 billionths, 76,185,584,762.880761856 kroner.
#[test]
fn the_sums_of_the_largest_month_fit() {
    let tariffs = [element(3, 2, 0); 4];
    for (price, expected) in [
        (9_999_999, 0x0076_1855_8476_288c),
        (-9_999_999, 0x0076_1855_8476_288d),
    ] {
        let prices = prices(&[price; 4]);
        let mut book = Book::open(MARCH, counts(256, 1, 4), &tariffs, &prices).unwrap();
        for point in 0..256 {
            let readings =
                (0..744).map(|hour| told(6, 1, 0, FIRST + hour / 24, hour % 24, 9_999_999));
            let links = (0..4).map(|e| Fields {
                role: ENERGINET,
                ..link(e, FIRST)
            });
            let messages = [state(FIRST, CONNECTED), holder(FIRST, 1)];
            for message in readings.chain(messages).chain(links) {
                tell(&mut book, Fields { point, ..message });
            }
        }
        assert_eq!(packed(&book, 1, ENERGINET), Ok(expected));
        assert_eq!(packed(&book, 1, GRID_COMPANY), Ok(0xc));
    }
}

/// After each message of random months every packed sum is that of the line query's
/// answers.
#[test]
fn packed_sums_are_those_of_the_lines() {
    let owners = [GRID_COMPANY, ENERGINET, GRID_COMPANY, ENERGINET];
    let elements = [
        element(1, 1, 0),
        element(1, 2, 0),
        element(3, 1, 0),
        element(3, 2, 4),
    ];
    let prices = prices(&[21_234_567, -150_000_001, -30_303, 761_543]);
    let mut random = Random(19);
    let (mut below, mut above, mut once) = (0, 0, 0);
    for _ in 0..40 {
        let mut book = Book::open(MARCH, counts(4, 3, 4), &elements, &prices).unwrap();
        for _ in 0..300 {
            let mut message = random.message();
            // An element's owner links it.
            if let (1..=3, Some(owner)) = (message.kind, owners.get(message.element as usize)) {
                message.role = *owner;
            }
            if book.message(&message).is_err() {
                continue;
            }
            for (supplier, owner) in (1..=3).flat_map(|s| [(s, GRID_COMPANY), (s, ENERGINET)]) {
                let (mut sum, mut rounded_each) = (0, 0);
                for element in (0..4).filter(|e| owners[*e] == owner) {
                    let line = book.line(supplier, element as u64).unwrap();
                    let kroner = i128::from(line.kroner);
                    let amount = kroner * 100 * ORE + i128::from(line.billionths);
                    sum += amount;
                    rounded_each += rounded(amount);
                }
                let ore = rounded(sum);
                assert_eq!(packed(&book, supplier, owner), Ok(half_bytes(ore)));
                assert_eq!(
                    read_packed(&book.packed_sum(supplier, owner).unwrap()),
                    Ok(ore as i64)
                );
                below += u64::from(ore < 0);
                above += u64::from(ore > 0);
                once += u64::from(ore != rounded_each);
            }
        }
    }
    assert!(below > 1000, "{below} sums below zero");
    assert!(above > 1000, "{above} sums above zero");
    assert!(once > 100, "{once} sums that rounding each line would miss");
}

/// Generated files, with a round behind: the balances that fresh settlement then has sent
/// are its lines.
#[test]
fn packed_sums_are_those_of_fresh_settlement() {
    let round = trial::text_to_bytes("round from energinet received 0").unwrap();
    let (mut files, mut of_owner) = (0, [0; 2]);
    for seed in 0..1_000 {
        let file = [trial::generator::generate(seed), round.clone()].concat();
        let Ok(book) = settlement_file::settled::<Book>(&file, 16) else {
            continue;
        };
        files += 1;
        let mut lines = BTreeMap::new();
        for event in fresh::run(&file) {
            if let fresh::Event::Record(record) = event {
                let place = (u64::from(record.supplier), usize::from(record.element));
                lines.insert(place, record.balance_amount);
            }
        }
        let owners = owners_in(&file);
        for supplier in 1..=book.counts().suppliers {
            for owner in [GRID_COMPANY, ENERGINET] {
                let sum = lines
                    .iter()
                    .filter(|((s, e), _)| *s == supplier && owners[*e] == owner)
                    .map(|(_, amount)| amount)
                    .sum();
                let expected = half_bytes(rounded(sum));
                assert_eq!(packed(&book, supplier, owner), Ok(expected), "seed {seed}");
                of_owner[owner as usize - 1] += u64::from(expected != half_bytes(0));
            }
        }
    }
    assert!(files > 800, "{files} files");
    assert!(
        of_owner.iter().all(|sums| *sums > 300),
        "{of_owner:?} sums other than zero"
    );
}

/// The owner of each element of a file that is right.
fn owners_in(file: &[u8]) -> Vec<u64> {
    let mut rest = file;
    let mut opening = settlement_file::Opening::read_month(&mut rest).unwrap();
    assert!(opening.read_elements(rest).is_ok());
    opening
        .elements
        .iter()
        .map(|e| u64::from(e.owner))
        .collect()
}

#[test]
fn packed_amounts_are_read() {
    let amount = [0x98, 0x76, 0x54, 0x32, 0x10, 0x12, 0x34, 0x5c];
    assert_eq!(read_packed(&amount), Ok(987_654_321_012_345));
    let below = [0, 0, 0, 0, 0, 0, 0, 0x7d];
    assert_eq!(read_packed(&below), Ok(-7));
    for (what, bytes) in [
        ("no bytes", &[][..]),
        ("seven", &amount[..7]),
        ("the last seven", &amount[1..]),
        ("nine", &[0, 0, 0, 0, 0, 0, 0, 0x7c, 0x7c]),
        ("a zero before", &[0, 0, 0, 0, 0, 0, 0, 0, 0x7c]),
        ("a digit above 9", &[0, 0, 0, 0, 0, 0, 0, 0xac]),
        ("another sign", &[0, 0, 0, 0, 0, 0, 0, 0x7f]),
        ("minus zero", &[0, 0, 0, 0, 0, 0, 0, 0x0d]),
    ] {
        assert_eq!(read_packed(bytes), Err(Question::NotPacked), "{what}");
    }
}
