//! What the tests of the library share: March 2024, messages, and random ones.

// Not every test file uses all of it.
#![allow(dead_code)]

use settlement_book::{Book, Counts, Element, Fields, Month};

pub const MARCH: Month = Month {
    year: 2024,
    month: 3,
};
pub const FIRST: u64 = 8826;
pub const CONNECTED: u64 = 2;

pub fn counts(points: u64, suppliers: u64, elements: u64) -> Counts {
    Counts {
        points,
        suppliers,
        elements,
    }
}

pub fn element(kind: u8, owner: u8, marks: u8) -> Element {
    Element { kind, owner, marks }
}

pub fn prices(each: &[i64]) -> Vec<i64> {
    let mut prices = vec![0; each.len() * 24];
    for (place, price) in each.iter().enumerate() {
        prices[place * 24] = *price;
    }
    prices
}

/// A message that is received on the first day of the month.
pub fn told(kind: u64, role: u64, element: u64, day: u64, hour: u64, value: u64) -> Fields {
    Fields {
        kind,
        role,
        received: FIRST,
        element,
        day,
        hour,
        value,
        ..Fields::default()
    }
}

/// The listing's book before its first round.
pub fn listing() -> Book {
    let elements = [element(1, 1, 0), element(3, 1, 0)];
    let prices = prices(&[20_000_000, 500_000]);
    let mut book = Book::open(MARCH, counts(1, 2, 2), &elements, &prices).unwrap();
    for message in [
        told(5, 1, 0, FIRST, 0, 2),
        told(4, 2, 0, FIRST, 0, 1),
        told(4, 2, 0, 8841, 0, 2),
        told(1, 1, 0, FIRST, 0, 2),
        told(1, 1, 1, FIRST, 0, 1),
        told(6, 1, 0, 8840, 23, 1000),
        told(6, 1, 0, 8841, 0, 3000),
    ] {
        assert_eq!(book.message(&message), Ok(&[][..]));
    }
    book
}

pub fn link(element: u64, day: u64) -> Fields {
    told(1, 1, element, day, 0, 1)
}

pub fn holder(day: u64, supplier: u64) -> Fields {
    told(4, 2, 0, day, 0, supplier)
}

pub fn state(day: u64, state: u64) -> Fields {
    told(5, 1, 0, day, 0, state)
}

pub fn tell(book: &mut Book, message: Fields) {
    assert_eq!(book.message(&message), Ok(&[][..]), "{message:?}");
}

/// The splitmix64 sequence.
pub struct Random(pub u64);

impl Random {
    pub fn below(&mut self, limit: u64) -> u64 {
        self.0 = self.0.wrapping_add(0x9e37_79b9_7f4a_7c15);
        let mut z = self.0;
        z = (z ^ (z >> 30)).wrapping_mul(0xbf58_476d_1ce4_e5b9);
        z = (z ^ (z >> 27)).wrapping_mul(0x94d0_49bb_1331_11eb);
        (z ^ (z >> 31)) % limit
    }

    /// Mostly a message that means something, now and then any numbers.
    pub fn message(&mut self) -> Fields {
        let kind = 1 + self.below(8);
        let uses = |kinds: &[u64], number: u64| {
            if kinds.contains(&kind) { number } else { 0 }
        };
        let mut numbers = [
            kind,
            if [4, 8].contains(&kind) { 2 } else { 1 },
            0,
            FIRST,
            uses(&[1, 2, 3, 4, 5, 6, 7], self.below(4)),
            uses(&[1, 2, 3], self.below(4)),
            uses(&[1, 2, 3, 4, 5, 6], FIRST - 10 + self.below(50)),
            uses(&[6], self.below(24)),
            uses(&[1, 3], 1 + self.below(2))
                + uses(&[4], self.below(4))
                + uses(&[5], 1 + self.below(4))
                + uses(&[6], self.below(5000))
                + uses(&[7], self.below(2)),
        ];
        if self.below(10) == 0 {
            let place = self.below(9) as usize;
            let bits = self.below(64);
            numbers[place] = self.below(1 << bits);
        }
        Fields::from(numbers)
    }
}
