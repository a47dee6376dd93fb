//! The inputs: a small, a typical and a full book, from a seed. Every message is
//! one that document 01 accepts; messages of one kind stand together in batches,
//! so that a kind can be timed.

use crate::random::Random;
use settlement_file::{Counts, Element, Month, Opening};

/// Row of the table for rounds without differences; those of messages are the kinds.
pub const EMPTY_ROUNDS: usize = 9;

/// Short enough that some of its runs are not interrupted on a busy machine.
pub const MOST_IN_BATCH: usize = 1000;

const LINK: u64 = 1;
const STOP: u64 = 2;
const QUANTITY: u64 = 3;
const HOLDER: u64 = 4;
const STATE: u64 = 5;
const READING: u64 = 6;
const BLOCK: u64 = 7;
const ROUND: u64 = 8;

const SUBSCRIPTION: u8 = 1;
const FEE: u8 = 2;
const TARIFF: u8 = 3;

/// The mark of an element with hourly prices.
const HOURLY: u8 = 8;

const GRID_COMPANY: u64 = 1;
const ENERGINET: u64 = 2;
const SUPPLIER: u64 = 3;

const MARCH: Month = Month {
    year: 2024,
    month: 3,
};
pub const FIRST: u64 = 8826;
pub const DAYS: u64 = 31;
const LAST: u64 = FIRST + DAYS - 1;

/// Messages of one kind that stand together.
pub struct Batch {
    /// Row of the table: the kind, or `EMPTY_ROUNDS`.
    pub row: usize,
    pub messages: Vec<[u64; 9]>,
}

pub struct Input {
    pub name: String,
    pub opening: Opening,
    pub batches: Vec<Batch>,
}

impl Input {
    pub fn message_count(&self) -> u64 {
        self.batches.iter().map(|b| b.messages.len() as u64).sum()
    }

    /// The month as a file of document 01.
    pub fn file(&self) -> Vec<u8> {
        let Opening { month, counts, .. } = self.opening;
        let mut bytes = vec![1, 0, 6];
        bytes.extend((month.year as u16).to_be_bytes());
        bytes.push(month.month as u8);
        bytes.extend((counts.points as u16).to_be_bytes());
        bytes.push(counts.suppliers as u8);
        let prices = self.opening.prices.chunks_exact(24);
        for (element, prices) in self.opening.elements.iter().zip(prices) {
            let price_count = if element.marks & HOURLY != 0 { 24 } else { 1 };
            bytes.extend([2, 0, 3 + 8 * price_count as u8]);
            bytes.extend([element.kind, element.owner, element.marks]);
            for price in &prices[..price_count] {
                bytes.extend(price.to_be_bytes());
            }
        }
        for batch in &self.batches {
            for m in &batch.messages {
                bytes.extend([3, 0, 19]);
                bytes.extend([m[0] as u8, m[1] as u8, m[2] as u8]);
                bytes.extend((m[3] as u32).to_be_bytes());
                bytes.extend((m[4] as u16).to_be_bytes());
                bytes.push(m[5] as u8);
                bytes.extend((m[6] as u32).to_be_bytes());
                bytes.push(m[7] as u8);
                bytes.extend((m[8] as u32).to_be_bytes());
            }
        }
        bytes
    }
}

/// Collects messages that are accepted: a book tells which.
struct Writer {
    book: twin::Book,
    opening: Opening,
    batches: Vec<Batch>,
    random: Random,
}

impl Writer {
    fn new(points: u64, suppliers: u64, element_count: u64, seed: u64) -> Writer {
        let counts = Counts {
            points,
            suppliers,
            elements: element_count,
        };
        let (elements, prices): (Vec<Element>, Vec<[i64; 24]>) =
            (0..element_count).map(element).unzip();
        let prices = prices.concat();
        let book = match twin::open(MARCH, counts, &elements, &prices) {
            Ok(book) => book,
            Err(question) => panic!("the opening is refused by question {question}"),
        };
        Writer {
            book,
            opening: Opening {
                month: MARCH,
                counts,
                elements,
                prices,
            },
            batches: Vec::new(),
            random: Random::new(seed),
        }
    }

    /// Sends a message; it counts only where it is accepted.
    fn send(&mut self, fields: [u64; 9]) -> bool {
        let mut records = Vec::new();
        if twin::message(&mut self.book, &fields, &mut records) != 0 {
            return false;
        }
        let row = fields[0] as usize;
        match self.batches.last_mut() {
            Some(batch) if batch.row == row && batch.messages.len() < MOST_IN_BATCH => {
                batch.messages.push(fields)
            }
            _ => self.batches.push(Batch {
                row,
                messages: vec![fields],
            }),
        }
        true
    }

    fn must_send(&mut self, fields: [u64; 9]) {
        assert!(self.send(fields), "refused: {fields:?}");
    }

    /// A link, stop or quantity message of the element's owner, received on the
    /// day or on the first of the month, whichever is later.
    fn about_link(&mut self, kind: u64, point: u64, element: u64, day: u64, value: u64) -> bool {
        let owner = u64::from(self.opening.elements[element as usize].owner);
        let received = day.max(FIRST);
        self.send([kind, owner, 0, received, point, element, day, 0, value])
    }

    fn holder(&mut self, point: u64, day: u64, supplier: u64) -> bool {
        self.send([HOLDER, ENERGINET, 0, FIRST, point, 0, day, 0, supplier])
    }

    fn state(&mut self, point: u64, day: u64, state: u64) -> bool {
        self.send([STATE, GRID_COMPANY, 0, FIRST, point, 0, day, 0, state])
    }

    fn reading(&mut self, point: u64, day: u64, hour: u64) {
        let wh = self.random.between(100, 4000);
        self.must_send([READING, GRID_COMPANY, 0, day + 1, point, 0, day, hour, wh]);
    }

    fn block(&mut self, point: u64) {
        let mark = self.random.below(2);
        self.must_send([BLOCK, GRID_COMPANY, 0, FIRST, point, 0, 0, 0, mark]);
    }

    fn round(&mut self) {
        self.must_send(A_ROUND);
    }

    /// Every hour of the month, as days go by.
    fn all_readings(&mut self) {
        for day in FIRST..=LAST {
            for point in 0..self.opening.counts.points {
                for hour in 0..24 {
                    self.reading(point, day, hour);
                }
            }
        }
    }

    fn some_readings(&mut self, count: u64) {
        for _ in 0..count {
            let point = self.random.below(self.opening.counts.points);
            let day = self.random.between(FIRST, LAST);
            let hour = self.random.below(24);
            self.reading(point, day, hour);
        }
    }

    fn elements_of(&self, kinds: &[u8]) -> Vec<u64> {
        (0..self.opening.counts.elements)
            .filter(|e| kinds.contains(&self.opening.elements[*e as usize].kind))
            .collect()
    }

    fn end(self, name: String) -> Input {
        Input {
            name,
            opening: self.opening,
            batches: self.batches,
        }
    }
}

const A_ROUND: [u64; 9] = [ROUND, ENERGINET, 0, LAST + 1, 0, 0, 0, 0, 0];

/// Rounds that follow the last one of a month, and have no differences.
pub fn empty_rounds(count: usize) -> Batch {
    Batch {
        row: EMPTY_ROUNDS,
        messages: vec![A_ROUND; count],
    }
}

/// The elements repeat after twelve, at other prices: 24 where an element is hourly,
/// else the first and zeros.
fn element(number: u64) -> (Element, [i64; 24]) {
    const VAT: u8 = 1;
    const PASS_ON: u8 = 2;
    const TAX: u8 = 4;
    let (kind, owner, marks, price) = match number % 12 {
        0 => (SUBSCRIPTION, 1, VAT | PASS_ON, 21_000_000),
        1 => (TARIFF, 1, VAT | PASS_ON | HOURLY, 130_000),
        2 => (FEE, 1, VAT, 150_000_000),
        3 => (TARIFF, 2, VAT | PASS_ON | TAX, 761_000),
        4 => (TARIFF, 2, VAT | PASS_ON, 51_000),
        5 => (TARIFF, 2, VAT | PASS_ON, 74_000),
        6 => (SUBSCRIPTION, 2, VAT, 15_000_000),
        7 => (TARIFF, 1, VAT, 30_000),
        8 => (FEE, 2, 0, 95_000_000),
        9 => (TARIFF, 1, VAT | HOURLY, -12_000),
        10 => (SUBSCRIPTION, 1, VAT, -3_000_000),
        _ => (SUBSCRIPTION, 1, VAT, 8_500_000),
    };
    let price = price + price / 100 * (number / 12) as i64;
    let mut prices = [0; 24];
    prices[0] = price;
    if marks & HOURLY != 0 {
        for (hour, place) in prices.iter_mut().enumerate() {
            // Dear from 17 to 21, cheap at night.
            *place = match hour {
                0..=5 => price,
                17..=20 => price * 4,
                _ => price * 2,
            };
        }
    }
    let element = Element { kind, owner, marks };
    (element, prices)
}

/// 2 points, 2 suppliers, 3 elements: a month of readings, then a hundred times
/// some of everything and a round.
pub fn small(seed: u64) -> Input {
    let mut w = Writer::new(2, 2, 3, seed);
    for point in 0..2 {
        w.state(point, FIRST - 400, 2);
    }
    for point in 0..2 {
        w.holder(point, FIRST - 400, 1 + point);
    }
    for point in 0..2 {
        for element in 0..3 {
            w.about_link(LINK, point, element, FIRST - 10, 1);
        }
    }
    w.all_readings();
    w.round();
    let days = [5, 10, 15, 20, 25];
    for _ in 0..100 {
        w.some_readings(200);
        for point in 0..2 {
            for day in days {
                let supplier = w.random.below(3);
                w.holder(point, FIRST + day + 1, supplier);
            }
        }
        for point in 0..2 {
            for day in days {
                let state = w.random.between(1, 3);
                w.state(point, FIRST + day + 2, state);
            }
        }
        for point in 0..2 {
            for element in 0..3 {
                for day in days.into_iter().rev() {
                    w.about_link(STOP, point, element, FIRST + day, 0);
                }
            }
        }
        for point in 0..2 {
            for element in 0..3 {
                for day in days.into_iter().rev() {
                    w.about_link(LINK, point, element, FIRST + day, 1);
                }
            }
        }
        for point in 0..2 {
            for element in [0, 2] {
                for day in days {
                    let quantity = w.random.between(1, 9);
                    w.about_link(QUANTITY, point, element, FIRST + day, quantity);
                    w.about_link(QUANTITY, point, element, FIRST + day + 2, quantity + 1);
                }
            }
        }
        for _ in 0..10 {
            let point = w.random.below(2);
            w.block(point);
        }
        w.round();
    }
    w.end("small".to_string())
}

/// A month of 6 suppliers and 12 elements: hourly readings, then four times
/// corrections and a round.
pub fn typical(points: u64, seed: u64) -> Input {
    let (suppliers, elements) = (6, 12);
    let mut w = Writer::new(points, suppliers, elements, seed);
    let fees = w.elements_of(&[FEE]);
    let subscriptions = w.elements_of(&[SUBSCRIPTION]);
    for point in 0..points {
        let day = FIRST - w.random.between(100, 400);
        w.state(point, day, 2);
    }
    let mut holders = Vec::new();
    for point in 0..points {
        let supplier = w.random.between(1, suppliers);
        holders.push(supplier);
        w.holder(point, FIRST - 100, supplier);
        if w.random.percent(20) {
            let (day, supplier) = (
                w.random.between(FIRST, LAST),
                w.random.between(1, suppliers),
            );
            w.holder(point, day, supplier);
        }
    }
    for point in 0..points {
        if w.random.percent(10) {
            w.block(point);
        }
    }
    for point in 0..points {
        for element in 0..elements {
            let is_usual = matches!(element, 0 | 1 | 3 | 4 | 5);
            if fees.contains(&element) || !(is_usual || w.random.percent(50)) {
                continue;
            }
            let day = FIRST - w.random.below(60);
            // Suppliers link Energinet's tariffs too.
            let by_supplier = [
                LINK,
                SUPPLIER,
                holders[point as usize],
                day,
                point,
                element,
                day,
                0,
                1,
            ];
            if !(w.random.percent(30) && w.send(by_supplier)) {
                w.about_link(LINK, point, element, day, 1);
            }
        }
    }
    w.all_readings();
    w.round();
    for _ in 0..4 {
        w.some_readings(points * DAYS * 24 / 50);
        for _ in 0..points / 3 {
            let (point, day) = (w.random.below(points), w.random.between(FIRST, LAST));
            let supplier = w.random.below(suppliers + 1);
            w.holder(point, day, supplier);
        }
        for _ in 0..points / 4 {
            let (point, day) = (w.random.below(points), w.random.between(FIRST, LAST));
            let state = if w.random.percent(10) && day > FIRST + 20 {
                4
            } else {
                w.random.between(1, 3)
            };
            w.state(point, day, state);
        }
        for _ in 0..points {
            let (point, day) = (w.random.below(points), w.random.between(FIRST, LAST));
            let element = subscriptions[w.random.below(subscriptions.len() as u64) as usize];
            let quantity = w.random.between(1, 4);
            w.about_link(QUANTITY, point, element, day, quantity);
        }
        let mut stopped = Vec::new();
        for _ in 0..points / 2 {
            let (point, day) = (w.random.below(points), w.random.between(FIRST, LAST));
            let element = w.random.below(elements);
            if w.about_link(STOP, point, element, day, 0) {
                stopped.push((point, element, day));
            }
        }
        for (point, element, day) in stopped {
            let later = w.random.below(3);
            w.about_link(LINK, point, element, day + later, 1);
        }
        for _ in 0..points / 4 {
            let (point, day) = (w.random.below(points), w.random.between(FIRST, LAST));
            let fee = fees[w.random.below(fees.len() as u64) as usize];
            w.about_link(LINK, point, fee, day, 1);
        }
        for _ in 0..points / 3 {
            let point = w.random.below(points);
            w.block(point);
        }
        w.round();
    }
    w.end("typical".to_string())
}

/// 256 points, 16 suppliers, 64 elements, and 1,024 periods, holders and states,
/// four of each on every point; then readings and corrections that keep the
/// tables full.
pub fn full(seed: u64) -> Input {
    let (points, suppliers) = (256, 16);
    let mut w = Writer::new(points, suppliers, 64, seed);
    let subscriptions = w.elements_of(&[SUBSCRIPTION]);
    let tariffs = w.elements_of(&[TARIFF]);
    let pick = |from: &[u64], number: u64| from[(number % from.len() as u64) as usize];
    let middle = FIRST + 14;
    for point in 0..points {
        for (day, state) in [
            (FIRST - 500, 1),
            (FIRST - 300, 2),
            (FIRST + 10, 3),
            (FIRST + 20, 2),
        ] {
            w.state(point, day, state);
        }
    }
    let holder_days = [FIRST - 300, FIRST + 4, FIRST + 12, FIRST + 22];
    for point in 0..points {
        for day in holder_days {
            let supplier = w.random.between(1, suppliers);
            w.holder(point, day, supplier);
        }
    }
    // A subscription and two tariffs, one of the three in two periods.
    let mut twice = Vec::new();
    for point in 0..points {
        let linked = [
            pick(&subscriptions, point),
            pick(&tariffs, point),
            pick(&tariffs, point + 13),
        ];
        let in_two = linked[(point % 3) as usize];
        twice.push(in_two);
        assert!(w.about_link(LINK, point, in_two, middle, 1));
        for element in linked {
            assert!(w.about_link(LINK, point, element, FIRST - 60, 1));
        }
    }
    assert_eq!(w.book.rows(), (1024, 1024, 1024));
    w.all_readings();
    w.round();
    for _ in 0..4 {
        w.some_readings(points * DAYS * 24 / 50);
        for point in 0..points {
            let day = holder_days[w.random.below(4) as usize];
            let supplier = w.random.below(suppliers + 1);
            assert!(w.holder(point, day, supplier));
        }
        for point in 0..points {
            let state = w.random.between(1, 3);
            assert!(w.state(point, FIRST + 10, state));
        }
        for point in 0..points {
            let quantity = w.random.between(1, 9);
            let element = pick(&subscriptions, point);
            assert!(w.about_link(QUANTITY, point, element, FIRST - 60, quantity));
        }
        for point in 0..points {
            assert!(w.about_link(STOP, point, twice[point as usize], middle, 0));
        }
        for point in 0..points {
            assert!(w.about_link(LINK, point, twice[point as usize], middle, 1));
        }
        assert_eq!(w.book.rows(), (1024, 1024, 1024));
        for point in 0..points {
            w.block(point);
        }
        w.round();
    }
    w.end("full".to_string())
}
