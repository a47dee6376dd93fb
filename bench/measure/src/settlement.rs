//! What a settlement is to the measurements, and the timing of one.

use crate::growth::{Cost, costs};
use crate::inputs::{Input, MOST_IN_BATCH, empty_rounds};
use settlement_book::PACKED_SIZE;
use settlement_file::{Counts, Opening, RECORD_SIZE};
use std::hint::black_box;
use std::time::Instant;

/// One difference that a round sends, with the balance: kind, supplier and element, then
/// quantity, kroner and billionths of each.
pub type Record = [i64; RECORD_SIZE];

/// Fifteen digits of øre and a sign; zeros, which are none, where the query is refused.
pub type PackedAmount = [u8; PACKED_SIZE];

pub trait Settlement: Sized {
    /// Of the line queries, of the packed sums and of the rounds without differences, one
    /// in so many is timed.
    const SHARE: usize = 1;

    /// Opens a book that is known to be right.
    fn open(opening: &Opening) -> Self;

    /// Takes kind, role, sender, received, point, element, day, hour and value.
    /// The answer is 0 or the number of the question.
    fn message(&mut self, fields: &[u64; 9]) -> u64;

    /// The records of the last round. Not timed.
    fn records(&self) -> Vec<Record>;

    /// Quantity, kroner and billionths.
    fn line(&self, supplier: u64, element: u64) -> (i64, i64, u64);

    /// How many periods are recorded for a point and an element.
    fn period_count(&mut self, point: u64, element: u64) -> u64;

    /// The earliest day of the month on which the point counts but for a missing holder
    /// and has a link.
    fn day_without_holder(&self, point: u64) -> Option<u64>;

    /// What a supplier owes for the elements of an owner, as a packed amount.
    fn packed_sum(&self, supplier: u64, owner: u64) -> PackedAmount;

    /// Ends the run: a database commits.
    fn finish(self) {}
}

/// An implementation by the functions that measure it.
pub struct Implementation {
    pub name: &'static str,
    pub check: fn(&Input) -> Outcome,
    pub by_kind: fn(&Input) -> Timing,
    pub whole: fn(&Input) -> f64,
    pub growth: fn(&Input, f64) -> Vec<Cost>,
}

pub const fn implementation<S: Settlement>(name: &'static str) -> Implementation {
    Implementation {
        name,
        check: check::<S>,
        by_kind: by_kind::<S>,
        whole: whole::<S>,
        growth: costs::<S>,
    }
}

/// Everything that can be seen of a run.
#[derive(PartialEq, Eq)]
pub struct Outcome {
    pub refused: u64,
    pub records: Vec<Vec<Record>>,
    pub lines: Vec<(i64, i64, u64)>,
    pub periods: Vec<u64>,
    pub days_without_holder: Vec<Option<u64>>,
    pub packed_sums: Vec<PackedAmount>,
}

/// The grid company and Energinet.
const OWNERS: u64 = 2;

/// Rounds without differences that are checked and timed.
const EMPTY_CHECKED: usize = 2;
const EMPTY_TIMED: usize = 200;

fn check<S: Settlement>(input: &Input) -> Outcome {
    let mut settlement = S::open(&input.opening);
    let mut outcome = Outcome {
        refused: 0,
        records: Vec::new(),
        lines: Vec::new(),
        periods: Vec::new(),
        days_without_holder: Vec::new(),
        packed_sums: Vec::new(),
    };
    let after = empty_rounds(EMPTY_CHECKED);
    for batch in input.batches.iter().chain([&after]) {
        for fields in &batch.messages {
            outcome.refused += u64::from(settlement.message(fields) != 0);
            if fields[0] == 8 {
                outcome.records.push(settlement.records());
            }
        }
    }
    let counts = input.opening.counts;
    for supplier in 1..=counts.suppliers {
        for element in 0..counts.elements {
            outcome.lines.push(settlement.line(supplier, element));
        }
        for owner in 1..=OWNERS {
            outcome
                .packed_sums
                .push(settlement.packed_sum(supplier, owner));
        }
    }
    for point in 0..counts.points {
        for element in 0..counts.elements {
            outcome
                .periods
                .push(settlement.period_count(point, element));
        }
        outcome
            .days_without_holder
            .push(settlement.day_without_holder(point));
    }
    settlement.finish();
    outcome
}

/// The batches of a run in order: row of the table, number and seconds.
pub struct Timing {
    pub batches: Vec<(usize, u64, f64)>,
}

impl Timing {
    /// Keeps the lesser time of each batch.
    pub fn keep_best(&mut self, other: &Timing) {
        for (mine, other) in self.batches.iter_mut().zip(&other.batches) {
            mine.2 = mine.2.min(other.2);
        }
    }

    /// Number and seconds of a row.
    pub fn row(&self, row: usize) -> (u64, f64) {
        let batches = self.batches.iter().filter(|batch| batch.0 == row);
        batches.fold((0, 0.0), |(number, seconds), batch| {
            (number + batch.1, seconds + batch.2)
        })
    }
}

/// Rows of the table after those of the messages.
pub const LINE_QUERIES: usize = 10;
pub const PERIOD_QUERIES: usize = 11;
pub const DAY_QUERIES: usize = 12;
pub const SUM_QUERIES: usize = 13;
const QUERIES: u64 = 20_000;

/// Times each batch, and takes off what reading the clock costs.
fn by_kind<S: Settlement>(input: &Input) -> Timing {
    let clock = clock_seconds();
    let mut timing = Timing {
        batches: Vec::with_capacity(input.batches.len() + 100),
    };
    let mut time = |row: usize, number: usize, work: &mut dyn FnMut()| {
        let start = Instant::now();
        work();
        let seconds = start.elapsed().as_secs_f64() - clock;
        timing.batches.push((row, number as u64, seconds.max(0.0)));
    };
    let mut settlement = S::open(&input.opening);
    let after = empty_rounds(EMPTY_TIMED / S::SHARE);
    for batch in input.batches.iter().chain([&after]) {
        time(batch.row, batch.messages.len(), &mut || {
            for fields in &batch.messages {
                black_box(settlement.message(fields));
            }
        });
    }

    let Counts {
        points,
        suppliers,
        elements,
    } = input.opening.counts;
    let lines: Vec<(u64, u64)> = (0..QUERIES / S::SHARE as u64)
        .map(|n| (1 + n / elements % suppliers, n % elements))
        .collect();
    let pairs: Vec<(u64, u64)> = (0..QUERIES)
        .map(|n| (n / elements % points, n % elements))
        .collect();
    let some_points: Vec<u64> = (0..QUERIES / 10).map(|n| n % points).collect();
    let sums: Vec<(u64, u64)> = (0..QUERIES / 10 / S::SHARE as u64)
        .map(|n| (1 + n / OWNERS % suppliers, 1 + n % OWNERS))
        .collect();
    for lines in lines.chunks(MOST_IN_BATCH) {
        time(LINE_QUERIES, lines.len(), &mut || {
            for (supplier, element) in lines {
                black_box(settlement.line(*supplier, *element));
            }
        });
    }
    for pairs in pairs.chunks(MOST_IN_BATCH) {
        time(PERIOD_QUERIES, pairs.len(), &mut || {
            for (point, element) in pairs {
                black_box(settlement.period_count(*point, *element));
            }
        });
    }
    for some_points in some_points.chunks(MOST_IN_BATCH) {
        time(DAY_QUERIES, some_points.len(), &mut || {
            for point in some_points {
                black_box(settlement.day_without_holder(*point));
            }
        });
    }
    for sums in sums.chunks(MOST_IN_BATCH) {
        time(SUM_QUERIES, sums.len(), &mut || {
            for (supplier, owner) in sums {
                black_box(settlement.packed_sum(*supplier, *owner));
            }
        });
    }
    settlement.finish();
    timing
}

/// Seconds from the opening to the last message, one clock for all.
fn whole<S: Settlement>(input: &Input) -> f64 {
    let start = Instant::now();
    let mut settlement = S::open(&input.opening);
    for batch in &input.batches {
        for fields in &batch.messages {
            black_box(settlement.message(fields));
        }
    }
    settlement.finish();
    start.elapsed().as_secs_f64()
}

/// What two readings of the clock cost: the least of many.
pub fn clock_seconds() -> f64 {
    (0..1000)
        .map(|_| {
            let start = Instant::now();
            start.elapsed().as_secs_f64()
        })
        .fold(f64::INFINITY, f64::min)
}
