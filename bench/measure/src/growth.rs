//! How the cost of one message grows with the history before it: the same messages
//! after none, a quarter, half and all of the typical month.
//!
//! They are about a point of their own, point 0, so that what they find there is the
//! same at each place; the month's points follow it, and a new row of point 0 moves
//! all rows behind it.

use crate::inputs::{DAYS, FIRST, Input, typical};
use crate::settlement::{Settlement, clock_seconds};
use std::hint::black_box;
use std::time::Instant;

/// The shares of the month that come before, in quarters.
pub const QUARTERS: [usize; 4] = [0, 1, 2, 4];

/// Link and stop messages that are timed, half of them each.
const LINKS: u64 = 200;

/// Point 0's own messages: a state, a holder and links to five elements, one of them
/// stopped within the month.
const STOPPED: u64 = 7;
fn beginning() -> Vec<[u64; 9]> {
    let mut messages = vec![
        [5, 1, 0, FIRST, 0, 0, FIRST - 100, 0, 2],
        [4, 2, 0, FIRST, 0, 0, FIRST - 100, 0, 1],
    ];
    for (element, owner) in [(0, 1), (1, 1), (3, 2), (4, 2), (STOPPED, 1)] {
        messages.push([1, owner, 0, FIRST, 0, element, FIRST - 20, 0, 1]);
    }
    messages.push([2, 1, 0, FIRST, 0, STOPPED, FIRST + 10, 0, 0]);
    messages
}

/// Every hour of the month, at another energy in each run.
fn readings(run: u64) -> Vec<[u64; 9]> {
    let hours = (0..DAYS).flat_map(|day| (0..24).map(move |hour| (FIRST + day, hour)));
    hours
        .map(|(day, hour)| {
            [
                6,
                1,
                0,
                day + 1,
                0,
                0,
                day,
                hour,
                1000 + 37 * hour + run % 2,
            ]
        })
        .collect()
}

/// A link from a day and a stop on it, over and over.
fn links() -> Vec<[u64; 9]> {
    (0..LINKS)
        .map(|n| [1 + n % 2, 1, 0, FIRST, 0, STOPPED, FIRST + 15, 0, 1 - n % 2])
        .collect()
}

/// The typical month with its points behind a further point 0.
pub fn month(points: u64, seed: u64) -> Input {
    let mut input = typical(points, seed);
    input.opening.counts.points += 1;
    for batch in &mut input.batches {
        for fields in &mut batch.messages {
            if fields[0] != 8 {
                fields[4] += 1;
            }
        }
    }
    input
}

/// Messages before, and nanoseconds for a reading and for a link or stop.
#[derive(Clone, Copy)]
pub struct Cost {
    pub before: usize,
    pub reading: f64,
    pub link: f64,
}

/// The best costs at each share of the month, of runs that take so many seconds or
/// of three. The shares take turns, so that all of them meet the machine's better
/// moments.
pub fn costs<S: Settlement>(input: &Input, seconds: f64) -> Vec<Cost> {
    let messages: Vec<[u64; 9]> = input
        .batches
        .iter()
        .flat_map(|batch| batch.messages.iter().copied())
        .collect();
    let shares = QUARTERS.map(|quarters| &messages[..messages.len() * quarters / 4]);
    let mut settlements = shares.map(|before| after::<S>(input, before));
    let mut costs = shares.map(|before| Cost {
        before: before.len(),
        reading: f64::INFINITY,
        link: f64::INFINITY,
    });
    let clock = clock_seconds();
    let (begun, mut run) = (Instant::now(), 0);
    while run < 3 || begun.elapsed().as_secs_f64() < seconds {
        for (settlement, cost) in settlements.iter_mut().zip(&mut costs) {
            cost.reading = cost.reading.min(time(settlement, &readings(run), clock));
            cost.link = cost.link.min(time(settlement, &links(), clock));
        }
        run += 1;
    }
    settlements.into_iter().for_each(S::finish);
    costs.to_vec()
}

/// A settlement with point 0's own messages and some of the month's.
fn after<S: Settlement>(input: &Input, before: &[[u64; 9]]) -> S {
    let mut settlement = S::open(&input.opening);
    for fields in beginning().iter().chain(before) {
        assert_eq!(settlement.message(fields), 0, "refused: {fields:?}");
    }
    settlement
}

/// Nanoseconds for one of the messages.
fn time<S: Settlement>(settlement: &mut S, messages: &[[u64; 9]], clock: f64) -> f64 {
    let start = Instant::now();
    for fields in messages {
        assert_eq!(black_box(settlement.message(fields)), 0);
    }
    (start.elapsed().as_secs_f64() - clock) * 1e9 / messages.len() as f64
}
