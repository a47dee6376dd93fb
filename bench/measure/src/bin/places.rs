//! `places [SEED [SECONDS]]` prints, in Markdown, what the query for the periods of a
//! point and an element costs by their place in a full link table.

use measure::inputs::full;
use measure::settlement::{Settlement, clock_seconds};
use measure::{Library, Twin};
use std::hint::black_box;
use std::time::Instant;

/// The points whose last pair with a period is asked for: from the first to the last.
const POINTS: [u64; 6] = [0, 15, 63, 127, 191, 255];

/// Queries that are timed together, of a book that is well formed and of any book.
const QUERIES: usize = 500;
const CHECKED: usize = 5;

fn main() {
    let arguments: Vec<String> = std::env::args().skip(1).collect();
    let seed = arguments.first().and_then(|a| a.parse().ok()).unwrap_or(1);
    let seconds = arguments.get(1).and_then(|a| a.parse().ok());
    let seconds: f64 = seconds.unwrap_or(2.0);
    let input = full(seed);
    let (mut proved, mut twin) = (Library::open(&input.opening), Twin::open(&input.opening));
    for fields in input.batches.iter().flat_map(|batch| &batch.messages) {
        assert_eq!((proved.message(fields), twin.message(fields)), (0, 0));
    }
    let elements = input.opening.counts.elements;
    let pairs = POINTS.map(|point| {
        let has_some = |element: &u64| proved.period_count(point, *element) > 0;
        let element = (0..elements).rev().find(has_some);
        (point, element.expect("a point with a period"))
    });
    let clock = clock_seconds();
    let mut best = pairs.map(|_| [f64::INFINITY; 3]);
    let begun = Instant::now();
    while begun.elapsed().as_secs_f64() < seconds {
        for ((point, element), best) in pairs.into_iter().zip(&mut best) {
            let mut check = |point, element| proved.period_count_checked(point, element);
            let checked = time(CHECKED, &mut check, point, element, clock);
            let mut count = |point, element| proved.period_count(point, element);
            let within = time(QUERIES, &mut count, point, element, clock);
            let mut count = |point, element| twin.period_count(point, element);
            let twin = time(QUERIES, &mut count, point, element, clock);
            let times = [within, checked, twin].into_iter();
            for (best, time) in best.iter_mut().zip(times) {
                *best = best.min(time);
            }
        }
    }
    println!("\n## The query for periods by their place in a full table of 1024\n");
    println!(
        "| periods before | periods handed back | periods read | proved ns | proved, any book ns | twin ns |"
    );
    println!("|---:|---:|---:|---:|---:|---:|");
    for ((point, element), [within, checked, twin]) in pairs.into_iter().zip(best) {
        let (place, count, read) = proved.place_of(point, element);
        println!("| {place} | {count} | {read} | {within:.0} | {checked:.0} | {twin:.1} |");
    }
}

/// Nanoseconds for one query, of so many.
fn time(
    queries: usize,
    query: &mut dyn FnMut(u64, u64) -> u64,
    point: u64,
    element: u64,
    clock: f64,
) -> f64 {
    let start = Instant::now();
    for _ in 0..queries {
        black_box(query(black_box(point), black_box(element)));
    }
    (start.elapsed().as_secs_f64() - clock) * 1e9 / queries as f64
}
