//! The stored output of `month_starts`, with which the gate compares what it
//! prints, against the calendar of fresh settlement.

use fresh::calendar::{DAY_COUNT, days_in_month, first_day_of_month};
use std::path::Path;

fn stored() -> String {
    let path = Path::new(env!("CARGO_MANIFEST_DIR")).join("../../program/month_starts.txt");
    std::fs::read_to_string(path).unwrap()
}

fn months() -> impl Iterator<Item = (u32, u32)> {
    (2000..2100).flat_map(|year| (1..=12).map(move |month| (year, month)))
}

#[test]
fn the_text_is_the_calendars() {
    let expected: String = months()
        .map(|(year, month)| first_day_of_month(year, month))
        .chain([DAY_COUNT])
        .map(|day| format!("{day}\n"))
        .collect();
    assert_eq!(stored(), expected);
}

/// As a customer's system loads it: line n, from 1, is the month that lies
/// n - 1 months after January 2000, and the month ends where the next begins.
#[test]
fn it_loads_line_by_line() {
    let text = stored();
    let starts: Vec<u32> = text.lines().map(|line| line.parse().unwrap()).collect();
    assert_eq!(starts.len(), 1201);
    assert_eq!((starts[0], starts[1200]), (0, 36_525));
    for (year, month) in months() {
        let line = ((year - 2000) * 12 + month) as usize;
        assert_eq!(
            starts[line] - starts[line - 1],
            days_in_month(year, month),
            "{year} {month}"
        );
    }
    // March 2024
    assert_eq!(starts[291 - 1], 8826);
}
