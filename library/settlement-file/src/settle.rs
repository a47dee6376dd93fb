//! What `settle` prints for a file.

use crate::{Counts, Element, Month, Opening};
use std::io::{Read, Write};
use std::process::ExitCode;

/// The month and every count are within their limits.
const OUT_OF_LIMITS: u64 = 2;

/// The numbers of a record: kind, supplier and element; by how much the line differs
/// from what was sent, in quantity, kroner and billionths; and its balance, which is the
/// line after the round, in the same three.
pub const RECORD_SIZE: usize = 9;

/// A book that a file is settled with. An error is the number of the first question
/// that says no.
pub trait Settle: Sized {
    /// Opens a month with 24 prices for each element, or gives question 2, 3 or 4.
    fn open(
        month: Month,
        counts: Counts,
        elements: &[Element],
        prices: &[i64],
    ) -> Result<Self, u64>;

    /// How many days its month has, and the first of them.
    fn dates(&self) -> (u64, u64);

    /// Takes a message of kind, role, sender, received, point, element, day, hour and
    /// value. Where a round is accepted, hands out the numbers of each of its records.
    fn message(
        &mut self,
        fields: &[u64; 9],
        each: impl FnMut([i64; RECORD_SIZE]),
    ) -> Result<(), u64>;
}

/// What `settle` prints for these bytes; `settle` takes at most 16 points.
pub fn output<B: Settle>(bytes: &[u8], most_points: u64) -> Vec<u8> {
    let mut printed = Vec::new();
    if let Err(question) = run::<B>(bytes, most_points, &mut printed) {
        print_refused(&mut printed, 0, question);
    }
    printed
}

/// The book as these bytes leave it, or the question from 1 to 4 that ends the run.
pub fn settled<B: Settle>(bytes: &[u8], most_points: u64) -> Result<B, u64> {
    run(bytes, most_points, &mut Vec::new())
}

/// Runs to the end, or to the question from 1 to 4 that ends the run.
fn run<B: Settle>(mut bytes: &[u8], most_points: u64, printed: &mut Vec<u8>) -> Result<B, u64> {
    let mut opening = Opening::read_month(&mut bytes)?;
    let messages = opening.read_elements(bytes)?;
    let Opening { month, counts, .. } = opening;
    if counts.points > most_points {
        return Err(OUT_OF_LIMITS);
    }
    let mut book = B::open(month, counts, &opening.elements, &opening.prices)?;
    print_month(printed, month, book.dates());
    for (number, message) in (1..).zip(messages) {
        let answer = book.message(&message?.fields(), |record| print_record(printed, record));
        if let Err(question) = answer {
            print_refused(printed, number, question);
        }
    }
    Ok(book)
}

/// The line of an open book: its month, how many days that has, and the first of them.
pub fn print_month(printed: &mut Vec<u8>, Month { year, month }: Month, (days, first): (u64, u64)) {
    print(
        printed,
        format_args!("book {year} {month} {days} {first}\n"),
    );
}

/// The line of a record: its numbers in their order.
pub fn print_record(printed: &mut Vec<u8>, record: [i64; RECORD_SIZE]) {
    print(printed, format_args!("record"));
    for number in record {
        print(printed, format_args!(" {number}"));
    }
    print(printed, format_args!("\n"));
}

fn print_refused(printed: &mut Vec<u8>, number: u64, question: u64) {
    print(printed, format_args!("refused {number} {question}\n"));
}

fn print(printed: &mut Vec<u8>, text: std::fmt::Arguments<'_>) {
    // Writing to a vector does not fail.
    let _ = printed.write_fmt(text);
}

/// A program that reads a file from standard input and prints what `settle` prints.
/// Its arguments `--most-points N` let a file have more than the 16 points of `settle`.
pub fn program<B: Settle>(name: &str) -> std::io::Result<ExitCode> {
    let arguments: Vec<String> = std::env::args().skip(1).collect();
    let most_points = match &arguments[..] {
        [] => Some(16),
        [name, number] if name == "--most-points" => number.parse().ok(),
        _ => None,
    };
    let Some(most_points) = most_points else {
        eprintln!("{name} [--most-points N] < FILE");
        return Ok(ExitCode::from(2));
    };
    let mut bytes = Vec::new();
    std::io::stdin().read_to_end(&mut bytes)?;
    std::io::stdout().write_all(&output::<B>(&bytes, most_points))?;
    Ok(ExitCode::SUCCESS)
}

#[cfg(test)]
mod tests {
    use super::*;

    #[test]
    fn a_record_is_a_line_of_its_numbers() {
        let mut printed = b"before\n".to_vec();
        print_record(
            &mut printed,
            [2, 2, 1, -500, -1, 750_000_000, 2500, 1, 250_000_000],
        );
        let expected = b"before\nrecord 2 2 1 -500 -1 750000000 2500 1 250000000\n";
        assert_eq!(printed, expected);
    }
}
