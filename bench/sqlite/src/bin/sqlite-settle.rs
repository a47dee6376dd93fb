//! Reads a settlement file of valid messages from standard input and prints what
//! `settle` prints for it. Each message updates the lines; with `--sums` a round sums
//! them anew. The database is in memory; with `--disk FOLDER` it is a file of that
//! folder, which is removed at the end.

use settlement_file::{Opening, print_month, print_record};
use sqlite::{Book, Lines};
use std::io::{Read, Write};
use std::process::ExitCode;

fn main() -> ExitCode {
    let arguments: Vec<String> = std::env::args().skip(1).collect();
    let mut words: Vec<&str> = arguments.iter().map(String::as_str).collect();
    let sums = words.iter().position(|word| *word == "--sums");
    let lines = match sums {
        Some(place) => {
            words.remove(place);
            Lines::Summed
        }
        None => Lines::Updated,
    };
    let result = match words[..] {
        [] => settle(":memory:", lines),
        ["--disk", folder] => {
            let file = format!("{folder}/settlement-{}.db", std::process::id());
            let result = settle(&file, lines);
            let _ = std::fs::remove_file(&file);
            result
        }
        _ => Err("sqlite-settle [--sums] [--disk FOLDER] < FILE".to_string()),
    };
    match result {
        Ok(()) => ExitCode::SUCCESS,
        Err(slip) => {
            eprintln!("{slip}");
            ExitCode::FAILURE
        }
    }
}

fn settle(database: &str, lines: Lines) -> Result<(), String> {
    let mut bytes = Vec::new();
    std::io::stdin()
        .read_to_end(&mut bytes)
        .map_err(|e| e.to_string())?;
    let mut rest = &bytes[..];
    let broken = |_| "a field is broken or out of order".to_string();
    let mut opening = Opening::read_month(&mut rest).map_err(|_| "no month".to_string())?;
    let messages = opening.read_elements(rest).map_err(broken)?;
    let mut book = Book::open(
        database,
        lines,
        opening.month,
        opening.counts,
        &opening.elements,
        &opening.prices,
    )?;
    let mut printed = Vec::new();
    print_month(&mut printed, opening.month, book.dates());
    let mut records = Vec::new();
    for message in messages {
        book.message(&message.map_err(broken)?.fields(), &mut records);
        for record in records.drain(..) {
            print_record(&mut printed, record.numbers());
        }
    }
    book.commit()?;
    std::io::stdout()
        .write_all(&printed)
        .map_err(|e| e.to_string())
}
