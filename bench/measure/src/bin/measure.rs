//! `measure [--seed N] [--seconds N] [--book NAME] [--only NAME]` prints the
//! tables of speed in Markdown. Each measurement is repeated for about the given
//! seconds, at least three times, and the best time of each batch is taken.

use measure::IMPLEMENTATIONS;
use measure::inputs::{EMPTY_ROUNDS, Input, full, small, typical};
use measure::settlement::{
    DAY_QUERIES, Implementation, LINE_QUERIES, PERIOD_QUERIES, SUM_QUERIES, Timing, clock_seconds,
};
use std::process::ExitCode;
use std::time::Instant;

type Maker = fn(u64) -> Input;

struct Wishes {
    seed: u64,
    seconds: f64,
    book: Option<String>,
    only: Option<String>,
}

fn main() -> ExitCode {
    let Some(wishes) = wishes() else {
        eprintln!("measure [--seed N] [--seconds N] [--book NAME] [--only NAME]");
        return ExitCode::FAILURE;
    };
    println!(
        "Seed {}, SQLite {}. Reading the clock twice takes {:.0} ns, which is taken off each batch.",
        wishes.seed,
        sqlite::version(),
        clock_seconds() * 1e9
    );
    let makers: [(&str, Maker); 3] = [
        ("small", small),
        ("typical", |seed| typical(60, seed)),
        ("full", full),
    ];
    let chosen: Vec<&Implementation> = IMPLEMENTATIONS
        .iter()
        .filter(|i| wishes.only.as_ref().is_none_or(|only| only == i.name))
        .collect();
    for (name, make) in makers {
        if wishes.book.as_ref().is_none_or(|book| book == name) {
            let input = make(wishes.seed);
            if let Err(slip) = measure_book(&input, &chosen, wishes.seconds) {
                eprintln!("{slip}");
                return ExitCode::FAILURE;
            }
        }
    }
    ExitCode::SUCCESS
}

fn wishes() -> Option<Wishes> {
    let mut wishes = Wishes {
        seed: 1,
        seconds: 8.0,
        book: None,
        only: None,
    };
    let mut arguments = std::env::args().skip(1);
    while let Some(name) = arguments.next() {
        let value = arguments.next()?;
        match name.as_str() {
            "--seed" => wishes.seed = value.parse().ok()?,
            "--seconds" => wishes.seconds = value.parse().ok()?,
            "--book" => wishes.book = Some(value),
            "--only" => wishes.only = Some(value),
            _ => return None,
        }
    }
    Some(wishes)
}

struct Measured {
    name: &'static str,
    best: Timing,
    whole: f64,
    runs: usize,
}

fn measure_book(input: &Input, chosen: &[&Implementation], seconds: f64) -> Result<(), String> {
    check(input, chosen)?;
    let measured: Vec<Measured> = chosen.iter().map(|i| measure(input, i, seconds)).collect();
    let counts = input.opening.counts;
    println!(
        "\n## {}: {} points, {} suppliers, {} elements, {} messages\n",
        input.name,
        counts.points,
        counts.suppliers,
        counts.elements,
        input.message_count()
    );
    let mut titles = vec!["what".to_string(), "number".to_string()];
    for one in &measured {
        let title = format!("{} s (best of {})", one.name, one.runs);
        titles.extend([title, format!("{} per s", one.name)]);
    }
    for one in measured.iter().skip(1) {
        titles.push(format!("{} time ÷ {} time", one.name, measured[0].name));
    }
    println!("| {} |", titles.join(" | "));
    println!("|---{}|", "|---:".repeat(titles.len() - 1));
    let rows = [
        (1, "1 link"),
        (2, "2 stop"),
        (3, "3 quantity"),
        (4, "4 holder"),
        (5, "5 state"),
        (6, "6 reading"),
        (7, "7 block"),
        (8, "8 round"),
        (EMPTY_ROUNDS, "8 round, no difference"),
        (LINE_QUERIES, "query: line"),
        (PERIOD_QUERIES, "query: periods"),
        (DAY_QUERIES, "query: day without holder"),
        (SUM_QUERIES, "query: packed sum"),
    ];
    for (row, title) in rows {
        let numbers: Vec<(u64, f64)> = measured.iter().map(|m| m.best.row(row)).collect();
        print_row(title, &numbers);
    }
    let count = input.message_count();
    let numbers: Vec<(u64, f64)> = measured.iter().map(|m| (count, m.whole)).collect();
    print_row("whole month", &numbers);
    Ok(())
}

/// The seconds say of how many they are where these are fewer than the first one's.
fn print_row(title: &str, numbers: &[(u64, f64)]) {
    print!("| {title} | {} |", numbers[0].0);
    for (count, seconds) in numbers {
        let fewer = if *count == numbers[0].0 {
            String::new()
        } else {
            format!(" (of {count})")
        };
        print!(" {seconds:.6}{fewer} | {:.0} |", *count as f64 / seconds);
    }
    let each = |(count, seconds): (u64, f64)| seconds / count as f64;
    for number in &numbers[1..] {
        print!(" {} |", ratio(each(*number) / each(numbers[0])));
    }
    println!();
}

/// A ratio to two or three digits.
fn ratio(value: f64) -> String {
    match value {
        10.0.. => format!("{value:.0}"),
        1.0.. => format!("{value:.1}"),
        0.1.. => format!("{value:.2}"),
        _ => format!("{value:.4}"),
    }
}

/// Whether all of them give the same records, lines and answers, and none refuses.
fn check(input: &Input, chosen: &[&Implementation]) -> Result<(), String> {
    let wanted = (IMPLEMENTATIONS[0].check)(input);
    for one in chosen {
        let outcome = (one.check)(input);
        if outcome.refused != 0 {
            return Err(format!(
                "{}: {} refuses {} messages",
                input.name, one.name, outcome.refused
            ));
        }
        if outcome != wanted {
            return Err(format!("{}: {} settles otherwise", input.name, one.name));
        }
    }
    let records: usize = wanted.records.iter().map(Vec::len).sum();
    eprintln!("{}: {records} records, the same from all", input.name);
    Ok(())
}

fn measure(input: &Input, one: &Implementation, seconds: f64) -> Measured {
    let start = Instant::now();
    let mut best = (one.by_kind)(input);
    let mut whole = (one.whole)(input);
    let mut runs = 1;
    while runs < 3 || start.elapsed().as_secs_f64() < seconds {
        best.keep_best(&(one.by_kind)(input));
        whole = whole.min((one.whole)(input));
        runs += 1;
    }
    Measured {
        name: one.name,
        best,
        whole,
        runs,
    }
}
