//! `replay NAME SEED` sends the typical month through one implementation, with a
//! function of its own for each kind of message, so that callgrind can tell the
//! kinds apart. `replay --table FILE FUNCTION FILE` prints the table of instructions
//! in Markdown, from callgrind's files: what `FUNCTION` took below each of them in
//! the first, and what each took in all in the second.

use measure::callgrind::{Costs, costs_of};
use measure::inputs::{Input, typical};
use measure::settlement::Settlement;
use measure::{Library, Twin};
use std::hint::black_box;
use std::process::ExitCode;

const KINDS: [(&str, &str); 8] = [
    ("send_link", "1 link"),
    ("send_stop", "2 stop"),
    ("send_quantity", "3 quantity"),
    ("send_holder", "4 holder"),
    ("send_state", "5 state"),
    ("send_reading", "6 reading"),
    ("send_block", "7 block"),
    ("send_round", "8 round"),
];

/// A function for each kind. The kinds make them differ, so none is merged with
/// another.
macro_rules! senders {
    ($($name:ident $kind:literal),*) => {
        $(#[inline(never)]
        fn $name<S: Settlement>(settlement: &mut S, fields: &[u64; 9]) -> u64 {
            black_box($kind);
            settlement.message(fields)
        })*
    };
}

senders! {
    send_link 1, send_stop 2, send_quantity 3, send_holder 4,
    send_state 5, send_reading 6, send_block 7, send_round 8
}

fn main() -> ExitCode {
    let arguments: Vec<String> = std::env::args().skip(1).collect();
    let words: Vec<&str> = arguments.iter().map(String::as_str).collect();
    let result = match words[..] {
        ["--table", first, function, second] => print_table(first, function, second),
        ["proved", seed] => replay::<Library>(seed),
        ["twin", seed] => replay::<Twin>(seed),
        _ => Err("replay proved|twin SEED, or replay --table FILE FUNCTION FILE".to_string()),
    };
    match result {
        Ok(()) => ExitCode::SUCCESS,
        Err(slip) => {
            eprintln!("{slip}");
            ExitCode::FAILURE
        }
    }
}

fn replay<S: Settlement>(seed: &str) -> Result<(), String> {
    let input: Input = typical(60, seed.parse().map_err(|_| "SEED is a number")?);
    let mut settlement = S::open(&input.opening);
    let mut refused = 0;
    for batch in &input.batches {
        for fields in &batch.messages {
            let answer = match fields[0] {
                1 => send_link(&mut settlement, fields),
                2 => send_stop(&mut settlement, fields),
                3 => send_quantity(&mut settlement, fields),
                4 => send_holder(&mut settlement, fields),
                5 => send_state(&mut settlement, fields),
                6 => send_reading(&mut settlement, fields),
                7 => send_block(&mut settlement, fields),
                _ => send_round(&mut settlement, fields),
            };
            refused += u64::from(answer != 0);
        }
    }
    settlement.finish();
    match refused {
        0 => Ok(()),
        _ => Err(format!("{refused} messages are refused")),
    }
}

fn print_table(first: &str, function: &str, second: &str) -> Result<(), String> {
    let read = |path: &str| std::fs::read_to_string(path).map_err(|e| format!("{path}: {e}"));
    let (first, second) = (costs_of(&read(first)?)?, costs_of(&read(second)?)?);
    println!(
        "| kind | messages | proved, instructions per message | twin, instructions per message | proved ÷ twin |"
    );
    println!("|---|---:|---:|---:|---:|");
    for (sender, title) in KINDS {
        let (calls, proved) = Costs::called(&first, sender, function)?;
        let twin = Costs::inclusive(&second, sender)?;
        let (proved, twin) = (proved as f64 / calls as f64, twin as f64 / calls as f64);
        println!(
            "| {title} | {calls} | {proved:.0} | {twin:.0} | {:.1} |",
            proved / twin
        );
    }
    println!("\nWhere the instructions of the proved month are, making the month included:\n");
    println!("| function | share |");
    println!("|---|---:|");
    for (name, share) in first.most(6) {
        println!("| `{name}` | {:.0} % |", 100.0 * share);
    }
    Ok(())
}
