//! `growth [SEED [SECONDS]]` prints, in Markdown, what a message costs after so much of
//! the typical month.

use measure::IMPLEMENTATIONS;
use measure::growth::{Cost, month};

fn main() {
    let arguments: Vec<String> = std::env::args().skip(1).collect();
    let seed = arguments.first().and_then(|a| a.parse().ok()).unwrap_or(1);
    let seconds = arguments.get(1).and_then(|a| a.parse().ok());
    let seconds: f64 = seconds.unwrap_or(4.0);
    let input = month(60, seed);
    let costs: Vec<Vec<Cost>> = IMPLEMENTATIONS
        .iter()
        .map(|one| (one.growth)(&input, seconds))
        .collect();
    println!("\n## The same messages after none, a quarter, half and all of the typical month\n");
    print!("| messages before |");
    for one in IMPLEMENTATIONS {
        print!(" {0} ns per reading | {0} ns per link or stop |", one.name);
    }
    println!("\n|---:{}|", "|---:|---:".repeat(IMPLEMENTATIONS.len()));
    for place in 0..costs[0].len() {
        print!("| {} |", costs[0][place].before);
        for one in &costs {
            print!(" {:.0} | {:.0} |", one[place].reading, one[place].link);
        }
        println!();
    }
}
