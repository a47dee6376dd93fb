//! `compare PROGRAM FIRST COUNT [large]` runs generated files, or large ones,
//! through a settlement program and through fresh settlement, and names the
//! seeds that differ.

use std::process::ExitCode;
use trial::generator::{generate, generate_large};
use trial::program::printed_by;

const USAGE: &str = "compare PROGRAM FIRST COUNT [large]";

fn main() -> ExitCode {
    let arguments: Vec<String> = std::env::args().skip(1).collect();
    let words: Vec<&str> = arguments.iter().map(String::as_str).collect();
    let (program, first, count, large) = match words[..] {
        [program, first, count] => (program, first, count, false),
        [program, first, count, "large"] => (program, first, count, true),
        _ => {
            eprintln!("{USAGE}");
            return ExitCode::FAILURE;
        }
    };
    let (Ok(first), Ok(count)) = (first.parse::<u64>(), count.parse::<u64>()) else {
        eprintln!("{USAGE}");
        return ExitCode::FAILURE;
    };
    let mut differing = 0;
    for seed in first..first.saturating_add(count) {
        let bytes = if large {
            generate_large(seed)
        } else {
            generate(seed)
        };
        let printed = match printed_by(program, &bytes) {
            Ok(printed) => printed,
            Err(e) => {
                eprintln!("{program}: {e}");
                return ExitCode::FAILURE;
            }
        };
        if printed != fresh::output(&bytes) {
            differing += 1;
            println!("seed {seed} differs");
        }
    }
    println!("{count} files, {differing} differ");
    if differing == 0 {
        ExitCode::SUCCESS
    } else {
        ExitCode::FAILURE
    }
}
