//! `month-file POINTS SEED` writes the typical month of so many points as a file
//! of document 01; `month-file small SEED` and `month-file full SEED` write the
//! other two.

use measure::inputs::{Input, full, small, typical};
use std::io::Write;
use std::process::ExitCode;

fn main() -> ExitCode {
    let arguments: Vec<String> = std::env::args().skip(1).collect();
    let Some(input) = input(&arguments) else {
        eprintln!("month-file POINTS|small|full SEED, with 1 to 256 points");
        return ExitCode::FAILURE;
    };
    match std::io::stdout().write_all(&input.file()) {
        Ok(()) => ExitCode::SUCCESS,
        Err(slip) => {
            eprintln!("{slip}");
            ExitCode::FAILURE
        }
    }
}

fn input(arguments: &[String]) -> Option<Input> {
    let [which, seed] = arguments else {
        return None;
    };
    let seed = seed.parse().ok()?;
    match which.as_str() {
        "small" => Some(small(seed)),
        "full" => Some(full(seed)),
        points => {
            let points = points.parse().ok()?;
            (1..=256).contains(&points).then(|| typical(points, seed))
        }
    }
}
