//! `survey FIRST COUNT` runs generated files and prints how many are of months up to
//! December 2018, how often each question refused, what was accepted and how many
//! records were written.

use std::process::ExitCode;

fn main() -> ExitCode {
    let numbers: Option<Vec<u64>> = std::env::args().skip(1).map(|w| w.parse().ok()).collect();
    let Some([first, count]) = numbers.as_deref() else {
        eprintln!("survey FIRST COUNT");
        return ExitCode::FAILURE;
    };
    let mut survey = trial::survey::Survey::default();
    for seed in *first..first.saturating_add(*count) {
        survey.add_file(&trial::generator::generate(seed));
    }
    print!("{survey}");
    ExitCode::SUCCESS
}
