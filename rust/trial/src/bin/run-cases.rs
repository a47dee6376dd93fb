//! `run-cases PROGRAM` runs all stored cases through a settlement program and
//! names those where it prints something else.

use std::process::ExitCode;
use trial::cases::{case_directory, read_cases};
use trial::program::printed_by;

fn main() -> ExitCode {
    let Some(program) = std::env::args().nth(1) else {
        eprintln!("run-cases PROGRAM");
        return ExitCode::FAILURE;
    };
    let cases = match read_cases(&case_directory()) {
        Ok(cases) => cases,
        Err(slip) => {
            eprintln!("{slip}");
            return ExitCode::FAILURE;
        }
    };
    let mut differing = 0;
    for case in &cases {
        let printed = match printed_by(&program, &case.bytes) {
            Ok(printed) => printed,
            Err(e) => {
                eprintln!("{program}: {e}");
                return ExitCode::FAILURE;
            }
        };
        if printed != case.expected {
            differing += 1;
            println!(
                "{}\nexpected:\n{}printed:\n{printed}",
                case.name, case.expected
            );
        }
    }
    println!("{} cases, {differing} differ", cases.len());
    if differing == 0 && !cases.is_empty() {
        ExitCode::SUCCESS
    } else {
        ExitCode::FAILURE
    }
}
