//! `generate SEED` writes the bytes of a random file.

use std::io::Write;
use std::process::ExitCode;

fn main() -> ExitCode {
    let mut arguments = std::env::args().skip(1);
    let seed = arguments.next().and_then(|word| word.parse().ok());
    let (Some(seed), None) = (seed, arguments.next()) else {
        eprintln!("generate SEED");
        return ExitCode::FAILURE;
    };
    match std::io::stdout().write_all(&trial::generator::generate(seed)) {
        Ok(()) => ExitCode::SUCCESS,
        Err(_) => ExitCode::FAILURE,
    }
}
