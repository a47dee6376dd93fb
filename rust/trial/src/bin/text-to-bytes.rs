//! Reads the text form from standard input and writes the bytes of the file.

use std::io::{Read, Write};
use std::process::ExitCode;

fn main() -> ExitCode {
    let mut source = String::new();
    if let Err(e) = std::io::stdin().read_to_string(&mut source) {
        eprintln!("{e}");
        return ExitCode::FAILURE;
    }
    let bytes = match trial::text_to_bytes(&source) {
        Ok(bytes) => bytes,
        Err(slip) => {
            eprintln!("{slip}");
            return ExitCode::FAILURE;
        }
    };
    match std::io::stdout().write_all(&bytes) {
        Ok(()) => ExitCode::SUCCESS,
        Err(_) => ExitCode::FAILURE,
    }
}
