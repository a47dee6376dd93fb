//! Reads any bytes from standard input and prints their text form.

use std::io::{Read, Write};

fn main() -> std::io::Result<()> {
    let mut bytes = Vec::new();
    std::io::stdin().read_to_end(&mut bytes)?;
    std::io::stdout().write_all(trial::bytes_to_text(&bytes).as_bytes())
}
