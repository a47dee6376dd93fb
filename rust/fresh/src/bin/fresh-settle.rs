//! Reads a settlement file from standard input and prints what `settle` prints.

use std::io::{Read, Write};

fn main() -> std::io::Result<()> {
    let mut bytes = Vec::new();
    std::io::stdin().read_to_end(&mut bytes)?;
    std::io::stdout().write_all(fresh::output(&bytes).as_bytes())
}
