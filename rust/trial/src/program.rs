//! Runs a settlement program on given input.

use std::io::Write;
use std::process::{Command, Stdio};

/// What the program prints for these bytes. The input is read from a pipe, so
/// the program may stop before it has read everything.
pub fn printed_by(program: &str, input: &[u8]) -> std::io::Result<String> {
    let mut child = Command::new(program)
        .stdin(Stdio::piped())
        .stdout(Stdio::piped())
        .spawn()?;
    let mut stdin = child.stdin.take();
    let input = input.to_vec();
    // On a thread of its own: the program may print before it has read it all.
    let writer = std::thread::spawn(move || {
        if let Some(stdin) = &mut stdin {
            for piece in pieces(&input) {
                // A program that has ended leaves the rest unread.
                if stdin.write_all(piece).is_err() {
                    break;
                }
            }
        }
    });
    let output = child.wait_with_output()?;
    let _ = writer.join();
    let mut printed = String::from_utf8_lossy(&output.stdout).into_owned();
    if !output.status.success() {
        printed.push_str(&format!("{}\n", output.status));
    }
    Ok(printed)
}

/// The input in pieces of odd sizes, so that fields lie across their ends.
fn pieces(input: &[u8]) -> impl Iterator<Item = &[u8]> {
    const SIZES: [usize; 7] = [1, 2, 19, 211, 3001, 40_009, 65_537];
    let mut sizes = SIZES.iter().cycle();
    let mut rest = input;
    std::iter::from_fn(move || {
        let size = rest.len().min(*sizes.next()?);
        let (piece, behind) = rest.split_at(size);
        rest = behind;
        (!piece.is_empty()).then_some(piece)
    })
}
