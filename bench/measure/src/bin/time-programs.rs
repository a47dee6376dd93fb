//! `time-programs FILE RUNS NAME=COMMAND...` runs each command with the file as
//! standard input, compares what they print and prints a table of the best times
//! in Markdown. A command is a program and its arguments, apart by spaces.

use std::fs::File;
use std::process::{Command, ExitCode};
use std::time::Instant;

fn main() -> ExitCode {
    let arguments: Vec<String> = std::env::args().skip(1).collect();
    let [file, runs, commands @ ..] = &arguments[..] else {
        eprintln!("time-programs FILE RUNS NAME=COMMAND...");
        return ExitCode::FAILURE;
    };
    match time_all(file, runs.parse().unwrap_or(3), commands) {
        Ok(()) => ExitCode::SUCCESS,
        Err(slip) => {
            eprintln!("{slip}");
            ExitCode::FAILURE
        }
    }
}

struct Timed<'a> {
    name: &'a str,
    command: &'a str,
    best: f64,
}

/// The programs take turns, so that all of them meet the machine's better moments.
fn time_all(file: &str, runs: u32, commands: &[String]) -> Result<(), String> {
    let mut programs = Vec::new();
    for command in commands {
        let (name, command) = command.split_once('=').ok_or("a command has no name")?;
        programs.push(Timed {
            name,
            command,
            best: f64::INFINITY,
        });
    }
    let mut wanted: Option<Vec<u8>> = None;
    for _ in 0..runs.max(1) {
        for program in &mut programs {
            let (seconds, printed) = run(file, program.command)?;
            program.best = program.best.min(seconds);
            if printed != *wanted.get_or_insert_with(|| printed.clone()) {
                let name = program.name;
                return Err(format!(
                    "{name} prints something else than the first program"
                ));
            }
        }
    }
    println!("| program | seconds (best of {runs}) | times the first |");
    println!("|---|---:|---:|");
    for Timed { name, best, .. } in &programs {
        println!("| {name} | {best:.4} | {:.2} |", best / programs[0].best);
    }
    Ok(())
}

fn run(file: &str, command: &str) -> Result<(f64, Vec<u8>), String> {
    let input = File::open(file).map_err(|e| format!("{file}: {e}"))?;
    let mut words = command.split_whitespace();
    let program = words.next().ok_or("a command is empty")?;
    let start = Instant::now();
    let output = Command::new(program)
        .args(words)
        .stdin(input)
        .output()
        .map_err(|e| format!("{program}: {e}"))?;
    let seconds = start.elapsed().as_secs_f64();
    if !output.status.success() {
        return Err(format!("{command}: {}", output.status));
    }
    Ok((seconds, output.stdout))
}
