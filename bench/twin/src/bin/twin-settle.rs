//! Reads a settlement file from standard input and prints what `settle` prints.
//! `--most-points N` lets a file have more than the 16 points of `settle`.

fn main() -> std::io::Result<std::process::ExitCode> {
    settlement_file::program::<twin::Book>("twin-settle")
}
