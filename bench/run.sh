#!/usr/bin/env bash
# Builds everything, measures, and prints the tables in Markdown.
#   SEED=1          the seed of the inputs
#   SECONDS_EACH=8  about how long each measurement of one book is repeated
#   RUNS=11         how often each program runs on a file
# The proved static library and the program `settle` are taken from the repository's target/, and proved and built where they are missing.
set -euo pipefail
cd "$(dirname "${BASH_SOURCE[0]}")"
seed=${SEED:-1}
runs=${RUNS:-11}
programs=target/release
fresh=target/fresh/release/fresh-settle
library=target/library/release/library-settle
settle=../target/bin/settle

[[ -f ../target/staticlib/libsettlement_book.a ]] || ../library/build >&2
[[ -x $settle ]] || ../program/build settle >&2
cargo build --release --offline --quiet
CARGO_TARGET_DIR=target/fresh cargo build --release --offline --quiet --manifest-path ../rust/Cargo.toml
CARGO_TARGET_DIR=target/library cargo build --release --offline --quiet --manifest-path ../library/Cargo.toml

inputs=$(mktemp -d)
trap 'rm -rf "$inputs"' EXIT
"$programs/month-file" 16 "$seed" >"$inputs/month-16"
"$programs/month-file" 60 "$seed" >"$inputs/month-60"

"$programs/measure" --seed "$seed" --seconds "${SECONDS_EACH:-8}"
"$programs/growth" "$seed"
"$programs/places" "$seed"

printf '\n## Programs on the file of the typical month with 16 points (%s bytes)\n\n' "$(stat -c %s "$inputs/month-16")"
"$programs/time-programs" "$inputs/month-16" "$runs" \
    "settle=$settle" \
    "library-settle=$library" \
    "twin-settle=$programs/twin-settle" \
    "fresh-settle=$fresh" \
    "sqlite-settle, in memory=$programs/sqlite-settle" \
    "sqlite-settle --sums, in memory=$programs/sqlite-settle --sums" \
    "sqlite-settle --sums, on disk=$programs/sqlite-settle --sums --disk $inputs"

printf '\n## Programs on the file of the typical month with 60 points (%s bytes)\n\n' "$(stat -c %s "$inputs/month-60")"
"$programs/time-programs" "$inputs/month-60" "$runs" \
    "library-settle=$library --most-points 256" \
    "twin-settle=$programs/twin-settle --most-points 256" \
    "sqlite-settle, in memory=$programs/sqlite-settle" \
    "sqlite-settle --sums, in memory=$programs/sqlite-settle --sums" \
    "sqlite-settle --sums, on disk=$programs/sqlite-settle --sums --disk $inputs"
