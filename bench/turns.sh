#!/bin/sh
# Measures the turns of a board beside a mutex a module, with 1, 2 and 4 threads on one module and on four, and prints
# nanoseconds of a turn by the clock.
set -e
here=$(cd "$(dirname "$0")" && pwd)
sh "$here/run-one.sh" turns 'turn_board: atomic_table
board_cases: turn_board atomic_table
turns_bench: turn_board board_cases atomic_table anyhow' turn_board board_cases
made=$(mktemp -d)
trap 'rm -rf "$made"' EXIT
${RUSTC:-rustc} -O -o "$made/turns" "$here/turns.rs"
"$made/turns"
