#!/bin/sh
# Measures the indexes beside the maps of Rust's standard library, in one run, and prints nanoseconds of processor time. A
# kind of keys is 0: random, 1: rising, 2: all equal, 3: texts of random numbers, 4: chosen to meet in one slot, 5 and 6: 832,040 i and
# 102,334,155 i, which meet in few slots by accident, 7: chosen to meet 256 at a time, 8: texts with one word.
set -e
here=$(cd "$(dirname "$0")" && pwd)
sh "$here/run-one.sh" indexes 'sq_value: arrayvec
stem_index: sq_value
indexes_bench: sq_value stem_index anyhow' sq_value stem_index
made=$(mktemp -d)
trap 'rm -rf "$made"' EXIT
${RUSTC:-rustc} -O -o "$made/indexes" "$here/indexes.rs"
"$made/indexes"
