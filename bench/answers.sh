#!/bin/sh
# Measures the order and the text of an answer of 1,000,000 rows beside a plain Rust program, in one run, and prints
# microseconds of processor time:
#
#     bench/answers.sh
#
# ORDER BY a text and an integer is put beside std's sort of the bare keys (texts of one long beginning and 1,000,000
# endings, and 5,000 short texts), and 1,000,000 records of six integers written into a file beside the same writes.
# The lines 'by 1', 'by 2' and 'by 4' are microseconds by the clock, with so many threads.
# The measurement is a test in a copy of result_sink, since the tests there have the blocks and tables that it takes.
set -e
here=$(cd "$(dirname "$0")" && pwd)
top=$(dirname "$here")
work=$(mktemp -d)
trap 'rm -rf "$work"' EXIT
mkdir -p "$work/crates"
for crate in sq_value outside sq_expr bag_meaning result_sink; do
    (cd "$top/crates" && tar cf - --exclude=out "$crate") | (cd "$work/crates" && tar xf -)
done
cp "$top/HANDLES" "$work/"
grep -E '^(sq_value|outside|sq_expr|bag_meaning|result_sink):' "$top/crates.txt" > "$work/crates.txt"
sink="$work/crates/result_sink"
cat "$here/answers.txt" >> "$sink/src/tests.rt"
for loop in many measured_table; do
    mkdir -p "$sink/proofs/tests/$loop"
    cp "$here/answers-$loop.txt" "$sink/proofs/tests/$loop/Invariants.antt"
done
for measured in measure_order_by measure_text_by; do
    mkdir -p "$sink/proofs/tests/$measured"
    cp "$here/answers-$measured.txt" "$sink/proofs/tests/$measured/Answers.antt"
done
(cd "$sink" && rt test 2>&1 | grep -E '^ *(order|text)|: not proved|no proof|test result')
cd "$work"
${RUSTC:-rustc} -O -o answers "$here/answers.rs"
./answers
