#!/bin/sh
# Reads the CSV files that are named as tables, and prints of each its rows, the nulls of each column, and the
# microseconds of processor time that the reading took:
#
#     bench/tables.sh FILE..
#
# The Rattle program lies here as a text, since a .rt file stands only in a crate: it is made a crate of a copy of this
# repository, which is proved, built and run, and then taken away. With KEEP=FILE the built program is copied there.
set -e
here=$(cd "$(dirname "$0")" && pwd)
top=$(dirname "$here")
work=$(mktemp -d)
trap 'rm -rf "$work"' EXIT
mkdir -p "$work/crates/table_bench/src" "$work/crates/table_bench/specs" "$work/crates/table_bench/proofs"
for crate in sq_value outside table_csv; do
    (cd "$top/crates" && tar cf - --exclude=out "$crate") | (cd "$work/crates" && tar xf -)
done
cp "$top/HANDLES" "$work/"
grep -E '^(sq_value|outside|table_csv):' "$top/crates.txt" > "$work/crates.txt"
echo 'table_bench: sq_value outside table_csv anyhow' >> "$work/crates.txt"
cp "$here/tables.txt" "$work/crates/table_bench/src/main.rt"
: > "$work/crates/table_bench/specs/Lib.antt"
: > "$work/crates/table_bench/proofs/Lib.antt"
(cd "$work/crates/table_bench" && rt run < /dev/null > "$work/built" 2>&1) || { tail -20 "$work/built"; exit 1; }
if [ -n "$KEEP" ]; then
    cp "$work/crates/table_bench/out/table_bench" "$KEEP"
fi
"$work/crates/table_bench/out/table_bench" "$@"
