#!/bin/sh
# Measures a state module beside a plain loop over a hash table of the same kind, in one run, and prints nanoseconds of
# processor time a row. The program takes its making of blocks and tuples from engine_cases.
set -e
here=$(cd "$(dirname "$0")" && pwd)
top=$(dirname "$here")
work=$(mktemp -d)
trap 'rm -rf "$work"' EXIT
low='sq_value sq_token sq_parse sq_expr catalogue table_csv sq_bind bag_meaning tuple_span eddy_meaning stem_index routing_rules
predicate_cache select_module stem_module case_kit'
bench=$work/crates/modules_bench
mkdir -p "$bench/src" "$bench/specs" "$bench/proofs"
for crate in $low; do
    cp -r "$top/crates/$crate" "$work/crates/"
    grep "^$crate:" "$top/crates.txt" >> "$work/crates.txt"
done
echo "modules_bench: $(echo $low) sqlite_items csv indexmap arrayvec anyhow" >> "$work/crates.txt"
cp "$top/HANDLES" "$work/"
cases=$top/crates/engine_cases
renamed() { sed -e 's/engine_cases/modules_bench/g' "$1"; }
renamed "$cases/src/given.rt" > "$bench/src/given.rt"
renamed "$cases/src/tuples.rt" | sed -e 's/^fn is_legal/pub fn is_legal/; s/^fn built/pub fn built/' > "$bench/src/tuples.rt"
(cd "$cases" && find specs proofs/Lib.antt proofs/TupleLemmas.antt proofs/tuples -type f) \
    | while read -r file; do mkdir -p "$bench/$(dirname "$file")"; renamed "$cases/$file" > "$bench/$file"; done
cp "$here/modules.txt" "$bench/src/main.rt"
(cd "$here/modules.proofs" && find . -name '*.txt') | while read -r file; do
    mkdir -p "$bench/proofs/$(dirname "$file")"
    cp "$here/modules.proofs/$file" "$bench/proofs/${file%.txt}.antt"
done
(cd "$bench" && rt run < /dev/null > "$work/said" 2>&1) || { tail -40 "$work/said"; exit 1; }
grep '^kind' "$work/said"
${RUSTC:-rustc} -O -o "$work/modules" "$here/modules.rs"
"$work/modules"
