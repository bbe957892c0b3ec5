#!/bin/sh
# Measures the routings of `run_one`: an equality join of two tables of 1,000,000 rows, each of which finds one, and a star of
# four, 1,000,000 rows with three tables of 1,000 around them, each under the lottery, pressure and a route script. For each
# the routings, the combinations found, the processor time of `run_one` alone, routings a second of it, and the peak of memory
# of the whole program, tables included. It needs GNU time.
#
#     bench/routings.sh [ROWS]
#
# The Rattle program lies here as a text, since a .rt file stands only in a crate: it is made a crate of a copy of this
# repository's crates that it stands on, which is proved, built and run, and then taken away. With KEEP=FILE the built program
# is copied there; with ROUTINGS=PROGRAM that build is run.
set -e
here=$(cd "$(dirname "$0")" && pwd)
top=$(dirname "$here")
rows=${1:-1000000}
work=$(mktemp -d)
trap 'rm -rf "$work"' EXIT
if [ -z "$ROUTINGS" ]; then
    crate="$work/crates/routings_bench"
    mkdir -p "$crate/src" "$crate/specs"
    low='sq_value outside catalogue table_csv sq_token sq_parse stem_index sq_expr sq_bind bag_meaning tuple_span eddy_meaning eddy_runs
        routing_rules predicate_cache select_module scan_source index_source eddy_acts claim_order stem_module route_policy told_calls eddy_core'
    for name in $low; do
        cp -r "$top/crates/$name" "$work/crates/"
        grep "^$name:" "$top/crates.txt" >> "$work/crates.txt"
    done
    cp "$top/HANDLES" "$work/"
    echo "routings_bench:" $low lru sqlite_items csv arrayvec indexmap rand_core rand_pcg anyhow >> "$work/crates.txt"
    cp "$here/routings.txt" "$crate/src/main.rt"
    cp -r "$here/routings.proofs" "$crate/proofs"
    find "$crate/proofs" -name '*.txt' | while read -r file; do mv "$file" "${file%.txt}.antt"; done
    : > "$crate/specs/Lib.antt"
    (cd "$crate" && rt run < /dev/null > "$work/built" 2>&1) || { tail -30 "$work/built"; exit 1; }
    ROUTINGS="$work/routings"
    cp "$crate/out/routings_bench" "$ROUTINGS"
fi
if [ -n "$KEEP" ]; then cp "$ROUTINGS" "$KEEP"; fi
cd "$work"
awk -v n="$rows" 'BEGIN { print "id,v"; for (i = 0; i < n; i++) print (i * 7919) % n "," i }' > left.csv
awk -v n="$rows" 'BEGIN { print "id,w"; for (i = 0; i < n; i++) print i "," n - i }' > right.csv
awk -v n="$rows" 'BEGIN { print "x,y,z"; for (i = 0; i < n; i++) print i % 1000 "," (i * 7) % 1000 "," (i * 13) % 1000 }' > facts.csv
awk 'BEGIN { print "id,v"; for (i = 0; i < 1000; i++) print i "," 1000 - i }' > around.csv
for policy in lottery pressure v0; do
    /usr/bin/time -f '    %M KB' "$ROUTINGS" "$policy" 'SELECT v FROM a, b WHERE a.id = b.id' left.csv right.csv | sed 's/^/join, /'
done
for policy in lottery pressure v0,v1,v2; do
    /usr/bin/time -f '    %M KB' "$ROUTINGS" "$policy" 'SELECT x FROM a, b, c, d WHERE a.x = b.id AND a.y = c.id AND a.z = d.id' \
        facts.csv around.csv around.csv around.csv | sed 's/^/star, /'
done
