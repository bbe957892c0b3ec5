#!/bin/sh
# Measures what a cache of predicates' answers is worth: 1,000,000 rows with 1,000 pairs of integers, one after another, each put to
# a predicate by the one condition of a statement. A call makes so many atomic additions: 0 is as cheap as a call can be. For each
# price and each room of the cache the hits, the additions, and the processor time of `run_one_cached`.
#
#     bench/cache.sh
#
# The Rattle program lies here as a text, since a .rt file stands only in a crate: it is made a crate of a copy of this
# repository's crates that it stands on, which is proved, built and run, and then taken away. With KEEP=FILE the built program
# is copied there; with CACHE=PROGRAM that build is run.
set -e
here=$(cd "$(dirname "$0")" && pwd)
top=$(dirname "$here")
work=$(mktemp -d)
trap 'rm -rf "$work"' EXIT
if [ -z "$CACHE" ]; then
    crate="$work/crates/cache_bench"
    mkdir -p "$crate/src" "$crate/specs" "$crate/proofs"
    low='sq_value outside catalogue table_csv sq_token sq_parse stem_index sq_expr sq_bind bag_meaning tuple_span eddy_meaning eddy_runs
        routing_rules predicate_cache select_module scan_source index_source eddy_acts claim_order stem_module route_policy told_calls eddy_core
        case_kit'
    for name in $low; do
        cp -r "$top/crates/$name" "$work/crates/"
        grep "^$name:" "$top/crates.txt" >> "$work/crates.txt"
    done
    cp "$top/HANDLES" "$work/"
    echo "cache_bench:" $low lru sqlite_items csv arrayvec indexmap rand_core rand_pcg anyhow >> "$work/crates.txt"
    cp "$here/cache.txt" "$crate/src/main.rt"
    : > "$crate/specs/Lib.antt"
    : > "$crate/proofs/Lib.antt"
    (cd "$crate" && rt run < /dev/null > "$work/built" 2>&1) || { tail -30 "$work/built"; exit 1; }
    CACHE="$work/cache"
    cp "$crate/out/cache_bench" "$CACHE"
fi
if [ -n "$KEEP" ]; then cp "$CACHE" "$KEEP"; fi
for additions in 0 10 100 1000; do
    for room in 0 999 1000; do
        "$CACHE" "$room" "$additions" | sed "s/^/$additions additions a call, /"
    done
done
