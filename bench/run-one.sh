#!/bin/sh
# Builds and runs a Rattle program of this folder: `run-one.sh NAME 'LINES OF crates.txt' CRATES..`. The program lies here
# as NAME.txt, since a .rt file stands only in a crate: it is made a crate NAME_bench of a copy of this repository's crates
# that it stands on, which is proved, built and run, and then taken away. What it prints behind `kind` is shown.
set -e
here=$(cd "$(dirname "$0")" && pwd)
top=$(dirname "$here")
name=$1
lines=$2
shift 2
work=$(mktemp -d)
trap 'rm -rf "$work"' EXIT
mkdir -p "$work/crates/${name}_bench/src" "$work/crates/${name}_bench/specs" "$work/crates/${name}_bench/proofs"
for crate in "$@"; do cp -r "$top/crates/$crate" "$work/crates/"; done
cp "$top/HANDLES" "$work/"
printf '%s\n' "$lines" > "$work/crates.txt"
cp "$here/$name.txt" "$work/crates/${name}_bench/src/main.rt"
: > "$work/crates/${name}_bench/specs/Lib.antt"
: > "$work/crates/${name}_bench/proofs/Lib.antt"
if [ -d "$here/$name.proofs" ]; then
    cp -r "$here/$name.proofs/." "$work/crates/${name}_bench/proofs/"
    find "$work/crates/${name}_bench/proofs" -name '*.txt' | while read -r file; do mv "$file" "${file%.txt}.antt"; done
fi
(cd "$work/crates/${name}_bench" && rt run > "$work/said" 2>&1) || { cat "$work/said"; exit 1; }
grep '^kind' "$work/said"
