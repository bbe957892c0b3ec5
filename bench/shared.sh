#!/bin/sh
# Measures the benchmark's sixty small queries one after another and together (--shared), by one worker and by four: the built
# program's processor seconds and seconds by the clock, each the median of REPEAT runs, all in turn, and its greatest peak of memory.
#
#     bench/shared.sh [--program FILE] [--scale 1] [--seed 1]
#
# The queries are the workload `small` of bench/engines, and all of them read the same two tables: of 1,000 rows each at scale 1.
# Answers are compared, and the status is 1 where one differs. It needs Python.
set -e
here=$(cd "$(dirname "$0")" && pwd)
work=$(mktemp -d)
trap 'rm -rf "$work"' EXIT
status=0
python3 "$here/engines" --only =small --without sqlite3 PostgreSQL Miller awk --repeat "${REPEAT:-21}" --raw "$work/raw" "$@" \
    --also 'together=--shared' --also 'four workers=--workers 4' --also 'four workers, together=--workers 4 --shared' \
    > /dev/null 2> "$work/notes" || status=$?
[ -s "$work/raw" ] || { cat "$work/notes" >&2; exit 2; }
grep -e ': failed' -e ': late' "$work/notes" >&2 || true
python3 - "$work/raw" <<'END'
import json
import sys

said = json.load(open(sys.argv[1], encoding="utf-8"))
took = {name.removeprefix("eddyql").strip() or "one worker": it for name, it in said["workloads"][0]["engines"].items()}
if not took:
    sys.exit("bench/shared.sh: the program isn't built: tools/prove")
print("| sixty queries | processor | clock | memory | answers |\n|---|---:|---:|---:|---|")
for name, it in took.items():
    print(f"| {name} | {it['processor'] * 1000:.0f} ms | {it['clock'] * 1000:.0f} ms | {it['memory'] / 1024:.0f} MB | {it['what']} |")
for first, second in (("one worker", "together"), ("four workers", "four workers, together")):
    if first in took and second in took:
        ratio = {it: took[second][it] / max(took[first][it], 1e-9) for it in ("processor", "clock", "memory")}
        print(f"{second} beside {first}: " + ", ".join(f"{it} {ratio[it]:.2f}" for it in ratio))
END
exit "$status"
