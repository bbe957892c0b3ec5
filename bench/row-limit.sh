#!/bin/sh
# Reads a table of 4,000,000 rows, which is taken, and one of 4,000,001, which is refused:
#
#     bench/row-limit.sh
#
# It says nothing but 'as it should be' where both answers are right. With TABLES=PROGRAM it runs that build of tables.txt.
set -e
here=$(cd "$(dirname "$0")" && pwd)
work=$(mktemp -d)
trap 'rm -rf "$work"' EXIT
if [ -z "$TABLES" ]; then
    TABLES="$work/tables"
    KEEP="$TABLES" "$here/tables.sh" > /dev/null
fi
for rows in 4000000 4000001; do
    { echo x; yes 0 | head -n $rows; } > "$work/$rows.csv"
done
printf '%s\n' '4000000.csv: 4000000 rows; nulls: x 0' '4000001.csv: TooManyRows' > "$work/want"
(cd "$work" && "$TABLES" 4000000.csv 4000001.csv) | grep -v '^time of ' > "$work/got"
diff "$work/want" "$work/got" && echo 'as it should be'
