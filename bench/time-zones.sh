#!/bin/sh
# Reads the five tables of time zones of a folder (country.csv, zone.csv, era.csv, rule.csv and link.csv, made from tzdata
# 2026f) and compares their rows and nulls with those that were counted otherwise:
#
#     bench/time-zones.sh FOLDER
#
# It says nothing but 'as counted' where all agree. With TABLES=PROGRAM it runs that build of tables.txt.
set -e
here=$(cd "$(dirname "$0")" && pwd)
folder=$1
work=$(mktemp -d)
trap 'rm -rf "$work"' EXIT
cat > "$work/want" <<'END'
country.csv: 249 rows; nulls: code 0 name 0
zone.csv: 418 rows; nulls: country 0 coordinates 0 tz 0 comments 216
era.csv: 2320 rows; nulls: tz 0 seq 0 offset 0 rule 1420 format 0 until_year 447 until_rest 917
rule.csv: 2055 rows; nulls: rule 0 from_year 0 to_year 46 month 0 day 0 time 0 save 0 letter 805
link.csv: 151 rows; nulls: alias 0 target 0
END
if [ -z "$TABLES" ]; then
    TABLES="$work/tables"
    KEEP="$TABLES" "$here/tables.sh" > /dev/null
fi
(cd "$folder" && "$TABLES" country.csv zone.csv era.csv rule.csv link.csv) | grep -v '^time of ' > "$work/got"
diff "$work/want" "$work/got" && echo 'as counted'
