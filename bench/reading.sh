#!/bin/sh
# Measures the reader of tables beside sqlite3's .import into memory, in one run: for each file the processor time (user and
# system) and the peak of memory of the whole program, and the same of sqlite3. It needs sqlite3 and GNU time.
#
#     bench/reading.sh
#
# A file of 1,000,000 rows of two columns of integers is also read by a plain loop over its bytes (reading.rs, built by rustc),
# and both say the time of reading alone. Four files have 1,000,000 rows of three columns: integers; short texts; quoted texts
# with doubled quotes; decimals. One of short texts has 64 MiB, and three are hostile: commas alone, one quoted field without an
# end, records without a value.
# With TABLES=PROGRAM it runs that build of tables.txt.
set -e
here=$(cd "$(dirname "$0")" && pwd)
work=$(mktemp -d)
trap 'rm -rf "$work"' EXIT
if [ -z "$TABLES" ]; then
    TABLES="$work/tables"
    KEEP="$TABLES" "$here/tables.sh" > /dev/null
fi
cd "$work"
# Pseudo-random numbers below 1,000,000, and words of 3 to 12 letters made from them.
made='function r() { s = (s * 16807) % 2147483647; return s % 1000000 }
    function w(  n, t) { n = 3 + r() % 10; t = ""; while (n-- > 0) t = t sprintf("%c", 97 + r() % 26); return t }
    function word() { return words[r() % 5000] }
    BEGIN { s = 7; for (i = 0; i < 5000; i++) words[i] = w(); q = "\""; f = 1000000'
awk "$made; print \"id,a,b\"; for (i = 0; i < f; i++) print i \",\" r() \",-\" (1 + r()) r() }" > integers.csv
awk "$made; print \"id,a\"; for (i = 0; i < f; i++) print i \",\" r() }" > pairs.csv
awk "$made; print \"id,name,city\"; for (i = 0; i < f; i++) print i \",\" word() \",\" word() \" \" word() }" > texts.csv
awk "$made; print \"id,name,note\"; for (i = 0; i < f; i++)
    print i \",\" q word() \", \" word() q \",\" q word() \" \" q q word() q q \" x\" q }" > quoted.csv
awk "$made; print \"id:int,price:dec2,rate:dec6\"; for (i = 0; i < f; i++)
    printf \"%d,%d.%02d,%d.%06d\\n\", i, r(), r() % 100, r() % 1000, r() }" > decimals.csv
awk "$made; print \"id,name,city\"; for (i = 0; i < 2037000; i++) print i \",\" word() \",\" word() \" \" word() }" > long.csv
head -c 67108864 /dev/zero | tr '\0' ',' > commas.csv
{ printf 'x\n"'; head -c 67108860 /dev/zero | tr '\0' 'a'; } > endless.csv
{ echo a,b,c,d; yes ,,, | head -n 4000000; } > nulls.csv
rustc -O -o reading "$here/reading.rs"
for round in 1 2 3 4 5; do
    "$TABLES" pairs.csv | grep '^time of '
done
./reading pairs.csv
for file in integers texts quoted decimals long commas endless nulls; do
    size=$(stat -c %s $file.csv)
    /usr/bin/time -f "$file ($size bytes): %U + %S s, %M KB" "$TABLES" $file.csv | grep -v '^time of '
    case $file in
        integers | texts | quoted | decimals | long)
            /usr/bin/time -f "    sqlite3: %U + %S s, %M KB" sqlite3 :memory: '.mode csv' ".import $file.csv t" ;;
    esac
done
