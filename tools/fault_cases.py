"""Faults made by hand, each with the words, what standard error has of a run with --explain-faults, and the exit status.

The first line is the program's own note, and the lines after it are the launcher's.
"""

FILES = {
    "people.csv": b"id,name,city\n1,Ada,Oslo\n2,Bob,\n",
    "orders.csv": b"oid,person,total\n7,1,120\n8,2,80\n",
    "short.csv": b'id,name\n1,"a\nb"\n\n2\n',
    "marked.csv": b"id,cost:dec2\n1,2.50\n2,2.505\n",
    "twice.csv": b"id,Name,name\n",
    "latin.csv": b"id,name:text\n1,J\xf6rg\n",
    "long.csv": b"1,2\n\n2,3\n3,4,5\n",
    "semi.csv": b"id;name\n1;Ada\n",
    "wide.csv": "id\n1\n".encode("utf-16"),
    "signs.csv": b"id,unit-price\n1,2\n",
    "2026.csv": b"First Name\nAda\n",
    "nearly.csv": b"cost\n2.50\n",
    "empty.csv": b"",
    "bad.csv.gz": b"id,name\n",
    "marked.sql": b"\xef\xbb\xbfSELECT id FROM people\n",
    "v/heading.csv": b"who:int,day:int\n",
    "v/1.csv": b"who:int,day:int\n1,4\n",
    "v/2.csv": b"who:int,day:int\n2,5\n3,6\n",
    "two.sql": "SELECT id FROM people;\n\n-- \u00e9\u00e9\n\tSELECT p.nmae\n\tFROM people p, orders o\n".encode(),
}

# (what is wrong, the words, the status, what is said)
FAULTS = [
    ("a decimal literal", ["-c", "SELECT oid FROM orders WHERE total < 1.5", "orders.csv"], 3, """\
script: syntax at byte 38
  -c:1:39
    SELECT oid FROM orders WHERE total < 1.5
                                          ^
  a script has whole numbers alone: for price < 1.5 write 10 * price < 15
"""),
    ("HAVING", ["-c", "SELECT city FROM people GROUP BY city HAVING city > 'A'", "people.csv"], 3, """\
script: syntax at byte 38
  -c:1:39
    SELECT city FROM people GROUP BY city HAVING city > 'A'
                                          ^
  HAVING isn't in the dialect: run a second script over the answer, with WHERE
"""),
    ("a column that isn't grouped", ["-c", "SELECT name FROM people GROUP BY city", "people.csv"], 3, """\
statement 1: not grouped at byte 7
  -c:1:8
    SELECT name FROM people GROUP BY city
           ^
  with groups a column that is shown or sorted by stands in GROUP BY, or in COUNT, SUM, MIN or MAX
"""),
    ("a column that isn't selected", ["-c", "SELECT DISTINCT name FROM people ORDER BY city", "people.csv"], 3, """\
statement 1: not selected at byte 42
  -c:1:43
    SELECT DISTINCT name FROM people ORDER BY city
                                              ^
  with DISTINCT only what is selected can be sorted by
"""),
    ("LIKE", ["-c", "SELECT id FROM people WHERE name LIKE 'A%'", "people.csv"], 3, """\
script: syntax at byte 33
  -c:1:34
    SELECT id FROM people WHERE name LIKE 'A%'
                                     ^
  LIKE isn't in the dialect: for LIKE 'ab%' write x >= 'ab' AND x < 'ac'
"""),
    ("two signs of equality", ["-c", "SELECT id FROM people WHERE id == 1", "people.csv"], 3, """\
script: syntax at byte 32
  -c:1:33
    SELECT id FROM people WHERE id == 1
                                    ^
  equality is one sign: =
"""),
    ("a curly quote", ["-c", "SELECT id FROM people WHERE name = \u2019Ada\u2019", "people.csv"], 3, """\
script: syntax at byte 35
  -c:1:36
    SELECT id FROM people WHERE name = \u2019Ada\u2019
                                       ^
  a curly quote: a text is between straight ones, 'so'
"""),
    ("a byte order mark", ["marked.sql", "people.csv"], 3, """\
script: syntax at byte 0
  marked.sql:1:1
    SELECT id FROM people
    ^
  the script begins with a byte order mark: save it as UTF-8 without one
"""),
    ("a column's name", ["two.sql", "people.csv", "orders.csv"], 3, """\
statement 2: unknown column at byte 40
  two.sql:4:9
    \tSELECT p.nmae
    \t       ^
  did you mean name?
"""),
    ("a table's name", ["-c", "SELECT id FROM peopel", "people.csv"], 3, """\
statement 1: unknown table at byte 15
  -c:1:16
    SELECT id FROM peopel
                   ^
  did you mean people?
"""),
    ("an alias", ["-c", "SELECT x.id FROM people p", "people.csv"], 3, """\
statement 1: unknown alias at byte 7
  -c:1:8
    SELECT x.id FROM people p
           ^
  there is p
"""),
    ("a name that two tables have", ["-c", "SELECT id FROM people a, people b", "people.csv"], 3, """\
statement 1: ambiguous column at byte 7
  -c:1:8
    SELECT id FROM people a, people b
           ^
  write a.id or b.id
"""),
    ("a text beside a number", ["-c", "SELECT id FROM people WHERE name = 1", "people.csv"], 3, """\
statement 1: type mismatch at byte 28
  -c:1:29
    SELECT id FROM people WHERE name = 1
                                ^
  numbers are compared with numbers, texts with texts, and a sum is of numbers; --type T.C=dec2 reads a column as numbers
"""),
    ("a short record", ["-c", "SELECT id FROM short", "short.csv"], 4, """\
table short: record 2 is unequal
  short.csv:5: 1 field, and the heading has 2: '2'
  --ragged reads what is missing at a record's end as nulls
"""),
    ("a number with too many digits", ["-c", "SELECT id FROM marked", "marked.csv"], 4, """\
table marked: record 2 field 2 is not a decimal
  marked.csv:3: column cost:dec2 is '2.505'
"""),
    ("two columns of one name", ["-c", "SELECT id FROM twice", "twice.csv"], 4, """\
table twice: field 3 repeats a column
  twice.csv:1: column name is there twice; names are compared without regard to case; --rename reads it as name_2
"""),
    ("a file that isn't UTF-8", ["-c", "SELECT id FROM latin", "latin.csv"], 4, """\
table latin: record 1 field 2 is not UTF-8
  latin.csv:2: column name:text is 'J\ufffdrg'
  latin.csv isn't UTF-8 but, by its bytes, latin1: --encoding latin1 reads it
"""),
    ("an empty file", ["-c", "SELECT id FROM empty", "empty.csv"], 4, """\
table empty: no heading
  empty.csv: the file is empty
"""),
    ("a look-up's column", ["--index", "people.ID,orders.persn", "-c", "SELECT id FROM people", "people.csv", "orders.csv"], 4, """\
access 2: no such column
  orders.persn of orders.csv
  did you mean person?
"""),
    ("an alias that nothing reaches", ["--lookup", "orders.person", "-c", "SELECT id FROM people p, orders o WHERE p.id < o.person", "people.csv", "orders.csv"], 3, """\
statement 1: alias 2 is unreachable
  o has a look-up alone, and no equality gives it keys: take --index in place of --lookup
"""),
    ("a file that isn't there", ["-c", "SELECT id FROM people", "p=nosuch.csv"], 5, """\
read fault: table p
  nosuch.csv: No such file or directory
"""),
    ("one file of several that isn't there", ["-c", "SELECT id FROM p", "p=people.csv", "p=nosuch.csv"], 5, """\
read fault: table p
  nosuch.csv: No such file or directory
"""),
    ("a record that is too long", ["--ragged", "--no-header", "-c", "SELECT c1 FROM short", "short.csv", "long.csv"], 4, """\
table long: record 3 is unequal
  long.csv:4: 3 fields, and the heading has 2: '3,4,5'
"""),
    ("a heading with another separator", ["-c", "SELECT id FROM semi", "semi.csv"], 3, """\
statement 1: unknown column at byte 7
  -c:1:8
    SELECT id FROM semi
           ^
  semi.csv: its heading is one field, with ; in it: --separator ';' reads it
"""),
    ("a file in UTF-16", ["-c", "SELECT id FROM wide", "wide.csv"], 4, """\
table wide: record 0 field 1 is not UTF-8
  wide.csv isn't UTF-8 but, by its bytes, utf-16: --encoding utf-16 reads it
"""),
    ("a name that is no word", ["-c", 'SELECT First FROM "2026"', "2026.csv"], 3, """\
statement 1: unknown column at byte 7
  -c:1:8
    SELECT First FROM "2026"
           ^
  did you mean "First Name"?
"""),
    ("a name with a sign in it", ["-c", "SELECT id FROM signs WHERE unit-price > 2", "signs.csv"], 3, """\
statement 1: unknown column at byte 27
  -c:1:28
    SELECT id FROM signs WHERE unit-price > 2
                               ^
  a name that is no plain word is between double quotes: "unit-price"
"""),
    ("a function that isn't there", ["-c", "SELECT id FROM people WHERE contains(name, 'a')", "people.csv"], 3, """\
statement 1: unknown function at byte 28
  -c:1:29
    SELECT id FROM people WHERE contains(name, 'a')
                                ^
  there are no functions of texts: change the file before the run; a text's front is x >= 'ab' AND x < 'ac'
"""),
    ("numbers that are texts", ["-c", "SELECT cost FROM nearly WHERE cost > 1", "nearly.csv"], 3, """\
statement 1: type mismatch at byte 30
  -c:1:31
    SELECT cost FROM nearly WHERE cost > 1
                                  ^
  numbers are compared with numbers, texts with texts, and a sum is of numbers; --type T.C=dec2 reads a column as numbers
  cost of nearly.csv: 1 of 1 are numbers, with up to 2 digits after the point: --type nearly.cost=dec2 reads them
"""),
    ("a file that isn't packed", ["-c", "SELECT id FROM bad", "bad.csv.gz"], 5, """\
read fault: table bad
  bad.csv.gz: Not a gzipped file (b'id')
"""),
    ("an option", ["--polcy", "pressure", "two.sql", "people.csv"], 2, """\
usage: eddyql [OPTIONS] SCRIPT NAME=FILE.. or eddyql [OPTIONS] --demo ROWS
  there is no option --polcy; did you mean --policy? eddyql --help has the words
"""),
    ("an option of other programs", ["--output", "x.csv", "two.sql", "people.csv"], 2, """\
usage: eddyql [OPTIONS] SCRIPT NAME=FILE.. or eddyql [OPTIONS] --demo ROWS
  there is no option --output: an answer is written to a file by > FILE; eddyql --help has the words
"""),
    ("an option of the launcher that is misspelt", ["--tabel", "two.sql", "people.csv"], 2, """\
usage: eddyql [OPTIONS] SCRIPT NAME=FILE.. or eddyql [OPTIONS] --demo ROWS
  there is no option --tabel; did you mean --table? eddyql --help has the words
"""),
    ("no table", ["two.sql"], 2, """\
usage: eddyql [OPTIONS] SCRIPT NAME=FILE.. or eddyql [OPTIONS] --demo ROWS
  a script and at least one table are wanted; eddyql --help has the words
"""),
    ("queries together with a look-up", ["--shared", "--lookup", "people.id", "two.sql", "people.csv"], 2, """\
usage: eddyql [OPTIONS] SCRIPT NAME=FILE.. or eddyql [OPTIONS] --demo ROWS
  --shared goes without --index, --lookup, --remote and --cache; eddyql --help has the words
"""),
    ("a remote's column", ["--remote", "visit.whom=v/", "-c", "SELECT id FROM people", "people.csv"], 4, """\
remote visit: bad heading
  v/heading.csv: a heading alone, where each column has its type, and whom is marked :int
  did you mean who?
"""),
    ("a heading that isn't there", ["--remote", "visit.who=w/", "-c", "SELECT id FROM people", "people.csv"], 5, """\
read fault: heading of visit
  w/heading.csv: No such file or directory
"""),
    ("a key's file with another key", ["--remote", "visit.who=v/", "-c", "SELECT name, day FROM people, visit WHERE id = who", "people.csv"], 4, """\
remote visit key 2: bad file
  v/2.csv: its columns are those of v/heading.csv, and who is 2 in each record
"""),
    ("a remote that nothing reaches", ["--remote", "visit.who=v/", "-c", "SELECT id FROM people p, visit v WHERE p.id < v.who", "people.csv"], 3, """\
statement 1: alias 2 is unreachable
  v is a remote, and no equality gives it keys
"""),
    ("a column of a remote", ["--remote", "visit.who=v/", "-c", "SELECT dya FROM people, visit WHERE id = who", "people.csv"], 3, """\
statement 1: unknown column at byte 7
  -c:1:8
    SELECT dya FROM people, visit WHERE id = who
           ^
  did you mean day?
"""),
    ("queries together with a remote", ["--shared", "--remote", "visit.who=v/", "two.sql", "people.csv"], 2, """\
usage: eddyql [OPTIONS] SCRIPT NAME=FILE.. or eddyql [OPTIONS] --demo ROWS
  --shared goes without --index, --lookup, --remote and --cache; eddyql --help has the words
"""),
]
