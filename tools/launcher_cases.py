"""Words of the launcher's own, with what it makes of the files, before a program that writes the files that it is given.

The program writes each file, and after it the table's name in brackets.
"""

FILES = {
    "q.sql": b"SELECT\n",
    "na.csv": b"a,b\nN/A,1\n-,N/A\n\"N/A\",-1\n",
    "bare.csv": b"7,x\n\n8\n",
    "long.csv": b"a,b\n1\n1,2,3\n",
    "twice.csv": b"id,Name,name,ID:int,name_2\n1,2,3,4,5\n",
    "german.csv": "k;Preis;Stück;Ort;lang\n1;1.234,50;1.000;Köln, Süd;1,1234567\n2;-7,5;;;2\n".encode("latin1"),
    "wide.csv": "id,n\n1,\u00e9\n".encode("utf-16"),
    "latin.csv": b"id,n\n1,J\xf6rg\n",
    "part-1.csv": b"id,v\n1,a",
    "part-2.csv": b"ID,V\n\n2,b\n",
    "part-3.csv": b"id,w\n3,c\n",
    "2026-prices.csv": b"a\n1\n",
    "list.json": b'[{"a":1}]\n',
    "lines.json": b'{"a":1}\n',
    "book.csv": b"PK\x03\x04rest",
    "square.csv": b"[a],[b]\n1,2\n",
    "hidden.csv": b"\x1f\x8b\x08rest",
    "junk.csv.xz": b"junk",
    "junk.csv.zst": b"junk",
    "named.sql": b'SELECT "2026-prices".a AS "2026-prices", \'"2026-prices"\' FROM "2026-Prices"\n',
}

# (what is tried, the words, the status, standard output, standard error, the program's lines aside)
CASES = [
    ("nulls", ["-v", "--null", "N/A", "--null=-", "q.sql", "na.csv"], 0, "a,b\n,1\n,\n,-1\n[na]\n",
     "eddyql: na.csv: 1 field - read as null\neddyql: na.csv: 3 fields N/A read as null\n"),
    ("no heading", ["-v", "--no-header", "q.sql", "t=bare.csv"], 0, "c1,c2\n7,x\n\n8\n[t]\n", "eddyql: bare.csv: its columns are c1 to c2\n"),
    ("short records", ["-v", "--ragged", "--no-header", "q.sql", "bare.csv"], 0, "c1,c2\n7,x\n8,\n[bare]\n",
     "eddyql: bare.csv: its columns are c1 to c2\neddyql: bare.csv: 1 short record ends in nulls\n"),
    ("a record that is too long", ["--ragged", "q.sql", "long.csv"], 0, "a,b\n1,\n1,2,3\n[long]\n", ""),
    ("names that are there twice", ["-v", "--rename", "q.sql", "twice.csv"], 0, "id,Name,name_3,ID_2:int,name_2\n1,2,3,4,5\n[twice]\n",
     "eddyql: twice.csv: column 3, name, is name_3\neddyql: twice.csv: column 4, ID, is ID_2\n"),
    ("decimal commas", ["-v", "--separator", ";", "--decimal-comma", "--encoding", "latin1", "q.sql", "german.csv"], 0,
     'k,Preis:dec2,Stück,Ort,lang\n1,1234.50,1.000,"Köln, Süd","1,1234567"\n2,-7.5,,,2\n[german]\n',
     "eddyql: german.csv: lang has 7 digits after its comma, and stays a text: a decimal has 6\neddyql: german.csv: decimal commas in Preis\n"),
    ("a type beside decimal commas", ["--separator", ";", "--decimal-comma", "--encoding", "latin1", "--type", "german.Stück=int", "q.sql", "german.csv"], 0,
     'k,Preis:dec2,Stück:int,Ort,lang\n1,1234.50,1000,"Köln, Süd","1,1234567"\n2,-7.5,,,2\n[german]\n', ""),
    ("UTF-16", ["--encoding", "utf-16", "q.sql", "wide.csv"], 0, "id,n\n1,é\n[wide]\n", ""),
    ("an encoding that isn't known", ["--explain-faults", "--encoding", "nope", "q.sql", "wide.csv"], 2, "",
     "usage: eddyql [OPTIONS] SCRIPT NAME=FILE.. or eddyql [OPTIONS] --demo ROWS\n"
     "  --encoding is one that python3 knows, as latin1, windows-1252 or utf-16: nope; eddyql --help has the words\n"),
    ("bytes of another encoding", ["--encoding", "ascii", "q.sql", "latin.csv"], 4, "", "eddyql: latin.csv: byte 8 isn't of ascii\n"),
    ("several files", ["-v", "q.sql", "part=part-1.csv", "part=part-2.csv"], 0, "id,v\n1,a\n\n2,b\n[part]\n", "eddyql: part-1.csv part-2.csv: 2 files\n"),
    ("a pattern", ["q.sql", "part=part-[12].csv", "--null", "b"], 0, "id,v\n1,a\n2,\n[part]\n", ""),
    ("files of two forms", ["q.sql", "part=part-*.csv"], 4, "", "eddyql: part-3.csv: its heading isn't that of the files before it: id, w\n"),
    ("a file whose name is none", ["-v", "named.sql", "2026-prices.csv"], 0, "a\n1\n[_2026_prices_]\n", 'eddyql: 2026-prices.csv is the table "2026-prices"\n'),
    ("JSON", ["q.sql", "list.json"], 4, "", "eddyql: list.json is JSON, and a table is CSV: jq -r '.[] | [.id, .name] | @csv' makes one, without its heading\n"),
    ("lines of JSON", ["q.sql", "lines.json"], 4, "", "eddyql: lines.json is JSON, and a table is CSV: jq -r '.[] | [.id, .name] | @csv' makes one, without its heading\n"),
    ("a spreadsheet", ["q.sql", "book.csv"], 4, "", "eddyql: book.csv is a zip file, as spreadsheets are, and a table is CSV\n"),
    ("packed bytes without the ending", ["q.sql", "hidden.csv"], 4, "", "eddyql: hidden.csv is packed by gzip: give it a name that ends with .gz\n"),
    ("a heading in square brackets", ["q.sql", "square.csv"], 0, "[a],[b]\n1,2\n[square]\n", ""),
    ("two forms of answers", ["--table", "--explain-faults", "--json", "q.sql", "na.csv"], 2, "",
     "usage: eddyql [OPTIONS] SCRIPT NAME=FILE.. or eddyql [OPTIONS] --demo ROWS\n  --json goes without --table; eddyql --help has the words\n"),
    ("an option without its value", ["--explain-faults", "q.sql", "na.csv", "--null"], 2, "",
     "usage: eddyql [OPTIONS] SCRIPT NAME=FILE.. or eddyql [OPTIONS] --demo ROWS\n  --null has no value; eddyql --help has the words\n"),
    ("no words", [], 2, "",
     "usage: eddyql [OPTIONS] SCRIPT NAME=FILE.. or eddyql [OPTIONS] --demo ROWS\n  a first question, of a file of your own:\n"
     "      eddyql -c 'SELECT * FROM orders LIMIT 5' orders.csv\n"
     "  eddyql tables orders.csv shows the columns, eddyql orders.csv on a terminal asks for questions, and eddyql --help has all words\n"),
    ("a table alone", ["2026-prices.csv"], 2, "",
     "usage: eddyql [OPTIONS] SCRIPT NAME=FILE.. or eddyql [OPTIONS] --demo ROWS\n  2026-prices.csv is a table; a first question:\n"
     "      eddyql -c 'SELECT * FROM \"2026-prices\" LIMIT 5' 2026-prices.csv\n"
     "  eddyql tables 2026-prices.csv shows the columns, eddyql 2026-prices.csv on a terminal asks for questions, and eddyql --help has all words\n"),
]

# Answers as a program writes them, of the script and the table, and the other forms of these.
SCRIPT = b"SELECT * FROM t; SELECT name n, MIN(name), COUNT(*) AS k, SUM(cost) FROM t GROUP BY name; SELECT t.code FROM t u, t WHERE u.id > 9\n"
TABLE = b'id,name,cost:dec2,code:text\n1,07,2.5,7\n2,"8|9",,8\n'
ANSWERS = 'id,name,cost,code\n1,07,2.50,7\n2,8|9,,8\n\nn,min,k,sum\n07,07,1,2.50\n"a\n\nb",é,1,\n\ncode\n""\n'
FORMS = {
    "--table": 'id  name  cost  code\n--  ----  ----  ----\n 1  07    2.50  7\n 2  8|9         8\n\nn     min  k   sum\n----  ---  -  ----\n07    07   1  2.50\n'
               'a  b  é    1\n\ncode\n----\n\n',
    "--json": '[\n{"id":1,"name":"07","cost":2.50,"code":"7"},\n{"id":2,"name":"8|9","cost":null,"code":"8"}\n]\n\n'
              '[\n{"n":"07","min":"07","k":1,"sum":2.50},\n{"n":"a\\n\\nb","min":"é","k":1,"sum":null}\n]\n\n[\n{"code":null}\n]\n',
    "--markdown": "| id | name | cost | code |\n| --: | --- | --: | --- |\n| 1 | 07 | 2.50 | 7 |\n| 2 | 8\\|9 |  | 8 |\n\n"
                  "| n | min | k | sum |\n| --- | --- | --: | --: |\n| 07 | 07 | 1 | 2.50 |\n| a  b | é | 1 |  |\n\n| code |\n| --- |\n|  |\n",
}

# Columns of a table, and what is said of those that nearly are numbers.
WARNED = b'id,price,temp,zip,q,big,plus,comma,mixed\n' + b"".join(
    b"%d,%s,%s,%05d,%s,%s,%s,%s,%s\n" % (it, b"2.50" if it == 4 else b"%d" % it, b"1e3" if it == 2 else b"7", it, b"N/A" if it == 7 else b"%d" % it,
                                        b"1.1234567" if it == 1 else b"2", b"+7" if it == 3 else b"%d" % it, b'"1,5"' if it == 5 else b"2", b"x" if it < 3 else b"5")
    for it in range(1, 11))
WARNINGS = {
    "SELECT id FROM w ORDER BY price": "ORDER BY price compares texts, sign by sign: 10 of 10 are numbers, with up to 2 digits after the point: --type w.price=dec2 reads them",
    "SELECT price AS p FROM w ORDER BY p DESC": "ORDER BY price compares texts, sign by sign: 10 of 10 are numbers, with up to 2 digits after the point: --type w.price=dec2 reads them",
    "SELECT MAX(q) FROM w": "MAX q compares texts, sign by sign: 9 of 10 are numbers; w.csv:8 has 'N/A': --null N/A reads it as null",
    "SELECT MIN(w.q) m FROM w ORDER BY m": "MIN q compares texts, sign by sign: 9 of 10 are numbers; w.csv:8 has 'N/A': --null N/A reads it as null",
    "SELECT id FROM w x WHERE x.temp NOT BETWEEN '1' AND '2'":
        "BETWEEN temp compares texts, sign by sign: 10 of 10 are numbers; w.csv:3 has '1e3', an exponent, which no type reads: write it out",
    "SELECT id FROM w WHERE '3' < big": "< big compares texts, sign by sign: 10 of 10 are numbers, with up to 7 digits after the point: a decimal has up to 6",
    "SELECT id FROM w WHERE plus >= '3'": ">= plus compares texts, sign by sign: 10 of 10 are numbers; w.csv:4 has '+7': --type w.plus=int reads it",
    "SELECT id FROM w ORDER BY comma": "ORDER BY comma compares texts, sign by sign: 10 of 10 are numbers, some with a decimal comma: --decimal-comma reads them",
    "SELECT id FROM w WHERE q = NULL": "a comparison with NULL is never True: x IS NULL asks for it",
    "SELECT zip, MAX(mixed), q FROM w WHERE id > 3 AND price = '3' AND q IS NOT NULL ORDER BY zip": "",
}
