"""The workloads: tables made of a seed, the statement over them, and what the peers that speak no SQL do in its place.

A workload has a name, a line on what it asks, its tables (file, columns with types, rows), a statement, and perhaps a
statement in SQLite's words, an index that SQLite may be given, and words of Miller and of awk that give the same rows."""
import itertools
import random
from dataclasses import dataclass

WORDS = 5000
CITIES = ("Porto Lisbon Madrid Vienna Oslo Turku Riga Gdansk Brno Graz Basel Lyon Ghent Delft Aarhus Malmo Cork Leeds York "
          "Bath").split()


@dataclass
class Table:
    name: str
    columns: list  # names, with 'int' or 'text' behind a blank
    make: object  # a function of a generator that gives the rows, as lines
    rows: int

    def heading(self):
        return ",".join(it.split()[0] for it in self.columns)


@dataclass
class Workload:
    name: str
    asks: str
    tables: list
    statements: list
    sqlite: list = None  # other words for SQLite, where an empty field isn't NULL
    index: str = None  # an index that SQLite may be given besides
    miller: object = None  # a function of the files that gives mlr's words
    awk: object = None  # a function of the files that gives awk's words
    is_ordered: bool = False
    has_statistics: bool = True
    group: str = ""
    routes: list = None  # route scripts, where there is more than one way

    def heading(self):
        """The headings of its answers, which are all one; the comparison passes over them."""
        names = self.statements[0].split(" FROM ")[0].removeprefix("SELECT ").removeprefix("DISTINCT ").split(",")
        return ",".join(it.split(" AS ")[-1].split(".")[-1].strip() for it in names)


def numbers(rng, rows, below):
    return rng.choices(range(below), k=rows)


def lines(*columns):
    return map(",".join, zip(*(map(str, it) for it in columns)))


def words_of(rng):
    letters = "abcdefghijklmnopqrstuvwxyz"
    return ["".join(rng.choices(letters, k=rng.randint(3, 12))) for _ in range(WORDS)]


def routes(selections, joins):
    """The route scripts that select first and then probe by the conjuncts of joins, in each order."""
    first = [*(f"s{it}" for it in selections), "b"]
    return [",".join(first + [f"v{it}" for it in one]) for one in itertools.permutations(joins)]


def equality(rows):
    def orders(rng):
        return lines(range(rows), numbers(rng, rows, rows), numbers(rng, rows, 1000))

    def people(rng):
        ids = list(range(rows))
        rng.shuffle(ids)
        return lines(ids, numbers(rng, rows, 500))

    return Workload(
        f"join-{rows}", f"an equality join of {rows:,} rows a side, each of which finds one",
        [Table("orders", ["id int", "person int", "total int"], orders, rows), Table("people", ["id int", "city int"], people, rows)],
        ["SELECT o.id, o.total, p.city FROM orders o JOIN people p ON p.id = o.person"],
        miller=lambda f: ["--icsv", "--ocsv", "--ho", "join", "-j", "person", "-r", "person", "-l", "id", "-f", f["people"],
                          "then", "cut", "-o", "-f", "id,total,city", f["orders"]],
        awk=lambda f: ["-F,", "FNR == 1 { file++; next } file == 1 { city[$1] = $2; next } $2 in city { print $1 \",\" $3 \",\" city[$2] }",
                       f["people"], f["orders"]],
        group="equality")


def long_lists(rows):
    pages = max(rows // 100, 1)

    def visits(rng):
        return lines(range(rows), numbers(rng, rows, pages), numbers(rng, rows, 1000))

    return Workload(
        "lists", f"an equality join of {rows:,} rows a side with 100 matches each, of which one in a hundred is wanted",
        [Table("visits", ["id int", "page int", "at int"], visits, rows), Table("links", ["ref int", "page int", "due int"], visits, rows)],
        ["SELECT v.id, l.ref FROM visits v JOIN links l ON l.page = v.page WHERE v.at - l.due BETWEEN 0 AND 9"],
        miller=lambda f: ["--icsv", "--ocsv", "--ho", "join", "-j", "page", "-f", f["visits"], "then", "filter", "$at - $due >= 0 && $at - $due <= 9",
                          "then", "cut", "-o", "-f", "id,ref", f["links"]],
        awk=lambda f: ["-F,", "FNR == 1 { file++; next } file == 1 { n = ++count[$2]; ref[$2, n] = $1; due[$2, n] = $3; next } "
                       "{ for (i = 1; i <= count[$2]; i++) { d = $3 - due[$2, i]; if (d >= 0 && d <= 9) print $1 \",\" ref[$2, i] } }",
                       f["links"], f["visits"]])


def star(rows):
    side = max(rows // 500, 100)

    def sales(rng):
        return lines(range(rows), *(numbers(rng, rows, side) for _ in range(3)), numbers(rng, rows, 1000))

    def one_of(kinds):
        return lambda rng: lines(range(side), numbers(rng, side, kinds))

    return Workload(
        "star", f"a star: {rows:,} rows with three tables of {side:,} around them, a selection on each",
        [Table("sales", ["id int", "day int", "shop int", "item int", "amount int"], sales, rows),
         Table("days", ["day int", "month int"], one_of(12), side), Table("shops", ["shop int", "region int"], one_of(10), side),
         Table("items", ["item int", "kind int"], one_of(8), side)],
        ["SELECT s.id, s.amount FROM sales s JOIN days d ON d.day = s.day JOIN shops h ON h.shop = s.shop "
         "JOIN items i ON i.item = s.item WHERE d.month = 3 AND h.region = 5 AND i.kind < 4"],
        miller=lambda f: ["--icsv", "--ocsv", "--ho", "join", "-j", "day", "-f", f["days"], "then", "filter", "$month == 3",
                          "then", "join", "-j", "shop", "-f", f["shops"], "then", "filter", "$region == 5",
                          "then", "join", "-j", "item", "-f", f["items"], "then", "filter", "$kind < 4",
                          "then", "cut", "-o", "-f", "id,amount", f["sales"]],
        awk=lambda f: ["-F,", "FNR == 1 { file++; next } file == 1 { if ($2 == 3) day[$1]; next } file == 2 { if ($2 == 5) shop[$1]; next } "
                       "file == 3 { if ($2 < 4) item[$1]; next } $2 in day && $3 in shop && $4 in item { print $1 \",\" $5 }",
                       f["days"], f["shops"], f["items"], f["sales"]],
        routes=routes((3, 4, 5), range(3)))


def linked(rng, rows, keys):
    """Rows of a chain: a number, keys to both sides, and what is selected by."""
    return [range(rows), numbers(rng, rows, keys), numbers(rng, rows, keys)]


COLUMNS = ["id int", "a int", "b int", "p int", "q int", "r int", "s int"]
CLIQUE = ((1, 2), (1, 3), (1, 4), (2, 3), (2, 4), (3, 4))
CYCLE = ((1, 2), (2, 3), (3, 4), (1, 4))
LINKS = " AND ".join(f"x{i}.b = x{i + 1}.a" for i in range(1, 6))


def chain(rows):
    def head(rng):
        p = numbers(rng, rows, 100)
        return lines(*linked(rng, rows, rows // 2), p, p, p, numbers(rng, rows, 1000))

    def other(rng):
        return lines(*linked(rng, rows, rows // 2), *(numbers(rng, rows, 100) for _ in range(3)), numbers(rng, rows, 1000))

    tables = [Table(f"c{i}", COLUMNS, head if i == 1 else other, rows) for i in range(1, 7)]
    sources = ", ".join(f"c{i} x{i}" for i in range(1, 7))
    return Workload(
        "chain", f"a chain of six tables of {rows:,} rows without statistics, each row with two on its right; three conditions at the head "
        "are one, so it is a hundred times longer than they tell, and the tail is short",
        tables, [f"SELECT x1.id, x6.id FROM {sources} WHERE {LINKS} AND x1.p < 10 AND x1.q < 10 AND x1.r < 10 AND x6.s < 5"],
        has_statistics=False, routes=routes((5, 6, 7, 8), range(5)))


def drift(rows):
    middle = 5 * rows

    def rare(rng, count):
        """Keys that find a row one time in fifty, and those that always find one."""
        return [k if rng.random() < 0.02 else k + rows for k in numbers(rng, count, rows)], numbers(rng, count, rows)

    def turned(rng):
        half = middle // 2
        seldom, often = rare(rng, half)
        seldom_then, often_then = rare(rng, middle - half)
        rest = [numbers(rng, middle, 100) for _ in range(4)]
        return lines(range(middle), seldom + often_then, often + seldom_then, *rest)

    def other(rng):
        return lines(*linked(rng, rows, rows), *(numbers(rng, rows, 100) for _ in range(4)))

    tables = [Table(f"d{i}", COLUMNS, turned if i == 3 else other, middle if i == 3 else rows) for i in range(1, 7)]
    sources = ", ".join(f"d{i} x{i}" for i in range(1, 7))
    return Workload(
        "drift", f"a chain of six without statistics around a table of {middle:,} rows: in the first half of its file one row in fifty has "
        "a match on the left and each on the right, in the second half the other way round",
        tables, [f"SELECT x1.id, x3.id, x6.id FROM {sources} WHERE {LINKS}"], has_statistics=False,
        routes=routes((), range(5)))


def tail(rows, is_reversed=False):
    def head(rng):
        p = numbers(rng, rows, 100)
        return lines(*linked(rng, rows, rows // 2), p, p, p, numbers(rng, rows, 1000))

    def other(rng):
        return lines(*linked(rng, rows, rows // 2), *(numbers(rng, rows, 100) for _ in range(3)), numbers(rng, rows, 1000))

    tables = [Table(f"t{i}", COLUMNS, head if i == 1 else other, rows) for i in range(1, 7)]
    sources = [f"t{i} x{i}" for i in range(1, 7)]
    return Workload(
        "tail-reversed" if is_reversed else "tail",
        f"a chain of six tables of {rows:,} rows, each row with two on its right; three conditions at the head are one and keep half, and the "
        f"tail keeps one in two hundred{'; FROM begins with the tail' if is_reversed else ''}",
        tables, [f"SELECT x1.id, x6.id FROM {', '.join(sources[::-1] if is_reversed else sources)} "
                 f"WHERE {LINKS} AND x1.p < 50 AND x1.q < 50 AND x1.r < 50 AND x6.s < 5"],
        has_statistics=False, routes=[f"s5,s6,s7,s8,b,{','.join(f'v{it}' for it in one)}" for one in ((0, 1, 2, 3, 4), (4, 3, 2, 1, 0), (2, 1, 3, 0, 4))])


def drift_of_five(rows):
    side = max(rows // 5, 10)

    def turned(rng):
        half = rows // 2
        seldom = [[k if rng.random() < 0.02 else k + side for k in numbers(rng, it, side)] for it in (half, rows - half)]
        often = [numbers(rng, it, side) for it in (half, rows - half)]
        return lines(range(rows), seldom[0] + often[1], often[0] + seldom[1], *(numbers(rng, rows, 100) for _ in range(4)))

    def other(rng):
        return lines(*linked(rng, side, side), *(numbers(rng, side, 100) for _ in range(4)))

    tables = [Table(f"f{i}", COLUMNS, turned if i == 3 else other, rows if i == 3 else side) for i in range(1, 6)]
    links = " AND ".join(f"x{i}.b = x{i + 1}.a" for i in range(1, 5))
    return Workload(
        f"drift-{rows}", f"a chain of five around a table of {rows:,} rows: in the first half of its file one row in fifty has a match on the "
        "left and each on the right, in the second half the other way round",
        tables, [f"SELECT x1.id, x3.id, x5.id FROM {', '.join(f'f{i} x{i}' for i in range(1, 6))} WHERE {links}"],
        has_statistics=False, routes=routes((), range(4)))


def star_by_four(rows):
    side = max(rows // 500, 100)

    def sales(rng):
        return lines(range(rows), *(numbers(rng, rows, side) for _ in range(3)), numbers(rng, rows, 1000))

    def days(rng):
        return lines([it // 4 for it in range(4 * side)], numbers(rng, 4 * side, 10))

    def one_of(kinds):
        return lambda rng: lines(range(side), numbers(rng, side, kinds))

    return Workload(
        "star-by-four", f"a star: {rows:,} rows with three tables of {side:,} keys around them; the first table has four rows a key, of which "
        "nine in ten are selected, the others one row, of which one in ten is",
        [Table("sales", ["id int", "day int", "shop int", "item int", "amount int"], sales, rows),
         Table("days", ["day int", "hour int"], days, 4 * side), Table("shops", ["shop int", "region int"], one_of(10), side),
         Table("items", ["item int", "kind int"], one_of(10), side)],
        ["SELECT s.id, s.amount FROM sales s JOIN days d ON d.day = s.day JOIN shops h ON h.shop = s.shop "
         "JOIN items i ON i.item = s.item WHERE d.hour < 9 AND h.region = 5 AND i.kind = 4"],
        routes=routes((3, 4, 5), range(3)))


def orders_of(count):
    """Three orders of joins that are alike: from the first to the last, back, and from the middle."""
    one = list(range(count))
    return one, one[::-1], one[count // 2 :] + one[: count // 2]


def knot(name, rows, keys, pairs):
    """Four tables, of which each of these pairs is joined by a column of its own."""
    columns = {i: [f"k{a}{b}" for a, b in pairs if i in (a, b)] for i in range(1, 5)}

    def of(width):
        return lambda rng: lines(range(rows), *(numbers(rng, rows, keys) for _ in range(width)))

    joins = " AND ".join(f"x{a}.k{a}{b} = x{b}.k{a}{b}" for a, b in pairs)
    return Workload(
        name, f"a {name} of four tables of {rows:,} rows, each two that are joined by a column with {keys:,} keys",
        [Table(f"{name}{i}", ["id int", *(f"{it} int" for it in columns[i])], of(len(columns[i])), rows) for i in range(1, 5)],
        [f"SELECT x1.id, x2.id, x3.id, x4.id FROM {', '.join(f'{name}{i} x{i}' for i in range(1, 5))} WHERE {joins}"],
        routes=[",".join([*(f"s{it}" for it in one), "b", *(f"v{it}" for it in one)]) for one in orders_of(len(pairs))])


def composite(rows, tables):
    """Tables in a chain by keys of two columns: the first has few values, the second many."""
    def other(rng):
        return lines(range(rows), numbers(rng, rows, 100), numbers(rng, rows, rows // 10), numbers(rng, rows, 100), numbers(rng, rows, rows // 10))

    joins = " AND ".join(f"x{i}.c = x{i + 1}.a AND x{i}.d = x{i + 1}.b" for i in range(1, tables))
    return Workload(
        f"composite-{tables}", f"{tables} tables of {rows:,} rows in a chain by a key of two columns: the first alone finds one row in a hundred, "
        "the second ten rows",
        [Table(f"w{i}", ["id int", "a int", "b int", "c int", "d int"], other, rows) for i in range(1, tables + 1)],
        [f"SELECT x1.id, x{tables}.id FROM {', '.join(f'w{i} x{i}' for i in range(1, tables + 1))} WHERE {joins}"],
        routes=[f"b,{','.join(f'v{2 * i + it}' for i in range(tables - 1))}" for it in (0, 1)])


def skewed(rows):
    """Three tables by keys of which few are frequent (Zipf 1935)."""
    def of(rng):
        keys = max(rows // 10, 10)
        weights = list(itertools.accumulate(1 / it for it in range(1, keys + 1)))
        return rng.choices(range(keys), cum_weights=weights, k=rows)

    def one(rng):
        return lines(range(rows), of(rng), numbers(rng, rows, 1000))

    def both(rng):
        return lines(range(rows), of(rng), numbers(rng, rows, rows))

    return Workload(
        "skewed", f"a chain of three tables of {rows:,} rows: the keys on the left are skewed, and a selection keeps one row in a thousand there",
        [Table("near", ["id int", "k int", "p int"], one, rows), Table("middle", ["id int", "k int", "j int"], both, rows),
         Table("far", ["id int", "j int"], lambda rng: lines(range(rows), numbers(rng, rows, rows)), rows)],
        ["SELECT x.id, y.id, z.id FROM near x, middle y, far z WHERE x.k = y.k AND y.j = z.j AND x.p = 7"],
        routes=routes((2,), range(2)))


def many_answers(rows):
    """Two tables by keys of which few are frequent: an answer of some 28 rows for each row of a table."""
    def of(rng):
        keys = max(rows * 2 // 25, 10)
        weights = list(itertools.accumulate(it ** -0.5 for it in range(1, keys + 1)))
        return lines(range(rows), rng.choices(range(keys), cum_weights=weights, k=rows))

    return Workload(
        "answers", f"an equality join of {rows:,} rows a side with skewed keys, whose answer has 28 times as many rows",
        [Table("lefts", ["id int", "k int"], of, rows), Table("rights", ["ref int", "k int"], of, rows)],
        ["SELECT x.id, y.ref FROM lefts x JOIN rights y ON y.k = x.k"],
        awk=lambda f: ["-F,", "FNR == 1 { file++; next } file == 1 { n = ++count[$2]; ref[$2, n] = $1; next } "
                       "{ for (i = 1; i <= count[$2]; i++) print $1 \",\" ref[$2, i] }", f["rights"], f["lefts"]])


def small_of_large(rows):
    """Sixty queries, each of which wants few rows of three large tables."""
    def orders(rng):
        return lines(range(rows), numbers(rng, rows, rows), numbers(rng, rows, rows))

    def people(rng):
        return lines(range(rows), numbers(rng, rows, rows // 20))

    return Workload(
        "small-of-large", f"sixty queries in one script, each a join of three tables of {rows:,} rows, of which it wants twenty",
        [Table("buys", ["id int", "person int", "ware int"], orders, rows), Table("folk", ["id int", "city int"], people, rows),
         Table("wares", ["id int", "price int"], people, rows)],
        [f"SELECT b.id, w.price FROM buys b JOIN folk p ON p.id = b.person JOIN wares w ON w.id = b.ware WHERE p.city = {i * 7}"
         for i in range(60)])


def band(rows):
    def spans(rng):
        at = numbers(rng, rows, 1_000_000)
        return lines(range(rows), [it - 10 for it in at], [it + 10 for it in at])

    def places(rng):
        return lines(range(rows), numbers(rng, rows, 1_000_000))

    return Workload(
        "band", f"a band join of {rows:,} rows a side: numbers within spans of 21",
        [Table("spans", ["id int", "low int", "high int"], spans, rows), Table("marks", ["ref int", "due int"], places, rows)],
        ["SELECT x.id, y.ref FROM spans x JOIN marks y ON y.due BETWEEN x.low AND x.high"],
        index="CREATE INDEX due ON marks(due)")


def nulls(rows):
    def notes(rng):
        keys = [str(k) if rng.random() < 0.5 else "" for k in numbers(rng, rows, max(rows // 2, 1))]
        return lines(range(rows), keys)

    return Workload(
        "nulls", f"a self join of {rows:,} rows, of which every other has NULL as its key",
        [Table("notes", ["id int", "k int"], notes, rows)],
        ["SELECT x.id, y.id FROM notes x JOIN notes y ON y.k = x.k WHERE x.id < y.id"],
        sqlite=["SELECT x.id, y.id FROM notes x JOIN notes y ON y.k = x.k AND x.k <> '' WHERE x.id < y.id"],
        awk=lambda f: ["-F,", "FNR > 1 && $2 != \"\" { for (i = 1; i <= count[$2]; i++) print id[$2, i] \",\" $1; id[$2, ++count[$2]] = $1 }",
                       f["notes"]])


def texts(rows):
    def log(rng):
        words = words_of(rng)
        said = [" ".join(rng.choices(words, k=8)) for _ in range(rows)]
        return lines(range(rows), rng.choices(CITIES, k=rows), said)

    return Workload(
        "text", f"a selection over {rows:,} rows of text, some 80 bytes each",
        [Table("log", ["id int", "city text", "said text"], log, rows)],
        ["SELECT id, said FROM log WHERE city = 'Porto' AND said >= 'm' AND said < 'n'"],
        miller=lambda f: ["--icsv", "--ocsv", "--ho", "filter", "$city == \"Porto\" && $said >= \"m\" && $said < \"n\"",
                          "then", "cut", "-o", "-f", "id,said", f["log"]],
        awk=lambda f: ["-F,", "FNR > 1 && $2 == \"Porto\" && $3 >= \"m\" && $3 < \"n\" { print $1 \",\" $3 }", f["log"]])


def small(rows):
    def orders(rng):
        return lines(range(rows), numbers(rng, rows, rows), numbers(rng, rows, 1000))

    def people(rng):
        return lines(range(rows), numbers(rng, rows, 20))

    return Workload(
        "small", f"sixty queries in one script, each a join of {rows:,} rows a side with two selections",
        [Table("orders", ["id int", "person int", "total int"], orders, rows), Table("people", ["id int", "city int"], people, rows)],
        [f"SELECT o.id, o.total FROM orders o JOIN people p ON p.id = o.person WHERE p.city = {i % 20} AND o.total >= {10 * i}"
         for i in range(60)])


def order(rows):
    def items(rng):
        words = words_of(rng)
        return lines(range(rows), rng.choices(words, k=rows), numbers(rng, rows, 1000))

    return Workload(
        "order", f"ORDER BY a text, a number from the greatest down, and a number, over {rows:,} rows",
        [Table("items", ["id int", "name text", "n int"], items, rows)],
        ["SELECT name, n, id FROM items ORDER BY name, n DESC, id"],
        miller=lambda f: ["--icsv", "--ocsv", "--ho", "sort", "-f", "name", "-nr", "n", "-nf", "id", "then", "cut", "-o", "-f", "name,n,id",
                          f["items"]], is_ordered=True)


def groups(rows):
    """A join whose matches are counted and summed by a text of the small table."""
    side = max(rows // 1000, 20)

    def sales(rng):
        return lines(range(rows), numbers(rng, rows, side), numbers(rng, rows, 1000))

    def shops(rng):
        return lines(range(side), [f"{rng.choice(CITIES)} {it % 10}" for it in range(side)])

    return Workload(
        "groups", f"a join of {rows:,} by {side:,} rows, grouped by a text of the small table, with a count, a sum and the greatest number; the "
        "ten groups with the greatest sums",
        [Table("sales", ["id int", "shop int", "amount int"], sales, rows), Table("shops", ["shop int", "town text"], shops, side)],
        ["SELECT h.town, COUNT(*) AS n, SUM(s.amount) AS total, MAX(s.amount) AS most FROM sales s JOIN shops h ON h.shop = s.shop "
         "GROUP BY h.town ORDER BY total DESC, h.town LIMIT 10"],
        miller=lambda f: ["--icsv", "--ocsv", "--ho", "join", "-j", "shop", "-f", f["shops"], "then", "stats1", "-a", "count,sum,max", "-f", "amount",
                          "-g", "town", "then", "sort", "-nr", "amount_sum", "-f", "town", "then", "head", "-n", "10", f["sales"]],
        awk=lambda f: ["-F,", "FNR == 1 { file++; next } file == 1 { town[$1] = $2; next } $2 in town { t = town[$2]; n[t]++; sum[t] += $3; "
                       "if (!(t in most) || $3 + 0 > most[t]) most[t] = $3 + 0 } END { for (t in n) print t \",\" n[t] \",\" sum[t] \",\" most[t] "
                       "| \"LC_ALL=C sort -t, -k3,3nr -k1,1 | head -n 10\" }", f["shops"], f["sales"]],
        is_ordered=True)


def different(rows):
    """DISTINCT over two columns, of which a fiftieth of the pairs are different."""
    def visits(rng):
        return lines(range(rows), rng.choices(CITIES, k=rows), numbers(rng, rows, max(rows // 1000, 1)))

    return Workload(
        "distinct", f"DISTINCT over a text and a number of {rows:,} rows, of which one in fifty is another line",
        [Table("visits", ["id int", "city text", "page int"], visits, rows)],
        ["SELECT DISTINCT city, page FROM visits"],
        miller=lambda f: ["--icsv", "--ocsv", "--ho", "head", "-n", "1", "-g", "city,page", "then", "cut", "-o", "-f", "city,page", f["visits"]],
        awk=lambda f: ["-F,", "FNR > 1 && !seen[$2 \",\" $3]++ { print $2 \",\" $3 }", f["visits"]])


def all_workloads(scale):
    def of(rows):
        return max(int(rows * scale), 10)

    return [*(equality(of(rows)) for rows in (10_000, 30_000, 100_000, 300_000, 1_000_000)), long_lists(of(20_000)), star(of(500_000)),
            chain(of(20_000)), drift(of(20_000)), tail(of(100_000)), tail(of(100_000), True), drift_of_five(of(100_000)),
            drift_of_five(of(300_000)), star_by_four(of(500_000)), knot("clique", of(20_000), of(500), CLIQUE), knot("cycle", of(20_000), of(5_000), CYCLE),
            composite(of(50_000), 2), composite(of(50_000), 4), skewed(of(20_000)), many_answers(of(100_000)), band(of(30_000)), nulls(of(200_000)), texts(of(750_000)), small(of(1_000)),
            small_of_large(of(100_000)), order(of(900_000)),
            groups(of(1_000_000)), different(of(1_000_000))]


def write_table(table, path, seed):
    """Writes a table's file. It depends on the seed and the table alone."""
    rng = random.Random(f"{seed} {table.name} {table.rows}")
    with open(path, "w", encoding="utf-8", newline="\n") as file:
        file.write(table.heading() + "\n")
        file.writelines(line + "\n" for line in table.make(rng))
