"""Random scripts over small random tables, each statement for the program and for SQLite, and the words to run them with.

SQLite holds each number as ten-thousandths, so that it compares and adds them exactly. What it answers is in order: by the keys of
ORDER BY, and what ties by the rows of the sources, the first one's first.
"""
ONE = 10_000
TEXTS = ["a", "a", "a", "b", "b", "ab", "ab", "A", "é", "1", "x'y", "a,b", 'c"d', " "]
FEW = [0, ONE, 2 * ONE, 3 * ONE]
# What a column has of its type, in ten-thousandths: mostly what others have, too. (Sums stay within 64 bits.)
CELLS = {
    "int": [-2 * ONE, -ONE, 0, ONE, 2 * ONE, 5 * ONE, 50 * ONE, 2**35 * ONE],
    "dec0": [-ONE, 0, ONE, 2 * ONE],
    "dec1": [-ONE, 0, 5_000, ONE, 15_000, 2 * ONE, 3 * ONE],
    "dec2": [-15_000, 0, 100, ONE, 15_000, 2 * ONE, 22_500, 3 * ONE],
    "dec4": [-2 * ONE, 0, 1, ONE, 15_000, 22_500, 50 * ONE],
    "text": TEXTS,
}
ROUTES = ["v0", "v1", "a0,a1", "s0,b", "b,a1,v0", "v1,v0,a2", "b", "w0", "w0,w1,w2", "v0,w1,w0"]
SEEDS = [0, 2, 3, 22, 41, 99, 18446744073709551615]
# (True exactly where docs/SQL.md says so: a number's ten-thousandths divide, have signs and differ as the number does)
CALLS = {
    "divides": "CASE WHEN {0} IS NULL OR {1} IS NULL THEN NULL ELSE {0} <> 0 AND {1} % {0} = 0 END",
    "same_sign": "({0} > 0) = ({1} > 0) AND ({0} < 0) = ({1} < 0)",
    "near10": f"abs({{0}} - {{1}}) <= {10 * ONE}",
}


class Statement:
    """A statement for each of the two, with its headings, the types of its columns, and the tables of its aliases. `has` are things
    that stand in it and that no word of it shows."""

    def __init__(self, ours, theirs, heading, kinds, tables):
        self.ours, self.theirs, self.heading, self.kinds, self.tables = ours, theirs, heading, kinds, tables
        self.has = []


class Column:
    """What a statement selects: as it is written, the name to sort by, SQLite's word, the heading, and the type."""

    def __init__(self, ours, name, theirs, heading, kind):
        self.ours, self.name, self.theirs, self.heading, self.kind = ours, name, theirs, heading, kind


def is_text(kind):
    return kind == "text"


def others_of(columns, name, kind):
    """The columns of other aliases that can be compared with one."""
    alias = name.split(".")[0]
    return [it for it, of_it in columns if it.split(".")[0] != alias and is_text(of_it) == is_text(kind)]


class Scripts:
    """Random tables, how each is reached, and statements over them. A part of a statement is a pair: for the program, for SQLite."""

    def __init__(self, rng):
        self.rng = rng
        # (a few scripts have larger tables, and fewer aliases)
        self.is_large = rng.random() < 0.08
        self.tables = {f"t{at}": self.table() for at in range(rng.choice([1, 2, 2, 3, 3]))}
        self.ways = {}
        if rng.random() < 0.5:
            self.draw_ways()
        # Whether some alias may have no key that reaches it, and whether some predicate is called.
        self.may_be_unreachable = self.has_call = False

    def some(self, known, least, most):
        """So many of these, seldom one of them twice."""
        many = min(self.rng.randint(least, most), len(known))
        return self.rng.choices(known, k=many) if self.rng.random() < 0.1 else self.rng.sample(known, many)

    def cell(self, values):
        return None if self.rng.random() < 0.12 else self.rng.choice(values)

    def table(self):
        rng = self.rng
        kinds = rng.choices(["int", "int", "int", "int", "text", "text", "dec0", "dec1", "dec2", "dec4"], k=rng.randint(1, 4))
        values = [FEW if kind == "int" and rng.random() < 0.7 else CELLS[kind] for kind in kinds]
        many = rng.choice([60, 120] if self.is_large else [0, 1, 2, 3, 4, 5, 5, 6, 8, 8, 8, 12, 12, 12])
        rows = [[self.cell(it) for it in values] for _ in range(many)]
        for at in range(1, many):
            if rng.random() < 0.08:
                rows[at] = list(rng.choice(rows[:at]))
        return [(f"c{at}", kind) for at, kind in enumerate(kinds)], rows

    def draw_ways(self):
        """A look-up beside a table's scan, or in its place, or its keys' files. The first table is always scanned."""
        rng = self.rng
        for name, (columns, rows) in self.tables.items():
            way = rng.choice(["scan", "index", "index", "index", "lookup", "lookup", "lookup", "remote", "remote"])
            way = way if name != "t0" or way == "scan" else "index"
            integers = [it for it, kind in columns if kind == "int"]
            column = rng.choice(integers if way == "remote" and integers else [it for it, _ in columns])
            if way == "remote" and integers:
                at = int(column[1:])
                # (so are its rows read: by key, and none has a null there)
                rows[:] = sorted((it for it in rows if it[at] is not None), key=lambda it, at=at: it[at])
            elif way == "remote":
                way = "lookup"
            if way != "scan":
                self.ways[name] = (way, column)

    def is_scanned(self, table):
        return self.ways.get(table, ("scan",))[0] in ("scan", "index")

    def term(self, columns):
        rng, which = self.rng, self.rng.random()
        if columns and which < 0.6:
            return (rng.choice(columns),) * 2
        factor = rng.choice([0, 1, 1, 2, 2, 3, 10])
        if columns and which < 0.75:
            name = rng.choice(columns)
            return rng.choice([f"{factor} * {name}", f"{name} * {factor}"]), f"{factor} * {name}"
        return str(factor), str(factor * ONE)

    def operand(self, columns, of_text):
        rng = self.rng
        if rng.random() < 0.04:
            return "NULL", "NULL"
        fitting = [name for name, kind in columns if is_text(kind) == of_text]
        if of_text:
            known = fitting if fitting and rng.random() < 0.7 else ["'a'", "'b'", "'x''y'", "'é'", "''", "'ab'"]
            return (rng.choice(known),) * 2
        ours = theirs = ""
        for at in range(rng.choice([1, 1, 1, 1, 2, 3])):
            sign, term = rng.choice([" + ", " - "] if at else ["", "", "", "", "", "-", "+"]), self.term(fitting)
            ours, theirs = ours + sign + term[0], theirs + sign + term[1]
        return ours, f"({theirs})"

    def call(self, columns):
        """A call of a predicate of the program, mostly over two columns."""
        rng, name = self.rng, self.rng.choice(sorted(CALLS))
        integers = [it for it, kind in columns if kind == "int"]
        given = []
        for _ in range(2):
            number = rng.choice([-2, -1, 0, 1, 2, 3])
            literal = rng.choice([(str(number), f"({number * ONE})")] * 5 + [("NULL", "NULL")])
            given.append((rng.choice(integers),) * 2 if integers and rng.random() < 0.85 else literal)
        self.has_call = True
        return f"{name}({given[0][0]}, {given[1][0]})", f"({CALLS[name].format(given[0][1], given[1][1])})"

    def predicate(self, columns):
        rng, which = self.rng, self.rng.random()
        if which < 0.08:
            return self.call(columns)
        of_text, no = rng.random() < 0.25, rng.choice(["", "NOT "])
        left = self.operand(columns, of_text)
        if which < 0.62:
            right, sign = self.operand(columns, of_text), rng.choice(["=", "=", "=", "<>", "<", "<=", ">", ">="])
            return f"{left[0]} {sign} {right[0]}", f"{left[1]} {sign} {right[1]}"
        if which < 0.75:
            low, high = self.operand(columns, of_text), self.operand(columns, of_text)
            return tuple(f"{left[way]} {no}BETWEEN {low[way]} AND {high[way]}" for way in (0, 1))
        if which < 0.88:
            among = [self.operand(columns, of_text) for _ in range(rng.randint(1, 3))]
            theirs = " OR ".join(f"{left[1]} = {it[1]}" for it in among)
            return f"{left[0]} {no}IN ({', '.join(it[0] for it in among)})", f"({no}({theirs}))"
        return f"{left[0]} IS {no}NULL", f"{left[1]} IS {no}NULL"

    def condition(self, columns, depth):
        rng, which = self.rng, self.rng.random()
        if depth == 0 or which < 0.5:
            return self.predicate(columns)
        left = self.condition(columns, depth - 1)
        if which < 0.6:
            return f"NOT ({left[0]})", f"NOT ({left[1]})"
        if which < 0.7:
            truth, no = rng.choice(["TRUE", "FALSE", "UNKNOWN", "UNKNOWN"]), rng.choice(["", "NOT "])
            return f"({left[0]}) IS {no}{truth}", f"({left[1]}) IS {no}{'NULL' if truth == 'UNKNOWN' else truth}"
        right, word = self.condition(columns, depth - 1), rng.choice(["AND", "OR", "OR"])
        return tuple(f"({left[way]}) {word} ({right[way]})" for way in (0, 1))

    def sources(self, often):
        """The columns that are seen, FROM for each of the two, the tables of the aliases, one of which is scanned, and the numbers
        of those aliases that no condition after ON joins. So many of them have one."""
        rng, columns, ours, theirs, apart = self.rng, [], "", "", []
        named = rng.choices(sorted(self.tables), k=rng.choice([1, 1, 2, 2] if self.is_large else [1, 1, 2, 2, 2, 3, 3, 3, 4]))
        if not any(map(self.is_scanned, named)):
            named[rng.randrange(len(named))] = "t0"
        for at, table in enumerate(named):
            columns += [(f"x{at}.{name}", kind) for name, kind in self.tables[table][0]]
            word, on = "", ("", "")
            if at and rng.random() >= often:
                word = rng.choice([", ", " CROSS JOIN "])
                apart.append(at)
            elif at:
                word, on = rng.choice([" JOIN ", " INNER JOIN "]), tuple(" ON " + it for it in self.joined(at, columns))
            ours += f"{word}{table} x{at}{on[0]}"
            theirs += f"{word.replace(', ', ' CROSS JOIN ')}{table} x{at}{on[1]}"
        return columns, ours, theirs, named, apart

    def equality(self, at, columns, often):
        """Perhaps an equality of a column of the alias with one of another alias."""
        pairs = [(x, y) for x, kind in columns if x.startswith(f"x{at}.") for y in others_of(columns, x, kind)]
        return [(" = ".join(self.rng.choice(pairs)),) * 2] if pairs and self.rng.random() < often else []

    def joined(self, at, columns):
        """A condition after ON: mostly an equality with an alias to the left."""
        return (self.equality(at, columns, 0.75) or [self.condition(columns, 1)])[0]

    def equalities(self, columns, named, apart):
        """Mostly one for each alias that isn't joined otherwise; now and then a second one, for a key of two columns."""
        for at in range(1, len(named)):
            is_apart = at in apart and self.is_scanned(named[at])
            yield from self.equality(at, columns, 0.75 if is_apart else 0.08)

    def keys_asked(self, columns, named):
        """An equality for each alias that has a look-up alone, by which it is reached; seldom none."""
        rng = self.rng
        reached = {f"x{at}" for at, table in enumerate(named) if self.is_scanned(table)}
        for at, table in enumerate(named):
            if f"x{at}" in reached:
                continue
            if rng.random() < 0.04:
                self.may_be_unreachable = True
                continue
            own = f"x{at}.{self.ways[table][1]}"
            kind = dict(columns)[own]
            known = [it for it in others_of(columns, own, kind) if it.split(".")[0] in reached]
            literal = ("'a'",) * 2 if is_text(kind) else ("1", str(ONE))
            other = (rng.choice(known),) * 2 if known and rng.random() < 0.9 else literal
            yield tuple(rng.choice([f"{own} = {it}", f"{it} = {own}"]) for it in other)
            reached.add(f"x{at}")

    def band(self, columns):
        """Sometimes a column between two of other aliases: by BETWEEN, or by both ends side by side, each either way round."""
        rng = self.rng
        own, kind = rng.choice(columns)
        others = others_of(columns, own, kind)
        if not others or rng.random() < 0.7:
            return
        low, high = rng.choice(others), rng.choice(others)
        if rng.random() < 0.5:
            yield (f"{own} BETWEEN {low} AND {high}",) * 2
            return
        ends = [self.end(own, low, ">", "<"), self.end(own, high, "<", ">")]
        rng.shuffle(ends)
        yield (" AND ".join(ends),) * 2

    def end(self, own, other, sign, turned):
        equal = self.rng.choice(["", "="])
        return self.rng.choice([f"{own} {sign}{equal} {other}", f"{other} {turned}{equal} {own}"])

    def statement(self):
        rng = self.rng
        is_product = self.is_large and rng.random() < 0.4
        columns, *sources, named, apart = self.sources(0 if is_product else 0.5)
        if is_product and all(map(self.is_scanned, named)):
            # (the longest answers)
            return self.plain(columns, named, [f" FROM {it}" for it in sources])
        bands = [*self.band(columns)]
        conditions = [*self.keys_asked(columns, named), *self.equalities(columns, named, apart), *bands]
        conditions += [self.condition(columns, 2) for _ in range(rng.choice([0, 0, 1, 1, 2] if len(named) < 3 else [0, 0, 0, 0, 1, 2]))]
        conditions += [self.call(columns) for _ in range(rng.choice([0, 0, 0, 0, 0, 1]))]
        rng.shuffle(conditions)
        where = [" WHERE " + " AND ".join(f"({it[way]})" for it in conditions) if conditions else "" for way in (0, 1)]
        rest = [f" FROM {sources[way]}{where[way]}" for way in (0, 1)]
        made = self.grouped(columns, named, rest) if rng.random() < 0.3 else self.plain(columns, named, rest)
        made.has = (["a band"] if bands else []) + (["four conditions and more"] if len(conditions) + len(named) - 1 - len(apart) > 3 else [])
        return made

    def plain(self, columns, named, rest):
        """All columns, or some of them."""
        rng = self.rng
        chosen = columns if rng.random() < 0.1 else self.some(columns, 1, 4)
        cells = [self.column(name, kind) for name, kind in chosen]
        ours = "*" if chosen is columns else ", ".join(it.ours for it in cells)
        if chosen is columns:
            cells = [Column(name, name, name, name.split(".")[1], kind) for name, kind in columns]
        is_distinct = rng.random() < 0.3
        hidden = [] if is_distinct else [name for name, _ in columns]
        return self.shaped(is_distinct, ours, cells, hidden, named, rest, None)

    def column(self, name, kind):
        """A column as it is selected: by its own name or by another one."""
        if self.rng.random() < 0.85:
            return Column(name, name, name, name.split(".")[1], kind)
        other = f"n{name[1]}{name[-1]}"
        return Column(f"{name} AS {other}", self.rng.choice([name, other]), name, other, kind)

    def grouped(self, columns, named, rest):
        """Groups by up to three columns, or all as one group: some of the columns, and set functions beside them."""
        rng = self.rng
        by = self.some(columns, 0, 3)
        cells = [self.column(name, kind) for name, kind in by if rng.random() < 0.7]
        for at in range(rng.randint(0 if cells else 1, 3)):
            (name, kind), word = rng.choice(columns), rng.choice(["COUNT", "COUNT", "SUM", "MIN", "MAX"])
            if word == "SUM" and is_text(kind):
                word = "MIN"
            called = f"{word}({'*' if word == 'COUNT' and rng.random() < 0.5 else name})"
            theirs, kind = (f"{called} * {ONE}", "int") if word == "COUNT" else (called, kind)
            cells.append(Column(f"{called} AS a{at}", f"a{at}", theirs, f"a{at}", kind) if rng.random() < 0.9 else Column(called, None, theirs, word.lower(), kind))
        rng.shuffle(cells)
        is_distinct = rng.random() < 0.3
        hidden = [] if is_distinct else [name for name, _ in by]
        return self.shaped(is_distinct, ", ".join(it.ours for it in cells), cells, hidden, named, rest, [name for name, _ in by])

    def keys(self, cells, hidden):
        """Keys of ORDER BY: for each of the two its name, its way, and where its nulls come. SQLite's are named in full."""
        rng = self.rng
        known = [(it.name, f"b{at}") for at, it in enumerate(cells) if it.name] + [(it, f"h{at}") for at, it in enumerate(hidden)]
        if not known or rng.random() < 0.35:
            return [], []
        ours, theirs = [], []
        for name, its in self.some(known, 1, 3):
            way, nulls = rng.choice(["", " ASC", " DESC", " DESC"]), rng.choice(["", "", " NULLS FIRST", " NULLS LAST"])
            ours.append(name + way + nulls)
            theirs.append(its + way + (nulls or (" NULLS FIRST" if way == " DESC" else " NULLS LAST")))
        return ours, theirs

    def shaped(self, is_distinct, select, cells, hidden, named, rest, by):
        """The statement of cells, by groups of the columns `by` unless there is None. `hidden` are other columns to sort by.

        SQLite's has a statement inside, whose `p` is the place of the first combination. Equal records are one group of it."""
        keys, their_keys = self.keys(cells, hidden)
        limit = f" LIMIT {self.rng.choice([0, 1, 1, 2, 3, 5, 100])}" if self.rng.random() < 0.25 else ""
        group = " GROUP BY " + ", ".join(by) if by else ""
        place = " + ".join(f"x{at}.rowid * {1000 ** (len(named) - 1 - at)}" for at in range(len(named)))
        inner = [f"{it.theirs} AS b{at}" for at, it in enumerate(cells)] + [f"{it} AS h{at}" for at, it in enumerate(hidden)]
        inner.append(f"{place if by is None else f'min({place})'} AS p")
        shown = ", ".join(f"b{at}" for at in range(len(cells)))
        order = ", ".join([*their_keys, "min(p)" if is_distinct else "p"])
        return Statement(
            f"SELECT {'DISTINCT ' if is_distinct else ''}{select}{rest[0]}{group}{' ORDER BY ' + ', '.join(keys) if keys else ''}{limit}",
            f"SELECT {shown} FROM (SELECT {', '.join(inner)}{rest[1]}{group}){f' GROUP BY {shown}' if is_distinct else ''} ORDER BY {order}{limit}",
            [it.heading for it in cells], [it.kind for it in cells], named)

    def words(self):
        """A policy, the number of workers, and a cache, which is mostly there where a predicate is called."""
        rng = self.rng
        given = rng.choice([[], ["--seed", str(rng.choice(SEEDS))], ["--policy", "pressure"], ["--policy", "greedy"],
                            ["--policy", "script", "--route", rng.choice(ROUTES)]])
        given = given + rng.choice([[], [], ["--workers", str(rng.choice([2, 2, 3, 4, 8]))]])
        if rng.random() < (0.7 if self.has_call else 0.05):
            given = [*given, "--cache", str(rng.choice([0, 1, 2, 8, 64]))]
        return given + (["--tally"] if self.ways or "--cache" in given or rng.random() < 0.3 else [])

    def accesses(self):
        """The words of how each table is reached."""
        found = []
        for way in ("index", "lookup", "remote"):
            named = [f"{table}.{column}" + (f"={table}-" if way == "remote" else "") for table, (its, column) in self.ways.items() if its == way]
            found += [f"--{way}", ",".join(named)] if named else []
        return found


def shared_words(rng):
    """The words of runs with --shared: three policies, each by 1, 2 and 8 workers."""
    script = ["--policy", "script", "--route", rng.choice(ROUTES)]
    for policy in (["--seed", str(rng.choice(SEEDS))], ["--policy", "greedy"], script):
        for workers in ("1", "2", "8"):
            yield ["--shared", "--tally", "--workers", workers, *policy]
