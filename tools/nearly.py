"""What a column of texts looks like that is nearly one of numbers, and which fields keep it from being one."""
import re

from table_files import EXPONENT, NUMBER, is_whole, text_of

COMMA = re.compile(r"[+-]?(\d{1,3}(\.\d{3})+|\d+),\d+", re.A)
# A share of numbers from which a column is nearly one of numbers, in tenths.
NEARLY = 9
MOST_NULLS, MOST_DIGITS, LONGEST, MANY = 3, 6, 40, 1000


def shown(field):
    it = text_of(field)
    return repr(it if len(it) <= LONGEST else it[: LONGEST - 3] + "...")


def as_word(text):
    """A text as a word of the shell."""
    return text if re.fullmatch(r"[\w./+:%@-]+", text) else "'" + text.replace("'", "'\\''") + "'"


class Looks:
    """What the fields of a column look like, which are added one after another."""

    def __init__(self):
        self.fields, self.numbers, self.whole, self.commas, self.digits = 0, 0, 0, 0, 0
        self.lengths, self.leads_with_0, self.others, self.odd, self.exponent = set(), False, {}, None, None

    def add(self, line, field):
        if not field:
            return
        self.fields += 1
        if field.isdecimal() and field[0] != "0" and len(field) < 19 or is_whole(field):
            self.numbers += 1
            self.whole += 1
            self.lengths.add(len(field))
        elif NUMBER.fullmatch(field.strip(" ")):
            self.add_number(line, field)
        else:
            self.commas += bool(COMMA.fullmatch(field))
            if field in self.others or len(self.others) <= MOST_NULLS:
                self.others.setdefault(field, line)

    def add_number(self, line, field):
        """Adds a number that isn't written as an integer of a table is."""
        self.numbers += 1
        is_code = bool(re.fullmatch(r"0\d+", field, re.A))
        self.lengths.add(len(field) if is_code else 0)
        self.leads_with_0 = self.leads_with_0 or is_code
        if EXPONENT.fullmatch(field.strip(" ")):
            self.exponent = self.exponent or (line, field)
        elif "." in field and field == field.strip(" "):
            self.digits = max(self.digits, len(field) - field.index(".") - 1)
        elif not self.odd:
            self.odd = line, field

    def is_far(self):
        """Whether the column is taken for one of other texts: of many fields less than a tenth are numbers."""
        return self.fields >= MANY and 10 * (self.numbers + self.commas) < self.fields

    def is_nearly(self):
        """Whether nine tenths of the fields are numbers and yet not all are integers. Digits that begin with 0, all as many, are a code."""
        if self.leads_with_0 and len(self.lengths) == 1:
            return False
        return 0 < self.fields != self.whole and 10 * max(self.numbers, self.numbers + self.commas) >= NEARLY * self.fields

    def said(self, table, column):
        """What is said of a column that is nearly one of numbers, which is a column of a table."""
        share = f"{self.numbers:,} of {self.fields:,} are numbers"
        name = f"{table.name}.{column}"
        if self.commas and 10 * self.commas >= self.fields:
            return f"{self.numbers + self.commas:,} of {self.fields:,} are numbers, some with a decimal comma: --decimal-comma reads them"
        if self.others:
            field, line = next(iter(self.others.items()))
            return f"{share}; {table.place(line)} has {shown(field)}: {self.nulls()}"
        if self.exponent:
            return f"{share}; {table.place(self.exponent[0])} has {shown(self.exponent[1])}, an exponent, which no type reads: write it out"
        if self.digits > MOST_DIGITS:
            return f"{share}, with up to {self.digits} digits after the point: a decimal has up to {MOST_DIGITS}"
        if self.digits:
            return f"{share}, with up to {self.digits} digit{'s' if self.digits > 1 else ''} after the point: --type {as_word(name)}=dec{self.digits} reads them"
        line, field = self.odd
        reads = f"--type {as_word(name)}=int reads it" if re.fullmatch(r"[+-]?\d{1,18}", field, re.A) else "no type reads it"
        return f"{share}; {table.place(line)} has {shown(field)}: {reads}"

    def nulls(self):
        """How to read what isn't a number as nulls."""
        if len(self.others) > MOST_NULLS:
            return "these and others are texts"
        return " ".join(f"--null {as_word(text_of(it))}" for it in self.others) + " reads " + ("them as nulls" if len(self.others) > 1 else "it as null")


def looks_of(table, columns):
    """What columns of a table look like, by their numbers."""
    found = {it: Looks() for it in columns}
    rest = list(found.items())
    for number, (line, fields) in enumerate(table.records()):
        if number % MANY == 0:
            rest = [(at, looks) for at, looks in rest if not looks.is_far()]
        if number:
            for at, looks in rest:
                looks.add(line, fields[at] if at < len(fields) else "")
        if not rest:
            break
    return found


def findings(table, columns):
    """What is said of those columns of a table, by their names, that are texts and nearly numbers."""
    heading, names = table.heading(), table.columns()
    by_name = {it: table.column(it) for it in columns}
    unmarked = {name: at for name, at in by_name.items() if at is not None and not re.search(r":(int|dec[0-6])$", heading[at])}
    looks = looks_of(table, unmarked.values()) if unmarked else {}
    return {name: looks[at].said(table, names[at]) for name, at in unmarked.items() if looks[at].is_nearly()}
