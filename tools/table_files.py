"""Table files as the launcher's tools read them: records with the lines that they begin in, names, types, and what looks like a number."""
import csv
import io
import os
import re
import unicodedata

from statements import folded

# One byte more than the program takes of a file.
MOST = 67_108_865
MARK = re.compile(r":(int|text|dec[0-6])$")
BYTE_ORDER_MARK = b"\xef\xbb\xbf"
CANONICAL = re.compile(r"-?[1-9][0-9]{0,18}|0")
NUMBER = re.compile(r"[+-]?(\d+(\.\d*)?|\.\d+)([eE][+-]?\d+)?", re.A)
EXPONENT = re.compile(r"[+-]?(\d+(\.\d*)?|\.\d+)[eE][+-]?\d+", re.A)
LINE_END = re.compile(r"\r\n|\r|\n")


def loaded(file):
    """The bytes of a file, at most one more than the program takes; none where it can't be read."""
    try:
        with open(file, "rb") as it:
            return it.read(MOST)
    except OSError:
        return b""


def text_of(field):
    """The text of a field, of which each sign is a byte."""
    return field.encode("latin-1").decode("utf-8", "replace")


def width(text):
    """How many columns of a terminal a text takes."""
    return sum(0 if unicodedata.combining(it) else 2 if unicodedata.east_asian_width(it) in "WF" else 1 for it in text)


def without_controls(text):
    """A text in which no sign moves the cursor: a control sign is a blank."""
    return "".join(" " if unicodedata.category(it) in ("Cc", "Cf", "Zl", "Zp") else it for it in text)


def without_marks(given):
    while given.startswith(BYTE_ORDER_MARK):
        given = given[len(BYTE_ORDER_MARK) :]
    return given


def records(given, separator=","):
    """The records of a file's bytes, each with the line that it begins in, from 1. A sign of a field is a byte."""
    csv.field_size_limit(MOST)
    lines = io.StringIO(without_marks(given).decode("latin-1"), newline="")
    read = reader(lines, separator)
    begins = 1
    for it in read:
        if it:
            yield begins, it
        begins = read.line_num + 1


def reader(lines, separator):
    """A reader of records: between tabs a field has no quotes."""
    if separator == "\t":
        return csv.reader(lines, delimiter="\t", quoting=csv.QUOTE_NONE)
    return csv.reader(lines, delimiter=separator or ",")


def names_of(heading):
    """The names of a heading's fields, as a table has them."""
    return [MARK.sub("", it) or f"column{place}" for place, it in enumerate(heading, 1)]


def marks_of(heading):
    """The types that a heading's fields are marked with, or empty texts."""
    return [(MARK.search(it) or ("", ""))[1] for it in heading]


def is_whole(field):
    """Whether a field is an integer as a column without a mark must have it."""
    return bool(CANONICAL.fullmatch(field)) and -(2**63) <= int(field) < 2**63


def numbers_in(columns, all_records, marks):
    """Which of the columns, by their numbers, have numbers: those that are marked so, and those of whole numbers without a mark."""
    found = {it for it in columns if marks[it] not in ("", "text")}
    rest, seen = {it for it in columns if not marks[it]}, set()
    for fields in all_records:
        if not rest:
            break
        for at in list(rest):
            field = fields[at] if at < len(fields) else ""
            if field and not is_whole(field):
                rest.discard(at)
            elif field:
                seen.add(at)
    return found | rest & seen


def place_in(copy, label, line):
    """Where a line of a copy comes from: a file as the words call it, and its line. The copy's own list tells, if it has one."""
    found = (1, 1, label)
    if os.path.isfile(f"{copy}.from"):
        with open(f"{copy}.from", encoding="utf-8", errors="surrogateescape") as it:
            for entry in it.read().split("\n")[:-1]:
                begins, there, file = entry.split(" ", 2)
                if int(begins) <= line:
                    found = (int(begins), int(there), file)
    return found[2], found[1] + line - found[0]


class Table:
    """A table of a run: its name, the file that the program loads, what the words call it, and why it isn't there."""

    def __init__(self, name, file, label, why=""):
        self.name, self.file, self.label, self.why = name, file, label, why

    def records(self):
        return records(loaded(self.file))

    def heading(self):
        return next((it for _, it in self.records()), [])

    def columns(self):
        return [text_of(MARK.sub("", it)) or f"column{place}" for place, it in enumerate(self.heading(), 1)]

    def place(self, line):
        """A line of the file that the program loads, as FILE:LINE of what the words call it."""
        return "{}:{}".format(*place_in(self.file, self.label, line))

    def column(self, name):
        """The number of a column from 0, or None."""
        return next((at for at, it in enumerate(self.columns()) if folded(it) == folded(name)), None)


def tables_of(words):
    """The script and the tables of a tool's words COUNT (NAME FILE LABEL WHY).., and the words after them."""
    count = int(words[0])
    found = [Table(*words[at : at + 4]) for at in range(1, 1 + 4 * count, 4)]
    return (found[0] if found else None), found[1:], words[1 + 4 * count :]


def remotes_of(text):
    """The remotes of items T.C=PREFIX: of each its heading as a table, the column and the prefix."""
    found = []
    for it in text.split(",") if text else []:
        name, _, rest = it.partition(".")
        column, _, prefix = rest.partition("=")
        found.append((Table(name, f"{prefix}heading.csv", f"{prefix}heading.csv"), column, prefix))
    return found
