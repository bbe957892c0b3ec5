"""Scripts as the launcher's tools read them: their tokens, their statements, and the tables and columns that these name."""
import re

TOKEN = re.compile(r"""--[^\n]*|\s+|"(?:[^"]|"")*"|'(?:[^']|'')*'|[A-Za-z_]\w*|\d+|<>|!=|<=|>=|.""", re.S | re.A)
RESERVED = set(
    "all and as asc between by case cast cross desc distinct exists false from full group having in inner is join left like limit"
    " natural not null on or order outer right select true union unknown using where".split()
)


def folded(name):
    """A name as names are compared: without regard to the case of ASCII letters."""
    return "".join(it.lower() if it.isascii() else it for it in name)


def statements(script):
    """The statements of a script's bytes: of each its tokens, without blanks and comments, with their places in bytes."""
    found, place = [[]], 0
    for it in TOKEN.findall(script.decode("utf-8", "surrogateescape")):
        if it == ";":
            found.append([])
        elif not it.isspace() and not it.startswith("--"):
            found[-1].append((place, it))
        place += len(it.encode("utf-8", "surrogateescape"))
    return [it for it in found if it]


def statement_at(script, at):
    """The tokens of the statement that has a byte."""
    tokens, place = [], 0
    for it in TOKEN.findall(script.decode("utf-8", "surrogateescape")):
        if it == ";":
            if place >= at:
                break
            tokens = []
        elif not it.isspace() and not it.startswith("--"):
            tokens.append((place, it))
        place += len(it.encode("utf-8", "surrogateescape"))
    return tokens


def name_in(token):
    return token[1:-1].replace('""', '"') if token.startswith('"') else token


def is_name(token):
    return token.startswith('"') or re.match(r"[A-Za-z_]", token) and token.lower() not in RESERVED


def quoted(name):
    """A name as a script writes it."""
    plain = re.fullmatch(r"[A-Za-z_]\w*", name, re.A) and name.lower() not in RESERVED
    return name if plain else '"' + name.replace('"', '""') + '"'


def named_tables(tokens):
    """The sources of a statement, in order: the alias, the table's name, and the numbers of their tokens."""
    found, wants = [], False
    for number, (_, it) in enumerate(tokens):
        word = it.lower()
        if word in ("from", "join") or word == "," and found and wants is None:
            wants = True
        elif word in ("where", "group", "order", "limit", "on"):
            wants = False
        elif wants and is_name(it):
            after = [one for _, one in tokens[number + 1 : number + 3]]
            after = after[1:] if after[:1] and after[0].lower() == "as" else after[:1]
            has_alias = bool(after and is_name(after[0]))
            found.append((name_in(after[0]) if has_alias else name_in(it), name_in(it), number, has_alias))
            wants = None
    return found


def sources(tokens):
    """The aliases of a statement, in order, and the table's name of each."""
    return [(alias, table) for alias, table, _, _ in named_tables(tokens)]

