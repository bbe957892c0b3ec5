"""What to write in place of what the dialect hasn't, by what is around a syntax fault. A construct that comes into it loses its row.

A row has the clauses that the fault may be in (empty for all), what ends before its place, what begins there, and what is said. What
ends and what begins are forms over the statement's tokens, with a blank between two, in lower case but for texts and delimited names.
"""
import re

from statements import RESERVED, folded, is_name, name_in, quoted

NO_DATES = "a date is a text, as '2026-01-31': the days of a month are day >= '2026-01-01' AND day < '2026-02-01'"
SECOND_RUN = "run a second script over the answer"
INNER = "write the inner query's answer to a file first, and name that as a table: eddyql -c 'SELECT ..' t.csv > inner.csv"
COLUMNS_ALONE = "the select list has columns, COUNT, SUM, MIN and MAX alone: work out the rest from the answer"

# What is said of a function that isn't there, by its name.
OF_FUNCTIONS = {
    "avg": "AVG isn't in the dialect: select SUM(x) and COUNT(x), and divide",
    **dict.fromkeys(("coalesce", "ifnull", "nvl", "nullif", "isnull"), "a null is asked for by x IS NULL; --null N/A reads a text as null on the way in"),
    **dict.fromkeys(("upper", "lower", "ucase", "lcase", "trim", "ltrim", "rtrim", "replace", "concat", "substr", "substring", "left", "right", "instr", "length", "len",
                     "char_length", "split_part", "regexp_replace", "regexp_matches", "contains", "starts_with"),
                    "there are no functions of texts: change the file before the run; a text's front is x >= 'ab' AND x < 'ac'"),
    **dict.fromkeys(("round", "abs", "floor", "ceil", "ceiling", "mod", "power", "sqrt", "trunc", "greatest", "least"),
                    "there are no functions of numbers: a condition has sums, as 2 * x - y > 3; work out the rest from the answer"),
    **dict.fromkeys(("date", "datetime", "strftime", "extract", "year", "month", "day", "date_trunc", "date_part", "julianday", "now", "current_date", "to_date", "datediff"), NO_DATES),
    **dict.fromkeys(("row_number", "rank", "dense_rank", "lag", "lead", "ntile", "first_value", "last_value"),
                    "window functions aren't in the dialect: ORDER BY with LIMIT gives the first records; a table joined with itself compares rows"),
    **dict.fromkeys(("group_concat", "string_agg", "array_agg", "listagg", "median", "stddev", "variance", "percentile_cont", "total", "any_value"),
                    "the set functions are COUNT, SUM, MIN and MAX: sort the rows by the group, and work out the rest from the answer"),
    "exists": f"EXISTS isn't in the dialect: join with the other table, and select DISTINCT; or {INNER}",
    "cast": "CAST isn't in the dialect: --type T.C=dec2 gives a column its type on the way in",
    "try_cast": "CAST isn't in the dialect: --type T.C=dec2 gives a column its type on the way in",
    "iif": f"CASE isn't in the dialect: write a statement for each case, or {SECOND_RUN}",
    "if": f"CASE isn't in the dialect: write a statement for each case, or {SECOND_RUN}",
}

ROWS = (
    # Texts that are no tokens.
    ("", "", "\ufeff", "the script begins with a byte order mark: save it as UTF-8 without one"),
    ("", "", "[\u2018\u2019\u201a\u201b]", "a curly quote: a text is between straight ones, 'so'"),
    ("", "", "[\u201c\u201d\u201e]", "a curly quote: a text is between straight ones, 'so', and a name, \"so\""),
    ("", "", r"/ \*", "a comment begins with -- and goes to the end of its line"),
    ("", "", "#", "a comment begins with -- and goes to the end of its line"),
    ("", "", "`", 'a name is between double quotes: "so"'),
    ("", "", r"\[", 'a name is between double quotes: "so"'),
    ("", "", ": :", OF_FUNCTIONS["cast"]),
    ("", "", r"[?@$:]", "there are no parameters: write the value itself"),
    # How a statement begins.
    ("", "^", r"\. (import|read|open)\b", "a table is a word of the command line: t=FILE.csv, or FILE.csv alone"),
    ("", "^", r"\. (tables?|schema|headers?)\b", "eddyql tables TABLE.. shows the columns"),
    ("", "^", r"[.\\]", "a script has SELECTs alone; eddyql --help has the words for the rest"),
    ("", "^", r"with\b", f"WITH isn't in the dialect: {INNER}"),
    ("", "^", r"(show|describe|desc|pragma)\b", "eddyql tables TABLE.. shows the columns"),
    ("", "^", r"explain\b", "eddyql explain SCRIPT TABLE.. shows what the eddy does"),
    ("", "^", r"(insert|update|delete|create|drop|alter|merge|copy|attach|load|replace|truncate)\b", "a script has SELECTs alone: a table is a file, and an answer is written to one by > FILE"),
    ("", "^", r"(from|values|table)\b", "a statement begins with SELECT: SELECT * FROM t"),
    ("", "^", r"\( select\b", "a statement has no parentheses around it"),
    ("", "^", r"\w", "a statement begins with SELECT: SELECT * FROM t"),
    # Joins, subqueries and set operations.
    ("", "", r"(natural|using)\b", "NATURAL and USING aren't in the dialect: FROM a JOIN b ON a.x = b.x"),
    ("", r"\b(natural|using|anti|semi|asof|lateral|positional)$", "", "the only join is FROM a JOIN b ON a.x = b.x"),
    ("", "", r"(left|right|full|outer)\b(?! \()", "the only join is FROM a JOIN b ON a.x = b.x; it has the rows that match"),
    ("from", r"\bjoin (\S+ )*\S+$", r"(where|group|order|limit|join|inner|cross|,|;|$)", "JOIN wants a condition: ON a.x = b.x; CROSS JOIN has none"),
    ("from", r"(\bfrom|\bjoin|,)$", r"\(", f"a query in FROM isn't in the dialect: {INNER}"),
    ("from", "", r"\. (csv|tsv|txt)\b", "a table is a name: t, and t=FILE.csv on the command line"),
    ("from", r"(\bfrom|\bjoin|,)$", "'", "a table is a name: t, and t=FILE.csv on the command line"),
    ("", r"\bin \($", r"select\b", f"a subquery isn't in the dialect: join with the other table, and select DISTINCT; or {INNER}"),
    ("", "", r"\( select\b", f"a subquery isn't in the dialect: {INNER}"),
    ("", r"\( *$", r"select\b", f"a subquery isn't in the dialect: {INNER}"),
    ("", r"\b(any|all|some)$", r"\(", f"a subquery isn't in the dialect: {INNER}"),
    ("", "", r"union\b", "UNION isn't in the dialect: write two statements, with ; between them; several files of one table are t=a.csv t=b.csv"),
    ("", r"\bintersect$", r"(select|all)\b", "INTERSECT isn't in the dialect: SELECT DISTINCT a.x FROM a JOIN b ON a.x = b.x"),
    ("", r"\b(except|minus)$", r"(select|all)\b", "EXCEPT isn't in the dialect: write both answers to files, and compare them with comm"),
    # Words of other dialects.
    ("", r"^select (distinct |all )?top$", r"\d", "TOP isn't in the dialect: LIMIT 5 is at the end of the statement"),
    ("", r"\bdistinct$", r"on \(", "DISTINCT ON isn't in the dialect: GROUP BY x with MIN or MAX of the other columns"),
    ("", r"\b(fetch|limit)$", r"(first|next|all)\b", "LIMIT 5 is at the end of the statement"),
    ("", r"\bfetch$", "", "LIMIT 5 is at the end of the statement"),
    ("", "", r"(fetch|offset|qualify)\b", "OFFSET and FETCH aren't in the dialect: LIMIT 5 keeps the first records, and tail -n +N drops some"),
    ("", r"\boffset$", "", "OFFSET isn't in the dialect: pipe the answer through a tool that drops the first records"),
    ("limit", r"\blimit \d+$", ",", "OFFSET isn't in the dialect: pipe the answer through a tool that drops the first records"),
    ("limit", "", r"order\b", "ORDER BY is before LIMIT"),
    ("limit", "", r"(where|group)\b", "WHERE, GROUP BY, ORDER BY and LIMIT come in this order"),
    ("order", "", r"(where|group)\b", "WHERE, GROUP BY, ORDER BY and LIMIT come in this order"),
    ("group", "", r"where\b", "WHERE, GROUP BY, ORDER BY and LIMIT come in this order"),
    ("", "", r"having\b", f"HAVING isn't in the dialect: {SECOND_RUN}, with WHERE"),
    ("", r"\bover$", r"\(", OF_FUNCTIONS["row_number"]),
    ("", "", r"case\b", f"CASE isn't in the dialect: write a statement for each case, or {SECOND_RUN}"),
    ("", "", r"cast\b", OF_FUNCTIONS["cast"]),
    ("", "", r"exists\b", OF_FUNCTIONS["exists"]),
    ("", "", r"(not )?(i?like)\b", "LIKE isn't in the dialect: for LIKE 'ab%' write x >= 'ab' AND x < 'ac'"),
    ("", "", r"(not )?(regexp|rlike|glob|similar|match|~)", "patterns aren't in the dialect: a text's front is x >= 'ab' AND x < 'ac'; filter the file by grep for the rest"),
    ("", "", r"(isnull|notnull|not null)\b", "x IS NULL, and x IS NOT NULL"),
    ("", r"\bnot$", r"null\b", "x IS NULL, and x IS NOT NULL"),
    ("where on", r"<=$", ">", "a comparison with null is Unknown: x = y OR x IS NULL AND y IS NULL"),
    ("where on", r"\bextract \( \w+$", r"from\b", NO_DATES),
    ("", r"\bin \($", r"\)", "IN has one value at least"),
    ("", r"\b(order|group)$", "", "ORDER BY and GROUP BY are two words each"),
    ("", r"\btablesample$", "", "TABLESAMPLE isn't in the dialect: LIMIT keeps the first records"),
    ("", r"\bis( not)?$", r"distinct\b", "IS DISTINCT FROM isn't in the dialect: (x = y) IS NOT TRUE"),
    ("", r"\bbetween (symmetric|asymmetric)$", "", "BETWEEN has the least value first"),
    ("where on", r"\bbetween (\S+ \. )?\S+$", r"(or\b|,|\)|;|$)", "BETWEEN has two values: x BETWEEN 1 AND 9"),
    ("", "", r"= =", "equality is one sign: ="),
    ("", r"=$", "=", "equality is one sign: ="),
    ("", "", r"& &", "AND, OR and NOT are words"),
    ("where on", "", r"\| \|", "AND, OR and NOT are words; texts aren't joined in the dialect"),
    ("where on", "", "!", "NOT is a word, and x <> y compares"),
    ("where on", r"[=<>]$", r"(true|false|unknown)\b", "a table has no truth values: compare with what is in the column, as 1 or 'true'"),
    ("", r"\b(date|time|timestamp|datetime|interval)$", "'", NO_DATES),
    # Numbers and sums.
    ("", r"\d$", r"\. \d", "a script has whole numbers alone: for price < 1.5 write 10 * price < 15"),
    ("", r"\d \.$", r"\d", "a script has whole numbers alone: for price < 1.5 write 10 * price < 15"),
    ("", r"(^|[^\w.\s\"])$", r"\. \d", "a script has whole numbers alone: for price < 1.5 write 10 * price < 15"),
    ("", r"\d$", r"e\d*\b", "a script has whole numbers alone, without an exponent"),
    ("where on", r"\( (\S+ )*[-+*] (\S+ \. )?\S+$", r"\) ([-+*/<>=]|between|in\b)", "a sum has no parentheses: write 2 * a + 2 * b in place of 2 * (a + b)"),
    ("where on", r"\)$", r"[-+*/%]", "a sum has no parentheses: write 2 * a + 2 * b in place of 2 * (a + b)"),
    ("where on", r"[-+*] ?$", r"\(", "a sum has no parentheses: write 2 * a + 2 * b in place of 2 * (a + b)"),
    ("where on", r"\*$", "", "a sum multiplies a column by a number alone"),
    ("where on", "", r"\*", "a sum multiplies a column by a number alone"),
    ("where on", "", "[/%]", "there is no division: for x / y > 2 write x > 2 * y, where y is positive"),
    # The select list, GROUP BY and ORDER BY.
    ("select", r"\bcount \($", r"distinct\b", "COUNT(DISTINCT x) isn't in the dialect: SELECT DISTINCT x, and COUNT(*) in a second run over that answer"),
    ("select", r"\b(sum|min|max) \($", r"distinct\b", "DISTINCT isn't in set functions: SELECT DISTINCT x, and the set function in a second run over that answer"),
    ("select", r"\bcount \($", r"\d", "COUNT(*) counts rows"),
    ("select", r"\b(count|sum|min|max) \( ?[^()]*$", "", "a set function is of one column; work out sums of several in the file"),
    ("select", r"\bfilter$", r"\(", "FILTER isn't in the dialect: write a statement with WHERE"),
    ("select", r"\*$", r"(except|exclude|replace)\b", "* has all columns: name those that are wanted"),
    ("select", r"^select (distinct |all )?\*$", ",", "* is alone: with other items write t.*, of each table"),
    ("select", r"\bas$", "'", 'a name is between double quotes: AS "so"'),
    ("select", "", r"(\d|')", "the select list has no constants: put them into the answer afterwards"),
    ("select", "", r"[-+*/%(|]", COLUMNS_ALONE),
    ("select", r",$", r"from\b", "there is a comma too many before FROM"),
    ("order", r"(\bby|,)$", r"\d", "ORDER BY names columns: ORDER BY total DESC"),
    ("group", r"(\bby|,)$", r"\d", "GROUP BY names columns: GROUP BY city"),
    ("group", r"by$", r"(all|rollup|cube|grouping)\b", "GROUP BY names columns: GROUP BY city"),
    ("order group", "", r"[-+*/%(]", "GROUP BY and ORDER BY have columns alone"),
    ("select", "", "$", "a statement is SELECT columns FROM tables"),
    # A condition that compares nothing.
    ("where on", r"\b(and|or|not)$", r"(group\b|order\b|limit\b|where\b|\)|;|$)", "a condition is missing after AND, OR or NOT"),
    ("where on", r"(\b(where|on|and|or|not)|\() (\S+ \. )?[^\s()<>=]+$", r"(and\b|or\b|\)|group\b|order\b|limit\b|where\b|join\b|;|$)", "a condition compares: {bare} = 1, or {bare} = 'yes', or {bare} IS NOT NULL"),
)
CLAUSES = ("select", "from", "on", "where", "group", "order", "limit")


def clause_of(words):
    """The clause that comes last in words, at the depth of the statement."""
    found, depth = "", 0
    for it in words:
        depth += (it == "(") - (it == ")")
        if depth == 0 and it in CLAUSES or it == "join":
            found = "from" if it == "join" else it
    return found


def as_words(tokens):
    return [it if it[0] in "'\"" else it.lower() for _, it in tokens]


def called(before, rest):
    """The function that is called at the fault's place: one whose parenthesis opens there, or has closed before it."""
    if rest[:1] == ["("] and before and re.match(r"[a-z_]", before[-1]):
        return before[-1]
    depth = 0
    for at in range(len(before) - 1, 0, -1):
        depth += (before[at] == ")") - (before[at] == "(")
        if depth == 0 and at < len(before) - 1 and before[-1] == ")":
            return before[at - 1] if re.match(r"[a-z_]", before[at - 1]) and before[at - 1] not in RESERVED - {"left", "right", "exists", "cast"} else None
    return None


def name_here(before, rest, columns):
    """What is said of a column whose name is the words here, and is no word: with a blank or another sign in it, or reserved."""
    front = before[-1:] if before and is_name(before[-1]) else []
    for begins in ([], front):
        for length in (5, 4, 3, 2, 1):
            words = [*begins, *rest[: length - len(begins)]]
            name = "".join(name_in(it) for it in words)
            found = next((it for it in columns if folded(it.replace(" ", "")) == folded(name) and quoted(it) != it), None)
            if found and not any(it.startswith('"') for it in words):
                return [f"a name that is no plain word is between double quotes: {quoted(found)}"]
    return []


def instead(tokens, at, columns):
    """What to write in place of what is at a place of a statement's tokens; the columns are those of its tables."""
    before, rest = ([*it] for it in (as_words([one for one in tokens if one[0] < at]), as_words([one for one in tokens if one[0] >= at])))
    if rest[:1] in (["'"], ['"']):
        return [f"this quote is never closed; one inside is doubled: {rest[0]}Ada{2 * rest[0]}s{rest[0]}"]
    function, clause = called(before, rest), clause_of(before)
    if clause != "from" and (said := name_here(before, rest, columns)):
        return said
    if function in OF_FUNCTIONS:
        return [OF_FUNCTIONS[function]]
    front, here = " ".join(before), " ".join(rest)
    for clauses, ends, begins, said in ROWS:
        if (not clauses or clause in clauses.split()) and re.search(f"(?:{ends})$" if ends not in ("", "^") else "^$" if ends else "", front) and re.match(begins, here):
            bare = front.rpartition(" ")[2]
            return [said.format(bare=bare) if "{bare}" in said else said]
    return []
