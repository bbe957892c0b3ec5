"""What the tools read of the edits that the check must refuse: crates/NAME/must-fail/, which the gate tries, and
crates/NAME/more-edits/, which tools/more-edits tries with them. An edit is read here as the toolchain reads it. It changes nothing."""
import os
import re
from collections import namedtuple

import sources

# `folder` is the crate's folder that it stands in, `breaks` its first line without its sign, '' where it has none.
Edit = namedtuple("Edit", "crate folder name file breaks")
# A text of a file, from one place up to another, and what stands there instead.
Change = namedtuple("Change", "path start end new")
# What a check tells of by itself: a function by its module, its type with its trait ('' for none) and its name, or a cycle of
# calls by its name.
Unit = namedtuple("Unit", "module type name cycle")

TRIED, MORE = "must-fail", "more-edits"
NAME = r"[A-Za-z0-9_-][A-Za-z0-9_.-]*\.edit"
# Stands beside the edits: what tools/more-edits has seen refused.
RECORD = "RECORD"


def edits_of(top, crate, folder):
    """The edits in a folder of a crate, in the order of their names."""
    path = f"{top}/crates/{crate}/{folder}"
    found = []
    for name in sorted(os.listdir(path)) if os.path.isdir(path) else []:
        if name != RECORD:
            first = read(f"{path}/{name}").split("\n")[0] if os.path.isfile(f"{path}/{name}") else ""
            breaks = first[2:].strip() if first.startswith("# ") else ""
            found.append(Edit(crate, folder, name, f"crates/{crate}/{folder}/{name}", breaks))
    return found


def all_edits(top, crate):
    """The edits of a crate, those that the gate tries first."""
    return [it for folder in (TRIED, MORE) for it in edits_of(top, crate, folder)]


def pairs_of(text):
    """The paths, old and new texts of an edit."""
    path, old, found = "", None, []
    for line in text.split("\n"):
        if line.startswith("file: "):
            path = line[len("file: ") :].strip()
        elif line.startswith("old: "):
            old = line[len("old: ") :]
        elif line.startswith("new:"):
            found.append((path, old, re.sub(r"\A ", "", line[len("new:") :])))
            old = None
    return found


def fault_of(top, edit):
    """What is wrong with an edit's form, or None: it says what it breaks, and each old text stands in its file once."""
    if not re.fullmatch(NAME, edit.name):
        return "its name is no NAME.edit of letters, digits, _, - and ."
    if not edit.breaks:
        return "its first line isn't '# ' with what it breaks"
    pairs, texts = pairs_of(read(f"{top}/{edit.file}")), {}
    for path, old, new in pairs:
        if not path or not old:
            return "a 'new:' line stands before any 'file:' or 'old:' line"
        if os.path.normpath(path) != path or not path.startswith(("src/", "specs/", "proofs/")):
            return f"{path} is no file below src/, specs/ or proofs/"
        if path not in texts:
            if not os.path.isfile(f"{top}/crates/{edit.crate}/{path}"):
                return f"there is no file {path}"
            texts[path] = read(f"{top}/crates/{edit.crate}/{path}")
        times = texts[path].count(old)
        if times != 1:
            return f"an 'old:' text stands in {path} {times} times, and not once"
        texts[path] = texts[path].replace(old, new)
    return None if pairs else "it has no pair of an 'old:' and a 'new:' line"


def changes_of(top, edit):
    """The changes of a well-formed edit by their places in the files as they stand, or None where one pair builds on another."""
    found = []
    for path, old, new in pairs_of(read(f"{top}/{edit.file}")):
        text = read(f"{top}/crates/{edit.crate}/{path}")
        if text.count(old) != 1:
            return None
        found.append(Change(path, text.index(old), text.index(old) + len(old), new))
    return found


def applied(text, changes):
    """A file's text with changes that don't meet."""
    for it in sorted(changes, key=lambda it: -it.start):
        text = text[: it.start] + it.new + text[it.end :]
    return text


def unit_of(top, edit):
    """The function, or the cycle of calls, that an edit changes; None where it changes more than one, a constant, or anything
    else that another function's proof may look into."""
    changes = changes_of(top, edit)
    units = {unit_at(read(f"{top}/crates/{edit.crate}/{it.path}"), it) for it in changes or []}
    return units.pop() if len(units) == 1 else None


def unit_at(text, change):
    """The unit whose body has this change."""
    if not change.path.startswith("src/"):
        return None
    lines, at = text.split("\n"), text.count("\n", 0, change.start)
    last = at + text.count("\n", change.start, change.end)
    owner, found = "", None
    for number, line in enumerate(lines[: at + 1]):
        opened = sources.OWNER.match(line)
        if opened:
            whole = " ".join(it.strip() for it in lines[number : number + 6]).split("{")[0]
            of, trait = sources.owner_of(opened[1].split()[-1], sources.OWNER.match(whole)[2])
            owner = (of or "") + (trait or "")
        elif line == "}":
            owner = ""
        said = sources.FUNCTION.match(line)
        if said:
            found = (number, said, owner)
    if not found:
        return None
    number, said, owner = found
    end = next((it for it in range(number, len(lines)) if lines[it].rstrip() == f"{said[1]}}}"), -1)
    if end < last or "const fn" in said[0]:
        return None
    cycles = []
    while number and lines[number - 1].strip().startswith(("#[", "//")):
        number -= 1
        cycles += re.findall(r"#\[cycle\((\w+)\)\]", lines[number])
    module = sources.module_of(f"/{change.path}", "src")
    return Unit(module, "", "", cycles[0]) if cycles else Unit(module, owner, said[3], "")


def read(path):
    with open(path, encoding="utf-8", errors="replace") as it:
        return it.read()
