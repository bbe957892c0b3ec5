"""The record of a crate's edits: which of them the check refused, and over which definitions, contracts and bodies of edits it was.

A record is crates/NAME/more-edits/RECORD. It has a sum of the crate's definitions (specs/), one of its contracts (all of src/
but bodies, comments and attributes), one of the definitions and public contracts of all crates below it, and one of each
edit, with what refused it. tools/more-edits writes it; tools/lint tells of one that no longer fits. It proves nothing."""
import hashlib
import os
import re

import edits
import sources

HEAD = "# Written by tools/more-edits once the check had refused these edits of this crate. tools/lint compares the sums.\n"


def sum_of(texts):
    """A short sum of texts, in this order."""
    made = hashlib.sha256()
    for it in texts:
        made.update(it.encode() + b"\0")
    return made.hexdigest()[:16]


def definitions(repository, crate):
    """A crate's definitions, without comments and blank lines."""
    for file in repository.files(crate, "specs", ".antt"):
        lines = [it.rstrip() for it in repository.text(file).split("\n")]
        yield "\n".join([file, *(it for it in lines if it and not it.lstrip().startswith("--"))])


def contracts(repository, crate, public=False):
    """What src/ says but bodies, comments and attributes: types, ghost items, and functions up to their bodies; the public ones alone."""
    tests = sources.test_modules(repository, crate)
    for file in repository.files(crate, "src", ".rt"):
        if not sources.in_tests(sources.module_of(file, "src"), tests):
            yield "\n".join([file, *outline(repository.text(file), public)])


def outline(text, public):
    lines, at, of_trait = text.split("\n"), 0, False
    while at < len(lines):
        line = lines[at]
        opened = sources.OWNER.match(line)
        of_trait = bool(opened) and (opened[1] != "impl" or " for " in line) or of_trait and line != "}"
        said = sources.FUNCTION.match(line)
        if said:
            head = [it for it in sources.head_of(lines, at, said[1]).split("\n")]
            if not public or of_trait or said[2] == "pub ":
                yield from filter(None, map(str.rstrip, head))
            at += len(head)
            if not head[-1].rstrip().endswith((";", "{}")):
                while at < len(lines) and lines[at] != f"{said[1]}}}":
                    at += 1
                at += 1
            continue
        bare = sources.without_comments(line).rstrip()
        if re.match(r"\s*(pub )?use ", bare):
            while ";" not in lines[at]:
                at += 1
        elif bare and not bare.lstrip().startswith(("#[", "#![", "mod ", "pub mod ")):
            yield bare
        at += 1


class Sums:
    """The sums of a repository's crates, each made once."""

    def __init__(self, repository):
        self.repository, self.seen = repository, {}

    def once(self, key, make):
        if key not in self.seen:
            self.seen[key] = make()
        return self.seen[key]

    def of_definitions(self, crate):
        return self.once(("definitions", crate), lambda: sum_of(definitions(self.repository, crate)))

    def of_contracts(self, crate, public=False):
        return self.once(("contracts", crate, public), lambda: sum_of(contracts(self.repository, crate, public)))

    def of_below(self, crate):
        """The sum of what a crate's proofs can see of those below it."""
        below = sorted(self.repository.all_below(crate))
        return sum_of([part for it in below for part in (it, self.of_definitions(it), self.of_contracts(it, True))])

    def of_crate(self, crate):
        """What a record's head says, by the words that it says it with."""
        return {"definitions": self.of_definitions(crate), "contracts": self.of_contracts(crate), "below": self.of_below(crate)}


def sum_of_edit(top, edit):
    return sum_of([edits.read(f"{top}/{edit.file}")])


def written(sums, refused):
    """The text of a record: the crate's sums, and a line for each edit's name, with its sum and what refused it."""
    lines = [f"{name} {it}" for name, it in sums.items()]
    lines += [f"{name} {made} {by}" for name, (made, by) in sorted(refused.items())]
    return HEAD + "".join(f"{it}\n" for it in lines)


def path_of(top, crate):
    return f"{top}/crates/{crate}/{edits.MORE}/{edits.RECORD}"


def read(top, crate):
    """What a crate's record says: the words of each line by the first one; nothing where there is none."""
    path = path_of(top, crate)
    lines = edits.read(path).split("\n") if os.path.isfile(path) else []
    return {words[0]: words[1:] for words in (it.split(None, 2) for it in lines if not it.startswith("#")) if len(words) > 1}


def held(said, sums, top, crate):
    """The edits that a record has as they are now, over the sums that are now: each name's sum, and what refused it."""
    if any(said.get(name, [""])[0] != it for name, it in sums.items()):
        return {}
    known = {it.name.removesuffix(".edit"): sum_of_edit(top, it) for it in edits.all_edits(top, crate)}
    return {name: (words[0], " ".join(words[1:])) for name, words in said.items() if known.get(name) == words[0]}


def stale(repository, sums, crate):
    """What a crate's record says that no longer holds, or lacks: a list of words, empty where it fits."""
    said, found = read(repository.top, crate), []
    tried = edits.all_edits(repository.top, crate)
    if not tried:
        return ["there is no edit"] if said else []
    if not said:
        return ["there is none"]
    found += [f"{name} changed" for name, it in sums.of_crate(crate).items() if said.get(name, [""])[0] != it]
    names = {it.name.removesuffix(".edit"): it for it in tried}
    found += [f"{name} isn't in it, or changed" for name, it in names.items() if said.get(name, [""])[0] != sum_of_edit(repository.top, it)]
    found += [f"{name} is no edit any more" for name in said if name not in names and name not in sums.of_crate(crate)]
    return found
