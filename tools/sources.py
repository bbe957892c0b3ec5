"""What the tools read of the repository's sources: crates, files, definitions, contracts. It proves and changes nothing."""
import os
import re
from collections import namedtuple

Definition = namedtuple("Definition", "crate module name kind file line comment")
Clause = namedtuple("Clause", "kind name text")
Model = namedtuple("Model", "crate type file line is_public parts words aliases")
Function = namedtuple("Function", "crate module owner name file line is_public has_body is_law clauses words aliases attributes")

NAME = r"[^\W\d][\w'₀-₉]*"


class Repository:
    """The repository at a folder: its crates as crates.txt has them, lowest first where it lists them so."""

    def __init__(self, top):
        self.top = top
        self.below = {}
        for line in read(f"{top}/crates.txt").split("\n"):
            words = line.partition("#")[0].replace(":", " : ").split()
            if ":" in words:
                self.below[words[0]] = words[words.index(":") + 1 :]
        self.crates = [it for it in self.below if os.path.isdir(f"{top}/crates/{it}")]

    def all_below(self, crate):
        """The repository's crates that a crate stands on, directly or not."""
        found, waiting = set(), [crate]
        while waiting:
            for it in self.below.get(waiting.pop(), []):
                if it in self.below and it not in found:
                    found.add(it)
                    waiting.append(it)
        return found

    def files(self, crate, part, ending):
        """The files of a part of a crate, by their paths from the top, in order."""
        found = []
        for at, folders, names in os.walk(f"{self.top}/crates/{crate}/{part}"):
            folders.sort()
            found += [f"{at}/{it}"[len(self.top) + 1 :] for it in names if it.endswith(ending)]
        return sorted(found)

    def text(self, file):
        return read(f"{self.top}/{file}")


def pages(top):
    """The pages that people read, as paths from the top: all but docs/INDEX.md, which a tool makes, and raw runs of bench/."""
    folders = ["docs", "bench", *(f"{it}/{name}" for it in ("examples", "crates") for name in listed(f"{top}/{it}"))]
    found = ["README.md"]
    for folder in folders:
        names = listed(f"{top}/{folder}") if folder == "docs" else ["README.md"]
        found += [f"{folder}/{it}" for it in names if it.endswith(".md") and f"{folder}/{it}" != "docs/INDEX.md"]
    return [it for it in found if os.path.isfile(f"{top}/{it}")]


def listed(folder):
    return sorted(os.listdir(folder)) if os.path.isdir(folder) else []


def read(path):
    with open(path, encoding="utf-8", errors="replace") as it:
        return it.read()


def flat(text):
    """The lines of a spec, where those of a module with parameters stand as those outside."""
    inside = False
    for line in text.split("\n"):
        inside = line.startswith("module ") or inside and not re.match(r"[^\s-]", line)
        yield line[2:] if inside and line.startswith("  ") else line


def definitions(repository, crate):
    """The public definitions of a crate's specs/, by module and name."""
    start = re.compile(r"^(?:(?P<kind>abbrev|unfoldable|opaque|irreducible)\s+)?pub\s+(?P<rest>\S.*)$")
    found = {}
    for file in repository.files(crate, "specs", ".antt"):
        module = module_of(file, "specs")
        comment = []
        for number, line in enumerate(flat(repository.text(file)), 1):
            if line.startswith("--"):
                comment.append(line.lstrip("-").strip())
                continue
            said = start.match(line)
            words = said["rest"].split() if said else []
            kind = said["kind"] or "" if said else ""
            if words[:1] and words[0] in ("record", "data", "ruleset", "class"):
                kind, words = words[0], words[1:]
            if words and words[0] not in ("mod", "use"):
                name = words[0].rstrip(":")
                found[module, name] = Definition(crate, module, name, kind, file, number, " ".join(comment))
            if line.strip() and not line.startswith(("infix", "prefix", "postfix")):
                comment = []
    return found


def module_of(file, part):
    """The module of a file below a crate's part, as 'a.b'; the root's is ''."""
    path = file.split(f"/{part}/", 1)[1].rsplit(".", 1)[0].split("/")
    if path[-1] == "mod" or part == "src" and path in (["lib"], ["main"]):
        path = path[:-1]
    return ".".join(path)


def is_program(repository, crate):
    return os.path.isfile(f"{repository.top}/crates/{crate}/src/main.rt")


def test_modules(repository, crate):
    """The modules of a crate that only its tests have, by their paths."""
    found = []
    for file in repository.files(crate, "src", ".rt"):
        module = module_of(file, "src")
        for name in re.findall(r"#\[cfg\(test\)\]\s*(?:pub(?:\([^)]*\))?\s+)?mod\s+(\w+)\s*[;{]", repository.text(file)):
            found.append(f"{module}.{name}".lstrip("."))
    return found


def in_tests(module, tests):
    return any(module == it or module.startswith(f"{it}.") for it in tests)


def exported(repository, crate):
    """The names of its own that a library passes on from its root, and its public modules; None for a program."""
    if is_program(repository, crate):
        return None
    text = without_comments(repository.text(f"crates/{crate}/src/lib.rt"))
    names, modules = set(), set(re.findall(r"\bmod (\w+)\s*;", text))
    for said in re.findall(r"\bpub use ([^;]+);", text):
        if said.split("::")[0] in set(repository.crates) - modules:
            continue  # (it is a lower crate's, which has it in its own list)
        inside = re.sub(r"\s+", " ", said)
        for part in re.split(r"[{},]", inside):
            last = part.strip().split("::")[-1]
            if re.fullmatch(r"\w+( as \w+)?", last):
                names.add(last.split(" as ")[-1])
    return names | {f"mod {it}" for it in re.findall(r"\bpub mod (\w+)\s*;", text)}


def without_comments(text):
    """The text with each comment blanked out; it keeps its lines."""
    return re.sub(r"//[^\n]*", lambda it: " " * len(it[0]), text)


def balanced(text, at):
    """The end of the braces that open at this place, or the text's end where they stay open."""
    depth = 0
    for place in range(at, len(text)):
        depth += {"{": 1, "}": -1}.get(text[place], 0)
        if not depth:
            return place
    return len(text)


def imports(text):
    """The words and the aliases of a file's `ghost use` items: word to (module, name), alias to module."""
    words, aliases = {}, {}
    for said in re.findall(r"\bghost use ([^;]+);", without_comments(text)):
        said = " ".join(said.split())
        if "{" in said:
            module, _, inside = said.partition(".{")
            for part in inside.rstrip("} ").split(","):
                name, _, other = part.strip().partition(" as ")
                if name:
                    words[other or name] = (module, name)
        else:
            module, _, alias = said.partition(" as ")
            aliases[alias or module.rsplit(".", 1)[-1]] = module
    return words, aliases


OWNER = re.compile(r"^(?:unsafe )?(impl|pub trait|trait|pub\(crate\) trait)\b\s*(.*)$")
FUNCTION = re.compile(r"^(\s*)(pub(?:\([^)]*\))? )?(?:const )?(?:unsafe )?(?:extern \"C\" )?fn (\w+)")


def owner_of(kind, rest):
    """The name of what an impl or a trait speaks of, and of the trait that an impl is of."""
    rest = rest.split("{")[0].strip()
    while rest.startswith("<"):
        depth = 0
        for place, sign in enumerate(rest):
            depth += {"<": 1, ">": -1}.get(sign, 0)
            if not depth:
                break
        rest = rest[place + 1 :].strip()
    if kind != "impl":
        return re.match(r"\w*", rest)[0], None
    trait, split, of = rest.partition(" for ")
    plain = lambda it: re.match(r"\w*", re.sub(r"^(&(mut )?)?", "", it).split("<")[0].split("::")[-1].strip())[0]
    return (plain(of), plain(trait)) if split else (plain(rest), None)


def functions(repository, crate):
    """The functions of a crate that have a contract or are public, but for those of its tests."""
    found, tests, passed = [], test_modules(repository, crate), exported(repository, crate)
    for file in repository.files(crate, "src", ".rt"):
        module = module_of(file, "src")
        if not in_tests(module, tests):
            found += functions_of(repository, crate, file, module, passed)
    return found


def functions_of(repository, crate, file, module, passed):
    text = repository.text(file)
    lines = text.split("\n")
    words, aliases = imports(text)
    found, owner, attributes = [], (None, None, ""), []
    tests_from = next((at for at, it in enumerate(lines) if re.match(r"#\[cfg\(test\)\]", it) and re.match(r"mod \w+ \{", lines[at + 1] if at + 1 < len(lines) else "")), len(lines))
    for number, line in enumerate(lines[:tests_from], 1):
        opened = OWNER.match(line)
        if opened:
            whole = " ".join(it.strip() for it in lines[number - 1 : number + 6]).split("{")[0]
            owner = (*owner_of(opened[1].split()[-1], OWNER.match(whole)[2]), opened[1])
        elif line == "}":
            owner = (None, None, "")
        said = FUNCTION.match(line)
        if said:
            head = head_of(lines, number - 1, said[1])
            name, of, trait = said[3], owner[0], owner[1]
            is_public = visible(said[2], of, trait, owner[2], name, module, passed)
            what = f"{of}::{name}" if of and not trait else f"{trait} for {of}::{name}" if of else name
            has_body = not head.rstrip().endswith(";")
            found.append(Function(crate, module, (of, trait), what, file, number, is_public, has_body, head.rstrip().endswith("{}"), clauses_of(head), words, aliases, attributes))
        attributes = [*attributes, line.strip()] if line.strip().startswith("#[") else attributes if line.strip().startswith("//") else []
    return found


def models(repository, crate):
    """What clauses see of a crate's types: each `impl Model`, with the texts of its ghost members."""
    found, tests, passed = [], test_modules(repository, crate), exported(repository, crate)
    for file in repository.files(crate, "src", ".rt"):
        module, text = module_of(file, "src"), without_comments(repository.text(file))
        if in_tests(module, tests):
            continue
        words, aliases = imports(text)
        for said in re.finditer(r"^impl\b[^{;]*\bModel for (\w+)[^{;]*\{", text, re.M):
            inside = text[said.end() : balanced(text, said.end() - 1)]
            parts = [(name, " ".join(inside[it.end() : balanced(inside, it.end() - 1)].split()))
                     for name in ("Value", "view", "invariant")
                     for it in re.finditer(rf"\bghost {name}\s*=\s*\{{", inside)]
            is_public = passed is None or said[1] in passed or is_in_public(module, passed)
            line = text.count("\n", 0, said.start()) + 1
            found.append(Model(crate, said[1], file, line, is_public, parts, words, aliases))
    return found


def visible(said, of, trait, kind, name, module, passed):
    """Whether other crates can call it; in a program, whether other modules can."""
    if kind.startswith(("trait", "pub trait", "pub(crate) trait")):
        return kind == "pub trait" and (passed is None or of in passed or is_in_public(module, passed))
    if trait:
        return passed is None or of in passed or is_in_public(module, passed)
    if said != "pub ":
        return False
    return passed is None or (of or name) in passed or is_in_public(module, passed)


def is_in_public(module, passed):
    return module == "" or f"mod {module.split('.')[0]}" in passed and "." not in module


def head_of(lines, at, indent):
    """The text of the function whose line this is, up to its body, without comments."""
    taken = []
    for line in lines[at:]:
        taken.append(line)
        bare = line.rstrip()
        if bare in (f"{indent}{{", f"{indent}{{}}") or bare.endswith((";", ") {", "> {")) or re.match(rf"^{indent}\S.*\{{$", bare):
            break
    return without_comments("\n".join(taken))


def clauses_of(text):
    """The clauses of a function's text."""
    found, place = [], 0
    begin = re.compile(r"\b(requires|ensures)(\*?)\s+(?:(\w+)\s+)?\{")
    while True:
        said = begin.search(text, place)
        if not said:
            return found
        end = balanced(text, said.end() - 1)
        found.append(Clause(said[1] + said[2], said[3] or "", " ".join(text[said.end() : end].split())))
        place = end


def cited(function, known):
    """The repository's definitions that each clause of a function, or member of a model, cites, in their order there.
    `known` has each crate's definitions, by crate, and there by module and name."""
    def of(module, name):
        parts = module.split(".")
        if len(parts) < 3 or parts[0] != "Rattle" or parts[2] != "specs" or parts[1] not in known:
            return None
        return known[parts[1]].get((".".join(parts[3:]), name))

    signs = {word: [it for it in word.split("◌") if it] for word in function.words if "◌" in word}
    def names_in(text):
        names = []
        for dotted in re.findall(rf"{NAME}(?:\.{NAME})*", text):
            first, _, rest = dotted.partition(".")
            if first in function.words:
                names.append(of(*function.words[first]))
            elif first in function.aliases and rest:
                names.append(of(function.aliases[first], rest.split(".")[0]))
        for word, parts in signs.items():
            if parts and all(it in text for it in parts):
                names.append(of(*function.words[word]))
        return list(dict.fromkeys(it for it in names if it))

    if isinstance(function, Model):
        return [(part, names_in(text)) for part, text in function.parts]
    return [(clause, names_in(clause.text)) for clause in function.clauses]


def proof_folders(repository, crate):
    """The folders below a crate's proofs/, by their paths from the top."""
    return sorted(at[len(repository.top) + 1 :] for at, _, _ in os.walk(f"{repository.top}/crates/{crate}/proofs"))


def proof_of(repository, function):
    """How a function's proof came: by hand in files, with lemmas named beside it, or with nothing written."""
    if not function.has_body:
        return "each implementation's"
    of, trait = function.owner
    name = function.name.split("::")[-1]
    cycles = [it for line in function.attributes for it in re.findall(r"#\[cycle\((\w+)\)\]", line)]
    inside = (of or "") + (trait or "")
    folder = f"crates/{function.crate}/proofs/{function.module.replace('.', '/')}".rstrip("/")
    places = [f"{folder}/{inside}/{it}".replace("//", "/") for it in (name, f"+{name}")] + [f"{folder}/+{it}" for it in cycles]
    # (a method's folder stands where its type is declared)
    places += [it for it in proof_folders(repository, function.crate) if of and it.endswith(f"/{inside}/{name}")]
    for place in places:
        at = f"{repository.top}/{place}"
        files = sorted(it[:-5] for it in os.listdir(at) if it.endswith(".antt")) if os.path.isdir(at) else []
        if files:
            return f"by hand ({', '.join(files)})"
    if any("using(" in it or "unfolding(" in it for it in function.attributes):
        return "lemmas named"
    return "nothing written"


START = re.compile(rf"^(?:(?:abbrev|unfoldable|opaque|irreducible)\s+)?(?:pub\s+)?(?:(?:record|data|class)\s+)?(?P<name>{NAME}|\S*◌\S*)(?:\s|$)")


def spec_imports(text):
    """The words and the aliases of a spec's `use` lines: word to (module, name), alias to module."""
    words, aliases = {}, {}
    for line in text.split("\n"):
        said = re.match(r"use (\S+?)(?:\.\{(.*)\})?(?: as (\S+))?$", line)
        if not said:
            continue
        module, inside, alias = said.groups()
        for part in (inside or "").split(","):
            name, _, other = part.strip().partition(" as ")
            if name:
                words[other or name] = (module, name)
        if inside is None:
            aliases[alias or module.rsplit(".", 1)[-1]] = module
    return words, aliases


Body = namedtuple("Body", "crate module name file line lines text words aliases")


def bodies(repository, crate):
    """Each definition of a crate's specs/, private ones too, by module and name: its lines without comments, and its text."""
    found = {}
    for file in repository.files(crate, "specs", ".antt"):
        module, text = module_of(file, "specs"), repository.text(file)
        words, aliases = spec_imports(text)
        now = None
        for number, line in enumerate(flat(text), 1):
            if line.startswith("module "):
                now = None
                continue
            if not line.strip() or line.startswith(("use ", "infix", "prefix", "postfix", "pub mod ", "mod ")) or line.lstrip().startswith("--"):
                continue
            said = START.match(line)
            if said and said["name"] != now:
                now = said["name"]
                found.setdefault((module, now), [file, number, [], words, aliases])
            if now:
                found[module, now][2].append(line)
    return {at: Body(crate, *at, file, number, len(lines), "\n".join(lines), words, aliases)
            for at, (file, number, lines, words, aliases) in found.items()}


def fields_of(body):
    """The texts of a record's fields, by name, and under '' what comes before the first."""
    found, now = {"": []}, ""
    for line in body.text.split("\n"):
        said = re.match(rf"  (?:pub\s+)?({NAME})\s*:", line)
        now = said[1] if said else now
        found.setdefault(now, []).append(line)
    return {name: "\n".join(lines) for name, lines in found.items()}


def chains(repository):
    """The bodies of all definitions, by crate, and a function that says which of them one cites, by its (crate, module, name);
    with a text, which of them that part of it cites."""
    known = {crate: bodies(repository, crate) for crate in repository.crates}

    def place(module, name):
        parts = module.split(".")
        if len(parts) < 3 or parts[0] != "Rattle" or parts[2] != "specs" or parts[1] not in known:
            return None
        inside = ".".join(parts[3:])
        return (parts[1], inside, name) if (inside, name) in known[parts[1]] else None

    def cites(at, text=None):
        crate, module, name = at
        body = known[crate][module, name]
        text = body.text if text is None else text
        found = []
        for dotted in re.findall(rf"{NAME}(?:\.{NAME})*", text):
            first, _, rest = dotted.partition(".")
            if first in body.words:
                found.append(place(*body.words[first]))
            elif first in body.aliases and rest:
                found.append(place(body.aliases[first], rest.split(".")[0]))
            elif (module, first) in known[crate]:
                found.append((crate, module, first))
        for word, where in body.words.items():
            parts = [it for it in word.split("◌") if it]
            if "◌" in word and parts and all(it in text for it in parts):
                found.append(place(*where))
        return [it for it in dict.fromkeys(found) if it and it != at]

    return known, cites


def reached(cites, beginnings):
    """All definitions that a chain of citations comes to from these, and these."""
    found, waiting = set(), list(beginnings)
    while waiting:
        at = waiting.pop()
        if at not in found:
            found.add(at)
            waiting += cites(at)
    return found
