#!/usr/bin/env python3
"""What a reader must believe: the definitions that a statement names, and those that they name, to the last.

tools/believed.py           writes docs/BELIEVED.md
tools/believed.py --check   fails if docs/BELIEVED.md is not what would be written
tools/believed.py --list    prints each definition with its place and its lines, statement by statement

Names are followed, not files: of a file that has ten definitions only those count that the statement reaches. A definition's lines are
its signature and its clauses, constructors or fields; the head of a section counts once if something in it is reached. Imports and
blank lines do not count; comments are counted apart. A struct or an enum of the code counts by its lines there. Names of the kit's
library (numbers, lists, Booleans, paths) are not followed.
"""
import os
import re
import sys
import textwrap

ROOT = os.path.dirname(os.path.dirname(os.path.abspath(__file__)))
TABLE = os.path.join(ROOT, "docs", "BELIEVED.md")

# the records by which the contracts of the service's entry points speak
SERVED = ("CheckServed", "TrimServed", "BillServed", "HandoverServed", "ReplayServed", "AcrossServed")
SERVICE = [("service_spec", "Promise", name) for name in SERVED] + [("service_spec", "Opening", "service_for")]

# a statement: what it is called, and the definitions that a contract states it by
STATEMENTS = [
    ("Demand 3: an accepted image is true in every run, format included", [("source", "TrueFor", "TrueFor")]),
    ("Demand 2: obligations, rules and claims", [("source", "Means", "Means"), ("logic_outline", "Judged", "Judged")]),
    ("The verdict's words for them", [("checker_spec", "Promise", "SourceJudged")]),
    ("Demand 1: faults in form, the record's bytes, and demands 2 and 3 by decoding", [("checker_spec", "Promise", "Promise")]),
    ("Bills", [("bill_spec", "Promise", "Promise"), ("bill_spec", "Promise", "Written")]),
    ("`trim_image`", [("trim", "Promise", "Promise")]),
    ("`replay_trace` and `replay_into`", [("replay_spec", "Promise", "Written"), ("replay_spec", "Promise", "Into")]),
    ("`check_handover`", [("handover_spec", "Promise", "Promise")]),
    ("`replay_handover`", [("handover_replay", "Promise", "Written")]),
    ("The calls of a service", SERVICE),
]

SPLIT = re.compile(r"[\s(){}\[\],;]+")
MARKS = r"(?:(?:abbrev|unfoldable|pub|data|record)\s+)*"
SIGNATURE = re.compile(r"^" + MARKS + r"([^\s:({=]+)(?=[\s:({])")


class Definition:
    """One definition: where it stands, its lines, and the text in which names are looked up."""

    def __init__(self, place, name):
        self.place = place
        self.name = name
        self.lines = 0
        self.comments = 0
        self.text = []
        self.heads = []
        self.kind = ""

    def key(self):
        return self.place + (self.name,)


class Module:
    """One file of definitions, with the names that it imports."""

    def __init__(self, place):
        self.place = place
        self.defined = {}
        self.owner = {}
        self.imported = {}
        self.aliases = {}


def target(path):
    """The crate and module that an import names; None for a module of the kit."""
    found = re.match(r"Rattle\.([^.]+)\.specs\.(.*)$", path)
    if not found:
        return None
    crate, module = found.group(1), found.group(2)
    parts = module.split(".")
    if parts[0] == "declared":
        return (crate, "declared." + parts[1])
    return (crate, module)


def add_import(module, line):
    """Takes one import line into the module's names."""
    found = re.match(r"use (\S+?)(?:\.\{(.*)\})?(?: as (\S+))?$", line.strip())
    path, names, alias = found.group(1), found.group(2), found.group(3)
    place = target(path)
    if place is None:
        return
    if names is None:
        module.aliases[alias or path.split(".")[-1]] = place
        return
    for item in names.split(","):
        whole, _, other = item.strip().partition(" as ")
        short = whole.split(".")[-1]
        module.imported[other or short] = (place, short if "." in whole else whole)
        module.imported[whole] = (place, short)


def indent(line):
    return len(line) - len(line.lstrip(" "))


class Reader:
    """Reads one file line by line: sections by their indentation, and in them definitions."""

    def __init__(self, module):
        self.module = module
        self.sections = []
        self.current = None
        self.pending = []
        self.open_head = None

    def level(self):
        return self.sections[-1][0] if self.sections else 0

    def begin(self, line):
        """A definition begins at this line, or the current one goes on with a clause."""
        name = SIGNATURE.match(line.strip()).group(1)
        if self.current is not None and name == self.current.name:
            return
        self.current = Definition(self.module.place, name)
        kind = re.match(r"(?:pub )?(data|record) ", line.strip())
        self.current.kind = kind.group(1) if kind else ""
        self.current.comments = len(self.pending)
        self.current.heads = [head for _, head in self.sections]
        self.pending = []
        self.module.defined[name] = self.current

    def section(self, line):
        """The head of a section, which may take several lines."""
        if self.open_head is None:
            head = Definition(self.module.place, "module at %d" % len(self.module.defined))
            head.name += " " + line.strip()
            head.comments = len(self.pending)
            self.pending = []
            self.open_head = (indent(line) + 2, head)
        self.open_head[1].lines += 1
        self.open_head[1].text.append(line)
        if line.rstrip().endswith(" where"):
            self.sections.append(self.open_head)
            self.open_head = None
        self.current = None

    def read(self, line):
        body = line.strip()
        if self.open_head is not None:
            self.section(line)
        elif not body:
            self.pending = []
        elif body.startswith("use "):
            add_import(self.module, line)
        elif body.startswith("--"):
            self.comment(line)
        else:
            self.statement(line, body)

    def comment(self, line):
        inside = self.current is not None and indent(line) > self.level()
        if inside:
            self.current.comments += 1
        else:
            self.pending.append(line)

    def statement(self, line, body):
        closing = body[0] in "})]"
        while self.sections and indent(line) < self.level():
            self.sections.pop()
            self.current = None
        if (closing or indent(line) > self.level()) and self.current is not None:
            self.current.lines += 1
            self.current.text.append(line)
            return
        if body.startswith("module _"):
            self.section(line)
            return
        if body.startswith("pub mod ") or body.startswith("unfolding "):
            return
        self.begin(line)
        self.current.lines += 1
        self.current.text.append(line)


def members(definition):
    """The constructors of a data type, or the fields of a record."""
    names = []
    for line in definition.text[1:]:
        found = re.match(r"^\s+(?:pub )?([^:(]+?) :", line)
        if found and indent(line) == indent(definition.text[0]) + 2:
            names += found.group(1).split()
    return names


def read_module(place, path):
    module = Module(place)
    reader = Reader(module)
    with open(path, encoding="utf-8") as file:
        for line in file.read().split("\n"):
            reader.read(line)
    for definition in list(module.defined.values()):
        if definition.kind == "data":
            for name in members(definition):
                module.owner[name] = definition
    return module


def read_code(place, path):
    """The structs and enums of a file of code, as definitions."""
    module = Module(place)
    current, comments = None, 0
    with open(path, encoding="utf-8") as file:
        for line in file.read().split("\n"):
            found = re.match(r"^pub (struct|enum) (\w+)", line)
            if found:
                current = Definition(place, found.group(2))
                current.kind, current.comments = found.group(1), comments
                module.defined[current.name] = current
            if current is not None:
                if line.strip().startswith("//"):
                    current.comments += 1
                elif line.strip():
                    current.lines += 1
                    current.text.append(line)
                variant = re.match(r"^    (\w+)", line)
                if variant and current.kind == "enum":
                    module.owner.setdefault(variant.group(1), current)
            if line.startswith("}") or (found and line.rstrip().endswith(";")):
                current = None
            comments = comments + 1 if line.startswith("//") else comments if line.startswith("#[") else 0
    for name, definition in module.defined.items():
        for other in module.defined:
            module.imported.setdefault(other, (place, other))
    return module


def code_imports(modules, crate, stem, path):
    """The types of other files that a file of code uses."""
    module = modules[(crate, "declared." + stem)]
    with open(path, encoding="utf-8") as file:
        for found in re.finditer(r"^use (\w+)::(\w+)::(\w+);", file.read(), re.M):
            owner = crate if found.group(1) == "crate" else found.group(1)
            module.imported[found.group(3)] = ((owner, "declared." + found.group(2)), found.group(3))


def read_all():
    modules = {}
    crates = os.path.join(ROOT, "crates")
    for crate in sorted(os.listdir(crates)):
        for folder, ending, read in (("specs", ".antt", read_module), ("src", ".rt", read_code)):
            base = os.path.join(crates, crate, folder)
            for name in sorted(os.listdir(base)) if os.path.isdir(base) else []:
                stem, extension = os.path.splitext(name)
                if extension == ending:
                    place = (crate, stem if folder == "specs" else "declared." + stem)
                    modules[place] = read(place, os.path.join(base, name))
                    if folder == "src":
                        code_imports(modules, crate, stem, os.path.join(base, name))
    return modules


def bound(text):
    """The names that a definition binds itself: parameters, variables under λ, in let."""
    names = set()
    for found in re.finditer(r"[({]([^(){}:]+) :", text):
        names.update(found.group(1).split())
    for found in re.finditer(r"λ ([^.]+?)\. ", text):
        names.update(SPLIT.split(found.group(1)))
    return names


class Follower:
    """Follows names from a statement."""

    def __init__(self, modules):
        self.modules = modules

    def lookup(self, place, name):
        module = self.modules.get(place)
        if module is None:
            return None
        return module.defined.get(name) or module.owner.get(name)

    def resolve(self, module, token):
        """The definition that a name stands for, in this file."""
        if token in module.imported:
            return self.lookup(*module.imported[token])
        own = module.defined.get(token) or module.owner.get(token)
        if own is not None:
            return own
        first, dot, rest = token.partition(".")
        if not dot:
            return None
        if first in module.aliases:
            place = module.aliases[first]
            return self.lookup(place, rest) or self.lookup(place, rest.split(".")[-1])
        if first in module.imported:
            return self.lookup(*module.imported[first])
        return module.defined.get(first)

    def tokens(self, definition):
        """The names in a definition, without fields, binders and what stands left of an equals sign."""
        heads = "\n".join(line for head in definition.heads for line in head.text)
        text = "\n".join(definition.text)
        hidden = bound(heads + " " + text)
        if definition.kind == "record":
            hidden.update(members(definition))
            text = re.sub(r"(?m)^(\s+(?:pub )?)[^:(]+? :", r"\1 :", text)
        text = re.sub(r"([{;])\s*[^\s={};]+\s*=", r"\1 ", text)
        module = self.modules[definition.place]
        if definition.place[1].startswith("declared."):
            return set(re.findall(r"\w+", text)) - {definition.name}
        for line in definition.text:
            left, equals, _ = line.partition(" = ")
            if equals and SIGNATURE.match(line.strip()) and line.strip().startswith(definition.name):
                for token in SPLIT.split(left):
                    known = self.resolve(module, token)
                    if known is None or known.kind not in ("data", "enum"):
                        hidden.add(token)
        found = {token.rstrip(".") for token in SPLIT.split(heads + "\n" + text) if token and not token.startswith(".")}
        return {token for token in found if token not in hidden and token.partition(".")[0] not in hidden}

    def follow(self, roots, before):
        """The definitions that the roots reach, without those before."""
        reached, stack = {}, list(roots)
        while stack:
            definition = stack.pop()
            if definition.key() in reached or definition.key() in before:
                continue
            reached[definition.key()] = definition
            module = self.modules[definition.place]
            for token in self.tokens(definition):
                named = self.resolve(module, token)
                if named is not None:
                    stack.append(named)
        return reached


def count(reached, heads_before):
    """Definitions, lines, comments and files of what was reached; heads of sections are counted once."""
    heads = {}
    for definition in reached.values():
        for head in definition.heads:
            if head.key() not in heads_before:
                heads[head.key()] = head
    everything = list(reached.values()) + list(heads.values())
    files = {definition.place for definition in reached.values()}
    heads_before.update(heads)
    return len(reached), sum(d.lines for d in everything), sum(d.comments for d in everything), len(files)


def rows(modules):
    """A row for each statement, each besides those above it."""
    follower, before, heads = Follower(modules), {}, {}
    for title, names in STATEMENTS:
        roots = [follower.lookup((crate, module), name) for crate, module, name in names]
        if None in roots:
            sys.exit("no such definition: %s" % names)
        reached = follower.follow(roots, before)
        numbers = count(reached, heads)
        before.update(reached)
        yield title, names, reached, numbers


def named_by(names):
    """The definitions of a statement, by their files."""
    places = {}
    for crate, module, name in names:
        places.setdefault("%s/specs/%s" % (crate, module), []).append("`%s`" % name)
    return "; ".join("%s (`crates/%s`)" % (", ".join(found), place) for place, found in places.items())


INTRODUCTION = """# What must be believed, counted

`tools/believed.py` writes this page, and `tools/believed.py --check` fails if it is not what the definitions give. Names are followed, not
files: from the definitions by which a contract states something to all that they name, to the last. Lines are those of the definitions
reached, without imports, blank lines and comments; comments are counted apart. Each row is besides the rows above it. What the kit's
library defines (numbers, lists, Booleans, paths) is not counted.

| Statement | definitions | lines | comments | files |
|---|---|---|---|---|
"""


def page(modules):
    """The page: a row for each statement, and the definitions from which it is followed."""
    table, places = [], []
    for title, names, _, numbers in rows(modules):
        table.append("| %s | %d | %d | %d | %d |" % ((title,) + numbers))
        places += textwrap.wrap("- %s: %s" % (title, named_by(names)), 138, subsequent_indent="  ", break_long_words=False)
    return INTRODUCTION + "\n".join(table) + "\n\nFollowed from:\n\n" + "\n".join(places) + "\n"


def main():
    modules = read_all()
    if "--list" in sys.argv:
        for title, _, reached, numbers in rows(modules):
            print("%s: %d definitions, %d lines, %d comments, %d files" % ((title,) + numbers))
            for key in sorted(reached):
                print("  %4d %s" % (reached[key].lines, "/".join(key)))
        return
    text = page(modules)
    if "--check" in sys.argv:
        with open(TABLE, encoding="utf-8") as file:
            if file.read() != text:
                sys.exit("docs/BELIEVED.md differs: run tools/believed.py")
        return
    with open(TABLE, "w", encoding="utf-8") as file:
        file.write(text)


if __name__ == "__main__":
    main()
