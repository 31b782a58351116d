#!/usr/bin/env python3
"""Counts the places in src/ (and, for proofs, in proofs/) that are written in a form of which today's Rattle has a better one: a list for each
of the eight points of docs/DESIGN-PASS.md. Usage: tools/forms.py [POINT] [--list]; a place is shown as FILE:LINE NAME. What it finds is a
place to look at, and not a fault: docs/DESIGN-PASS.md says of each what was done, or why it stays."""
import glob
import os
import re
import sys
from collections import defaultdict

ROOT = os.path.dirname(os.path.dirname(os.path.abspath(__file__)))
os.chdir(ROOT)
SOURCES = sorted(glob.glob("crates/*/src/**/*.rt", recursive=True))
PROOFS = sorted(glob.glob("crates/*/proofs/**/*.antt", recursive=True))


def text(path):
    return open(path, encoding="utf8").read()


def bare(source):
    """The source without comments."""
    return "\n".join(re.sub(r"//.*", "", line) for line in source.split("\n"))


def place(path, source, at, name):
    return f"{path[7:]}:{source.count(chr(10), 0, at) + 1} {name}"


def block(source, at):
    """The text of the braces that open at or after `at`."""
    start = source.index("{", at)
    depth = 0
    for k in range(start, len(source)):
        depth += {"{": 1, "}": -1}.get(source[k], 0)
        if depth == 0:
            return source[start : k + 1]
    return source[start:]


FN = re.compile(r"^[ ]*(?:pub(?:\(\w+\))? )?(?:extern \"C\" )?fn (\w+)", re.M)


def functions(source):
    """Each function: where it begins, its name, its head (parameters and clauses) and its body."""
    found = []
    for match in FN.finditer(source):
        line = source.rfind("\n", 0, match.start()) + 1
        indent = len(source[line:].split("fn")[0]) - len(source[line:].lstrip().split("fn")[0])
        opened = re.compile(r"^ {%d}\{$|\) *(?:-> [^{]*)?\{$" % indent, re.M).search(source, match.end())
        if not opened:
            continue
        head = source[match.start() : opened.end() - 1]
        found.append((match.start(), match.group(1), head, block(source, opened.end() - 1)))
    return found


def own_enums():
    """1a. Enums whose variants are those of Option or Result: two, of which at least one holds something, or a pair of an end and a step."""
    for path in SOURCES:
        source = bare(text(path))
        for match in re.finditer(r"\benum (\w+)", source):
            body = block(source, match.end())[1:-1]
            depth, parts, last = 0, [], 0
            for k, c in enumerate(body):
                depth += {"{": 1, "(": 1, "}": -1, ")": -1}.get(c, 0)
                if c == "," and depth == 0:
                    parts.append(body[last:k])
                    last = k + 1
            parts.append(body[last:])
            parts = [part.strip() for part in parts if part.strip()]
            holding = [part for part in parts if "(" in part or "{" in part]
            if len(parts) == 2 and holding or len(parts) == 3 and 0 < len(holding) < 3:
                yield place(path, source, match.start(), match.group(1))


def flags():
    """1b. Structs with a flag or a number for a kind beside the values that it is about."""
    for path in SOURCES:
        source = bare(text(path))
        for match in re.finditer(r"\bstruct (\w+)[^;{(]*\{", source):
            fields = re.findall(r"(\w+):\s*([^,\n]+)", block(source, match.start()))
            for field, kind in fields:
                is_flag = kind.strip() == "bool" and field in ("ok", "differ", "held", "two", "found", "is_some")
                is_kind = field in ("kind", "code", "side", "form", "operand") and kind.strip() in ("u8", "u16", "usize")
                if len(fields) > 1 and (is_flag or is_kind):
                    yield place(path, source, match.start(), f"{match.group(1)}.{field}")


def codes():
    """1c. Structs without fields whose constants number kinds or refusals: three constants or more, each a plain small number."""
    for path in SOURCES:
        source = bare(text(path))
        for match in re.finditer(r"\bstruct (\w+)\s*(?:;|\{\s*\})", source):
            found = re.search(r"^impl %s \{" % match.group(1), source, re.M)
            if not found:
                continue
            values = re.findall(r"const \w+: (?:u8|u16|usize) = (\d+);", block(source, found.start()))
            if len(values) >= 3 and len(set(values)) == len(values) and max(map(int, values)) < 64:
                yield place(path, source, match.start(), match.group(1))


WORD = re.compile(r"[A-Za-z_]\w*|\d+|'\w+|[^\sA-Za-z_0-9]")
KEPT = set("fn let mut if else while for in return match true false as pub self usize bool".split())


def twins():
    """2. Functions of eight lines or more that are the same but for names, numbers and types."""
    groups = defaultdict(list)
    for path in SOURCES:
        source = bare(text(path))
        for at, name, head, body in functions(source):
            lines = [line for line in body.split("\n") if line.strip() not in ("", "{", "}")]
            if len(lines) < 5:
                continue
            numbers, shape = {}, []
            parameters = head.split("requires")[0].split("ensures")[0]
            for token in WORD.findall(parameters + body):
                if re.match(r"[A-Za-z_']", token) and token not in KEPT:
                    shape.append(f"${numbers.setdefault(token, len(numbers))}")
                else:
                    shape.append("0" if token.isdigit() else token)
            groups[" ".join(shape)].append(place(path, source, at, name))
    for group in sorted(groups.values()):
        if len(group) > 1:
            yield " = ".join(group)


def counted_loops():
    """3. Loops written with `while` (each counts an index by hand or steps a position)."""
    for path in SOURCES:
        source = bare(text(path))
        for match in re.finditer(r"\bwhile [^{]*", source):
            yield place(path, source, match.start(), match.group(0).strip())


def conversions():
    """4. Conversions, comparisons and printing by hand: a body that is one `match` from a kind to a constant or back, functions named same_..
    or is_same_.. that compare field by field, and functions that write text byte by byte."""
    for path in SOURCES:
        source = bare(text(path))
        for at, name, head, body in functions(source):
            inside = body.strip()[1:-1].strip()
            arms = re.findall(r"=>\s*([^,{]+),", inside)
            one_match = inside.startswith("match ") and block(inside, 0) == inside[inside.index("{") :]
            plain = arms and all(re.fullmatch(r"\d+|[A-Z]\w*::\w+", arm.strip()) for arm in arms)
            if one_match and plain and len(arms) >= 3:
                yield place(path, source, at, name)
            elif re.match(r"(is_)?same_|put_|write_", name) and "-> bool" in head + " " and re.match(r"(is_)?same_", name):
                yield place(path, source, at, name)
            elif re.match(r"put_|write_(line|count|code)", name):
                yield place(path, source, at, name)


def clauses(head):
    for match in re.finditer(r"\b(requires|ensures)\s*(?:\w+ )?\{", head):
        inside = block(head, match.end() - 1)[1:-1].strip()
        depth, last = 0, 0
        parts = []
        flat = re.sub(r"\s+", " ", inside)
        while flat.startswith("(") and flat.endswith(")") and block(flat.replace("(", "{").replace(")", "}"), 0) == flat.replace("(", "{").replace(")", "}"):
            flat = flat[1:-1]
        todo = [flat]
        while todo:
            one = todo.pop()
            depth, cut = 0, None
            for k, c in enumerate(one):
                depth += {"(": 1, ")": -1}.get(c, 0)
                if c == "×" and depth == 0:
                    cut = k
                    break
            if cut is None:
                one = one.strip()
                if one.startswith("(") and one.endswith(")") and "×" in one:
                    todo.append(one[1:-1])
                else:
                    parts.append(one.strip("() "))
            else:
                todo += [one[:cut].strip(), one[cut + 1 :].strip()]
        for part in parts:
            yield match.group(1), part


def repeated_facts():
    """5a. A fact of a `requires` that stands in those of three functions or more, with the number of functions."""
    where = defaultdict(set)
    for path in SOURCES:
        source = bare(text(path))
        for at, name, head, _ in functions(source):
            for kind, fact in clauses(head):
                if kind == "requires":
                    where[fact].add(place(path, source, at, name))
    for fact, places in sorted(where.items(), key=lambda it: -len(it[1])):
        if len(places) >= 3:
            yield f"{len(places)} functions: {fact}"


def groups_of_parameters():
    """5b. Three parameters or more, of these names and in this order, that stand side by side in three functions or more."""
    where = defaultdict(set)
    for path in SOURCES:
        source = bare(text(path))
        for at, name, head, _ in functions(source):
            inside = head[head.index("(") :].split("\n    requires")[0].split("\n    ensures")[0]
            names = re.findall(r"(?:mut )?(\w+): ", inside)
            for k in range(3, len(names) + 1):
                for i in range(0, len(names) - k + 1):
                    where[tuple(names[i : i + k])].add(place(path, source, at, name))
    best = [(names, places) for names, places in where.items() if len(places) >= 3]
    for names, places in sorted(best, key=lambda it: (-len(it[1]) * len(it[0]), it[0])):
        larger = [other for other, there in best if len(other) > len(names) and len(there) >= len(places)]
        if not any(names == other[i : i + len(names)] for other in larger for i in range(len(other))):
            yield f"{len(places)} functions: {', '.join(names)}"


def buffers():
    """6. Structs with an array and a number that counts what of it is used, and structs with two arrays or more of one length."""
    for path in SOURCES:
        source = bare(text(path))
        for match in re.finditer(r"\bstruct (\w+)[^;{(]*\{", source):
            fields = re.findall(r"(\w+):\s*(\[[^\]]+\]|&\S+ \[\w+\]|\w+)", block(source, match.start()))
            arrays = [kind for _, kind in fields if kind.startswith("[")]
            counts = [field for field, kind in fields if field in ("len", "count", "n", "used") and not kind.startswith("[")]
            lengths = [kind.split(";")[1] for kind in arrays if ";" in kind]
            if arrays and counts or len(lengths) > len(set(lengths)):
                yield place(path, source, match.start(), match.group(1))


def switches():
    """7. A `match` or a chain of `if` on a number for a kind, whose arms each call a step with the same arguments: three arms or more."""
    for path in SOURCES:
        source = bare(text(path))
        for at, name, head, body in functions(source):
            for match in re.finditer(r"\bmatch ([\w.]+) \{", body):
                arms = re.findall(r"=>\s*(?:return )?(\w+)\(([^()]*)\)", block(body, match.start()))
                if len(arms) >= 3 and len({callee for callee, _ in arms}) >= 2 and re.search(r"code|operation|kind|side|step", match.group(1)):
                    yield place(path, source, at, name)


def positional_proofs():
    """8a. Proofs of functions in the positional form: proofs/**/Proof.antt."""
    for path in PROOFS:
        if os.path.basename(path) == "Proof.antt":
            yield path[7:]


def plain_answers():
    """8b. Answers in Answers.antt or Proof.antt that are a plain search: `search rules`, `search tests`, or with one lemma set."""
    for path in PROOFS:
        if os.path.basename(path) in ("Proof.antt", "Answers.antt"):
            source = text(path)
            for match in re.finditer(r"= search (rules|tests)\s*$|\(λ c(?: κs)?\. search (rules|tests)\)", source, re.M):
                yield place(path, source, match.start(), match.group(0))


POINTS = {
    "1a": own_enums,
    "1b": flags,
    "1c": codes,
    "2": twins,
    "3": counted_loops,
    "4": conversions,
    "5a": repeated_facts,
    "5b": groups_of_parameters,
    "6": buffers,
    "7": switches,
    "8a": positional_proofs,
    "8b": plain_answers,
}


def main(arguments):
    wanted = [it for it in arguments if not it.startswith("--")]
    for name, find in POINTS.items():
        if wanted and not any(name.startswith(it) for it in wanted):
            continue
        found = list(find())
        print(f"{name}: {len(found)}  ({find.__doc__.split('.', 1)[1].split(':')[0].strip()})")
        if "--list" in arguments:
            for it in found:
                print("    " + it)


main(sys.argv[1:])
