#!/usr/bin/env python3
"""Brings the names of this repository's definitions and lemmas to one spelling: words in snake case, joined by `_`.

    tools/respell.py            once, in the tree that the kit's port has turned

`fetchAdd` becomes `fetch_add`, `each-more` becomes `each_more`; types keep their capitals. A lemma that would get the name of the definition
that it is about keeps its dash (`rule-of` beside `rule_of`), or gets `_lem`. The proof of the function `f` is `f_spec`. The files of
`must-fail/` and `also-refused/` are respelled with the text that they cite.
"""

import collections
import os
import re
import sys

NAME = re.compile(r"[^\s(){}.;,@\"«»\[\]\\:]+")
WORDS = {"use", "pub", "abbrev", "unfoldable", "mod", "record", "data", "where", "module", "let", "in", "unfolding", "open", "ruleset", "elim"}
OF_FUNCTIONS = ("Proof.antt", "Answers.antt", "Invariants.antt")
DECLARED = re.compile(r"\s*(?:(?:pub|abbrev|unfoldable|opaque) )*(?:(?:record|data|module) )?((?:[^\s(){}.;,:]+ )*[^\s(){}.;,:]+) :(?: |$)")
RULESET = re.compile(r"\s*(?:pub )?ruleset (\S+) =")
IMPORT = re.compile(r"^\s*(?:pub )?use ([^\s{;]+?)\.?(?:\{([^}]*)\}|\s|$)", re.M)
OF_KIT = ("Rattle.std", "Rattle.core", "Rattle.io", "Rattle.os", "Rattle.libc")
# Two definitions of one sense of `by rows`: the side condition of a schema has the name already, and so has that of `by table`.
CHOSEN = {"byRows": "entailed_by_rows", "byTable": "entailed_by_table"}
# Lemmas that would have the name of the definition that they are about.
LEMMAS = {
    "no_line": ["crates/trim_spec/proofs/Renumbered.antt"],
    "leaves_all": ["crates/tables_rows/proofs/LogicAgrees.antt"],
    "by_names": ["crates/tables_rows/proofs/ByRowsBranches.antt"],
    "at_last": ["crates/logic_further/proofs/Together.antt"],
    "table_fits": ["crates/handover_spec/proofs/Decided.antt"],
}
# The local names that these lemmas of one file would hide.
DASHED = {"kind-at", "name-of", "all-below", "all-rows", "form-of", "bit-and", "bit-or"}


def texts(ends):
    for folder, folders, names in os.walk("crates"):
        folders[:] = sorted(x for x in folders if x != "out")
        for name in sorted(names):
            if name.endswith(ends):
                yield os.path.join(folder, name)


def read(path):
    with open(path, encoding="utf-8") as file:
        return file.read()


def write(path, text):
    with open(path, "w", encoding="utf-8") as file:
        file.write(text)


def is_of_function(path):
    return os.path.basename(path) in OF_FUNCTIONS


def declared():
    """Each declared name with the files that declare it, and the names that come from the kit."""
    own, kit = collections.defaultdict(set), set()
    for path in texts(".antt"):
        text = re.sub(r"--[^\n]*", "", read(path))
        for module, names in IMPORT.findall(text):
            if not module.startswith("Rattle.") or module.startswith(OF_KIT):
                kit |= {name.strip().split(" as ")[0].strip() for name in names.split(",")}
        for line in text.split("\n"):
            found = DECLARED.match(line)
            for name in found.group(1).split() if found else []:
                if name not in WORDS:
                    own[name].add(path)
            found = RULESET.match(line)
            if found:
                own[found.group(1)].add(path)
    return own, kit


def snake(name):
    return re.sub(r"(?<=[a-z0-9])[A-Z]", lambda m: "_" + m.group(0).lower(), name).replace("-", "_")


def renamed():
    own, kit = declared()
    chosen = {}
    for name, paths in own.items():
        turned = "-" in name or re.search(r"[a-z0-9][A-Z]", name)
        if turned and re.match(r"[a-zα-ω]", name) and "◌" not in name and name not in kit and not all(map(is_of_function, paths)):
            chosen[name] = CHOSEN.get(name, snake(name))
    by_new = collections.defaultdict(list)
    for name, new in chosen.items():
        by_new[new].append(name)
    for names in by_new.values():
        if len(names) > 1:
            dashed = [name for name in names if "-" in name]
            assert len(names) - len(dashed) == 1, names
            for name in dashed:
                del chosen[name]
    for name in DASHED & set(chosen):
        del chosen[name]
    return chosen


def turn(text, names):
    return NAME.sub(lambda m: names.get(m.group(0), m.group(0)), text)


def turn_source(text, names, comment):
    """The code with every name turned, its comments with the names of definitions alone."""
    of_definitions = {name: new for name, new in names.items() if "-" not in name}
    lines = []
    for line in text.split("\n"):
        at = line.find(comment)
        code, said = (line, "") if at < 0 else (line[:at], line[at:])
        lines.append(turn(code, names) + turn(said, of_definitions))
    return "\n".join(lines)


def with_lemmas(path, text):
    for name, paths in LEMMAS.items():
        module = "Rattle." + paths[0][len("crates/") : -len(".antt")].replace("/", ".")
        if path in paths or re.search(re.escape(module) + r"\.\{[^}]*(?<![\w-])" + name + r"(?![\w'-])", text):
            text = turn(text, {name: name + "_lem"})
    return text


def with_spec(path, text):
    """The proof of a function has the name of the function."""
    function = os.path.basename(os.path.dirname(path))
    old = re.sub(r"[-_]+", "-", function) + "-spec"
    for name in set(NAME.findall(text)):
        if name.replace("_", "-") == old:
            text = turn(text, {name: function + "_spec"})
    return text


# What an edit cites in an older spelling than the text that the port has turned.
OLDER = {"getD": "get_or", "_≤_": "◌≤◌", "_<_": "◌<◌", "_≡_": "◌≡◌", "_+_": "◌+◌", "_∷_": "◌∷◌", "_-_": "◌-◌", "_&&_": "◌&&◌"}


def turn_edit(line, names, known):
    """A line of an edit: names, and projections written tight, as the port and `rt fmt` have them in the text."""
    line = turn(line, {**OLDER, **names})
    by_kit = {name: snake(name) for name in NAME.findall(line) if name not in known and snake(name) in known}
    line = turn(line, by_kit)
    line = re.sub(r"(?<![\w'.])((?:s|C)\.(?:row|line)) ([\w']+|\([^()]*\)) ([\w']+|\([^()]*\)) \.(?=\w)", r"(\1 \2 \3).", line)
    line = re.sub(r"(?<![\w'.])(s|C) \.(row) ([\w']+|\([^()]*\)) ([\w']+|\([^()]*\)) \.(?=\w)", r"(\1.\2 \3 \4).", line)
    line = re.sub(r"(?<![\w'.])(C) \.(line) ([\w']+|\([^()]*\)) \.(?=\w)", r"(\1.\2 \3).", line)
    line = re.sub(r"(?<=[\w'»)]) \.(?=[\w«])", ".", line)
    line = re.sub(r"(?<= )\((\([^()]*(?:\([^()]*\)[^()]*)*\)\.[\w']+)\)", r"\1", line)
    return re.sub(r"(?<= )\(([\w']+\.[\w'.]+)\)", r"\1", line)


def main():
    names = renamed()
    for path in texts(".antt"):
        text = with_lemmas(path, read(path))
        if os.path.basename(path) == "Proof.antt":
            text = with_spec(path, text)
        write(path, turn_source(text, names, "--"))
    for path in texts(".rt"):
        write(path, turn_source(read(path), names, "//"))
    known = set()
    for path in texts((".antt", ".rt")):
        known |= set(NAME.findall(read(path)))
    for path in texts(".edit"):
        lines = read(path).split("\n")
        write(path, "\n".join(turn_edit(line, names, known) if line.startswith(("old:", "new:")) else line for line in lines))
    print(f"{len(names)} names")
    return 0


if __name__ == "__main__":
    sys.exit(main())
