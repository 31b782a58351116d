#!/usr/bin/env python3
"""Weakens every field of every promise, one at a time, and says who refuses it.

    tools/fields.py                  lists the weaker fields, a line each
    tools/fields.py --try [CRATE..]  makes each change in a copy of the tree, of every crate or of those that are named, and runs `rt check`
    tools/fields.py --all [CRATE..]  makes one change to every field of a file at once, which is quicker, and says which fields have a
                                     consequence of their own that fails

A weaker field has the same shape and says less: `a ≡ b` becomes `a ≡ a`, a bound in a hypothesis becomes 0, and what is no equation is
said of nothing. A change counts as refused by a consequence if a file of consequences or of facts worked out by hand has an error of its
own; as refused by the proof if only the proof that makes the promise has one; and as accepted if there is none. `rt check` begins in the
copy with what it has kept of the same crates on this machine.
"""
import os
import re
import shutil
import subprocess
import sys
import tempfile

# crate, file of definitions, the promises in it
PROMISES = [
    ("semantics", "specs/Machine.antt", ["Start"]),
    ("semantics", "specs/EveryRun.antt", ["EveryRun"]),
    ("logic", "specs/Claims.antt", ["NeverBoth"]),
    ("logic_outline", "specs/Judged.antt", ["Lacks", "Judged"]),
    ("verdict_record", "specs/Uncut.antt", ["Uncut"]),
    ("checker_spec", "specs/Promise.antt", ["TrueInEveryRun", "Judged", "Promise"]),
    ("trim_encode", "specs/Trimmed.antt", ["SameProgram", "SameContent", "Trimmed"]),
    ("trim", "specs/Promise.antt", ["Promise"]),
    ("replay_spec", "specs/AnswerStands.antt", ["AnswerStands", "TableStands"]),
    ("replay_spec", "specs/Promise.antt", ["Unfit", "Replays", "Promise", "Into", "Written"]),
    ("bill_spec", "specs/Promise.antt", ["Promise", "Written"]),
    ("handover_spec", "specs/Handover.antt", ["EveryRunAcross"]),
    ("handover_spec", "specs/Promise.antt", ["Fits", "Decided", "TrueAcross", "Promise"]),
    ("handover_replay", "specs/Promise.antt", ["Across", "Promise", "Written"]),
    ("service_spec", "specs/Isolation.antt", ["Isolated"]),
    ("service_spec", "specs/Promise.antt", ["Promise"]),
]

# files that take a promise apart
USERS = ("Consequences", "Starts", "Refuted", "ReadBack", "Worked")

# an import of the successor of a number
SUC = re.compile(r"Rattle\.std\.specs\.Prelude\.\{[^}]*\bsuc\b")

# what the prover says of a file of the crate
ERROR = r"^(?:\./)?((?:src|specs|proofs)/\S+?):\d+:\d+: error: "

# types of fields that are given and promise nothing
GIVEN = {"Image", "Finding", "Document", "Answer", "Bill", "List Write"}


def split_arrows(text):
    """The parts of a type between its outermost arrows."""
    parts, depth, start = [], 0, 0
    for at, char in enumerate(text):
        depth += char in "({⌜"
        depth -= char in ")}⌝"
        if char == "→" and depth == 0:
            parts.append(text[start:at].strip())
            start = at + 1
    return parts + [text[start:].strip()]


def split_relation(text):
    """The sides of an outermost equation or comparison, and its sign; None if there is none."""
    depth = 0
    for at, char in enumerate(text):
        depth += char in "({"
        depth -= char in ")}"
        if depth == 0 and char in "≡≤<" and text[at - 1] == " ":
            return text[:at].strip(), char, text[at + 1 :].strip()
    return None


def weaker(kind):
    """The weaker types of a field, each with a word for what was done."""
    parts = split_arrows(kind)
    said = split_relation(parts[-1])
    if kind in GIVEN:
        return
    if said is None:
        yield "of nothing", " → ".join(parts[:-1] + ["⊥", parts[-1]])
    elif said[1] == "≡":
        yield "equal to itself", " → ".join(parts[:-1] + [f"{said[0]} ≡ {said[0]}"])
    else:
        more = said[0] if said[1] == "≤" else f"suc ({said[0]})"
        yield "no bound", " → ".join(parts[:-1] + [f"{said[0]} {said[1]} {more}"])
    for at, part in enumerate(parts[:-1]):
        bound = split_relation(part)
        if bound and bound[1] in "≤<" and bound[2] != "0":
            cut = parts[:at] + [f"{bound[0]} {bound[1]} 0"] + parts[at + 1 :]
            yield f"only where {bound[0]} {bound[1]} 0", " → ".join(cut)


def fields(text, name):
    """The fields of a record, or the constructors of a data type: first line, line behind the last, name, type."""
    lines = text.split("\n")
    for at, line in enumerate(lines):
        head = re.match(r"( *)pub (record|data) " + re.escape(name) + r"\b", line)
        if not head:
            continue
        indent = len(head.group(1)) + 2
        while not lines[at].rstrip().endswith("where"):
            at += 1
        at += 1
        while at < len(lines) and (not lines[at].strip() or len(lines[at]) - len(lines[at].lstrip()) >= indent):
            field = re.match(" " * indent + r"(pub )?([^\s:]+) : (.*)", lines[at])
            if not field:
                at += 1
                continue
            end = at + 1
            while end < len(lines) and lines[end].startswith(" " * (indent + 2)) and not lines[end].strip().startswith("--"):
                end += 1
            kind = " ".join([field.group(3).strip()] + [line.strip() for line in lines[at + 1 : end]])
            yield at, end, field.group(2), kind
            at = end
        return


def constructor(kind):
    """A constructor's arguments, each weaker in turn: what it builds stays."""
    parts = split_arrows(kind)
    for at, part in enumerate(parts[:-1]):
        if ":" in part.split(")")[0] and part.startswith(("(", "{")):
            continue
        bound = split_relation(part)
        if bound is None and not part.startswith("("):
            part = f"({part})"
        nothing = f"({bound[0]} ≡ {bound[0]})" if bound and bound[1] == "≡" else f"(⊥ → {part})"
        yield f"argument {at + 1}", " → ".join(parts[:at] + [nothing] + parts[at + 1 :])


def changes(root, chosen):
    """Every weaker field: crate, file, promise, field, what was done, the changed text."""
    for crate, file, names in PROMISES:
        if chosen and crate not in chosen:
            continue
        text = open(os.path.join(root, "crates", crate, file), encoding="utf-8").read()
        lines = text.split("\n")
        for name in names:
            data = re.search(r"pub data " + re.escape(name) + r"\b", text)
            for at, end, field, kind in fields(text, name):
                for done, new in constructor(kind) if data else weaker(kind):
                    first = lines[at].split(" : ")[0]
                    changed = "\n".join(lines[:at] + [f"{first} : {new}"] + lines[end:])
                    if "suc (" in new and not SUC.search(text):
                        changed = "use Rattle.std.specs.Prelude.{suc}\n" + changed
                    yield crate, file, name, field, done, changed, new


def attempt(copy, crate, file, changed):
    """Who refuses the change: `consequence`, `proof` or nobody, and the first error."""
    path = os.path.join(copy, "crates", crate, file)
    kept = open(path, encoding="utf-8").read()
    open(path, "w", encoding="utf-8").write(changed)
    try:
        run = subprocess.run(["rt", "check"], cwd=os.path.join(copy, "crates", crate), capture_output=True, text=True)
    finally:
        open(path, "w", encoding="utf-8").write(kept)
    errors = re.findall(ERROR + "(.*)", run.stdout + run.stderr, re.M)
    own = [(at, what) for at, what in errors if "was not admitted" not in what]
    users = [(at, what) for at, what in own if any(user in at for user in USERS)]
    if any(at.startswith("specs/") for at, _ in own):
        return "no change", own[0]
    if users:
        return "consequence", users[0]
    if own:
        return "proof", own[0]
    proved = "logic=proved" in run.stdout
    return ("accepted" if proved else "not told"), ("", (run.stdout + run.stderr)[-200:])


def together(copy, crate, file, names):
    """Every field of a file weaker at once: the fields, each with the consequences that cite it and fail."""
    path = os.path.join(copy, "crates", crate, file)
    kept = open(path, encoding="utf-8").read()
    lines, weakened = kept.split("\n"), []
    for name in names:
        data = re.search(r"pub data " + re.escape(name) + r"\b", kept)
        for at, end, field, kind in [] if data else fields(kept, name):
            for done, new in list(weaker(kind))[:1]:
                weakened.append((at, end, name, field, lines[at].split(" : ")[0] + " : " + new))
    for at, end, _, _, new in sorted(weakened, reverse=True):
        lines[at:end] = [new]
    if any("suc (" in change[4] for change in weakened) and not SUC.search(kept):
        lines.insert(0, "use Rattle.std.specs.Prelude.{suc}")
    open(path, "w", encoding="utf-8").write("\n".join(lines))
    try:
        run = subprocess.run(["rt", "check"], cwd=os.path.join(copy, "crates", crate), capture_output=True, text=True)
    finally:
        open(path, "w", encoding="utf-8").write(kept)
    errors = re.findall(ERROR + r"`(\S+?)`(?:: | is )(.*)", run.stdout + run.stderr, re.M)
    failing = {}
    for at, theorem, what in errors:
        if any(user in at for user in USERS) and "was not admitted" not in what:
            text = open(os.path.join(copy, "crates", crate, at), encoding="utf-8").read()
            body = re.search(r"^ *" + re.escape(theorem) + r" [^:\n]*=(.*?)(?=\n *\n|\Z)", text, re.M | re.S)
            body = body or re.search(r"^ *" + re.escape(theorem) + r" =(.*?)(?=\n *\n|\Z)", text, re.M | re.S)
            failing[theorem] = body.group(1) if body else ""
    for _, _, name, field, _ in weakened:
        cited = [theorem for theorem, body in failing.items() if re.search(r"\." + re.escape(field) + r"(?![\w-])", body)]
        yield name, field, cited


def main():
    root = os.path.dirname(os.path.dirname(os.path.abspath(__file__)))
    trying, at_once = sys.argv[1:2] == ["--try"], sys.argv[1:2] == ["--all"]
    chosen = sys.argv[2:] if trying or at_once else sys.argv[1:]
    found = list(changes(root, chosen))
    if not trying and not at_once:
        for crate, file, name, field, done, _, new in found:
            print(f"{crate} {name}.{field}: {done}: {new}")
        print(f"{len(found)} weaker fields")
        return
    with tempfile.TemporaryDirectory() as copy:
        shutil.copy(os.path.join(root, "crates.txt"), copy)
        left_out = shutil.ignore_patterns("must-fail", "also-refused", "out")
        shutil.copytree(os.path.join(root, "crates"), os.path.join(copy, "crates"), ignore=left_out)
        os.mkdir(os.path.join(copy, ".git"))
        for crate, file, names in PROMISES if at_once else []:
            for name, field, cited in together(copy, crate, file, names) if not chosen or crate in chosen else []:
                print(f"{'consequence' if cited else 'not cited':12} {crate} {name}.{field} {' '.join(cited)}", flush=True)
        counts = {}
        for crate, file, name, field, done, changed, _ in [] if at_once else found:
            verdict, (at, what) = attempt(copy, crate, file, changed)
            counts[verdict] = counts.get(verdict, 0) + 1
            print(f"{verdict:12} {crate} {name}.{field} ({done}) {at} {what[:90]}", flush=True)
        if trying:
            print(f"{len(found)} tried: " + ", ".join(f"{count} {verdict}" for verdict, count in sorted(counts.items())))


if __name__ == "__main__":
    main()
