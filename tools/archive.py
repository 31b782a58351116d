#!/usr/bin/env python3
"""Builds the archive of a static library, crates/NAME/out/libNAME.a.

    tools/archive.py NAME..            as `rt lib` in each crate's folder, over what `rt check` keeps of the crates below
    tools/archive.py --fresh NAME..    in a checkout in which `rt ci` alone has run: over the libraries that it proved and left, so that
                                       nothing but NAME is proved once more

`rt lib` takes what `rt check` left and builds the rest; of what `rt ci` left it takes nothing, and in a fresh checkout it would prove all
crates below again. With --fresh the prover is called with those libraries; where one is lacking, the archive is built by `rt lib`.
"""
import os
import re
import subprocess
import sys

ROOT = os.path.dirname(os.path.dirname(os.path.abspath(__file__)))


def crates():
    """Each crate of crates.txt with the crates that it names."""
    with open(os.path.join(ROOT, "crates.txt"), encoding="utf-8") as file:
        found = re.findall(r"^(\w+)[^:\n#]*:([^\n#]*)$", file.read(), re.M)
    return {name: named.split() for name, named in found}


def below(name, named):
    """The crates of this repository that stand below a crate."""
    reached, left = set(), [name]
    while left:
        more = {it for it in named[left.pop()] if it in named} - reached
        reached |= more
        left += more
    return sorted(reached)


def library(name):
    return os.path.join(ROOT, "crates", name, "out", "rlib", f"{name}.rlib")


def by_rt(name):
    return subprocess.run(["rt", "lib"], cwd=os.path.join(ROOT, "crates", name)).returncode


def over_libraries(name, named):
    """The archive over the libraries that stand in crates/*/out, by the prover itself."""
    page = subprocess.run(["rt", "doc"], stdout=subprocess.PIPE, text=True, check=True).stdout.strip()
    kit = os.path.dirname(page)
    words = ["--crate-name", name, "src/lib.rt", "-L", f"dependency={kit}/rlibs"]
    for it in ["std"] + [it for it in named[name] if it not in named]:
        words += ["--extern", f"{it}={kit}/rlibs/{it}.rlib"]
    for it in [it for it in named[name] if it in named]:
        words += ["--extern", f"{it}={library(it)}"]
    for it in below(name, named):
        words += ["-L", f"dependency={os.path.dirname(library(it))}"]
    words += ["--antt-project", f"{kit}/rattle/logic/antt-project.json", "--logic-built", f"{kit}/logic_built"]
    words += ["--jobs", "2", "--links", f"{name}=", "--crate-type", "staticlib"]
    words += ["--toolchain", f"{kit}/toolchain", "--backend", "llvm", "-o", f"out/lib{name}.a"]
    folder = os.path.join(ROOT, "crates", name)
    os.makedirs(f"{folder}/out", exist_ok=True)
    return subprocess.run([f"{kit}/bin/rattle", "build", *words], cwd=folder).returncode


def main(words):
    fresh, names = words[:1] == ["--fresh"], [it for it in words if it != "--fresh"]
    named = crates()
    if not names or any(it not in named for it in names):
        print(__doc__.strip(), file=sys.stderr)
        return 2
    for name in names:
        there = fresh and all(os.path.isfile(f"{library(it)}/format") for it in below(name, named))
        status = over_libraries(name, named) if there else by_rt(name)
        if status:
            return status
    return 0


if __name__ == "__main__":
    sys.exit(main(sys.argv[1:]))
