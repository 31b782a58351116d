#!/usr/bin/env python3
"""Writes docs/EDITS.md: which edits each run of the gate tries, and which are tried a tenth at a time; and marks in docs/REVIEW.md each edit
that stands outside of the gate with a degree sign. With --check: says whether both are up to date; status 1 if not."""
import os
import re
import sys
import textwrap

PAGE = 'docs/EDITS.md'
REVIEW = 'docs/REVIEW.md'
WIDTH = 136
HEAD = '''# Edits that the prover must refuse

Each edit changes the code or a definition of a crate in one place; the crate is then not proved any more, for a fact that fails. `rt ci`
tries those of `must-fail`. Those of `also-refused` are tried by `tools/edits.sh`, and a tenth of them by each run of the gate
(`tools/edits.sh --tenth`), by the number of the newest commit: every ten commits all of them. `docs/REVIEW.md` says what the edits show.

`tools/edits_list.py` writes this page from the folders; the gate compares it with them.
'''


def edits(crate, folder):
    """The edits of a crate with the first line of their comment."""
    place = os.path.join('crates', crate, folder)
    names = sorted(os.listdir(place)) if os.path.isdir(place) else []
    return [(name[:-5], about(os.path.join(place, name))) for name in names if name.endswith('.edit')]


def about(path):
    with open(path, encoding='utf8') as file:
        lines = file.read().splitlines()
    comment = [line.lstrip('# ').strip() for line in lines if line.startswith('#')]
    files = [line[len('file: '):] for line in lines if line.startswith('file: ')]
    return ' '.join(comment) or 'in ' + ', '.join(f'`{name}`' for name in files)


def crates():
    """The crates in the order of crates.txt."""
    with open('crates.txt', encoding='utf8') as file:
        return re.findall(r'^(\w+)(?: staticlib)?:', file.read(), re.M)


def section(title, folder):
    """The edits of a folder, crate by crate, each with what it says of itself."""
    found = [(crate, edits(crate, folder)) for crate in crates()]
    count = sum(len(own) for _, own in found)
    text = f'\n## {title}: {count}\n'
    for crate, own in found:
        if own:
            text += f'\n### `{crate}`: {len(own)}\n\n'
        for name, words in own:
            text += textwrap.fill(f'- `{name}`: {words}', WIDTH, subsequent_indent='  ', break_long_words=False) + '\n'
    return text


def page():
    return HEAD + section('In the gate', 'must-fail') + section('Outside of the gate', 'also-refused')


def marked():
    """The page for reviewers with a mark behind each edit outside of the gate, and behind no other. A name alone is of the crate before it."""
    folders = {f'{crate}/{name}': folder for folder in ('must-fail', 'also-refused') for crate in crates() for name, _ in edits(crate, folder)}
    known, last = set(crates()), ''

    def mark(match):
        nonlocal last
        name, sign = match.group(1), match.group(2)
        first = name.split('/')[0].split('::')[0]
        if first in known:
            last = first
        folder = folders.get(name) or folders.get(f'{last}/{name}')
        if folder is None:
            return match.group(0)
        return f'`{name}`' + ('°' if folder == 'also-refused' else '')

    with open(REVIEW, encoding='utf8') as file:
        return re.sub('`([^`\\n]+)`(°?)', mark, file.read())


def main():
    os.chdir(os.path.join(os.path.dirname(os.path.abspath(__file__)), '..'))
    status = 0
    for name, text in ((PAGE, page()), (REVIEW, marked())):
        with open(name, encoding='utf8') as file:
            same = file.read() == text
        if sys.argv[1:] == ['--check']:
            if not same:
                print(f'{name} is not what tools/edits_list.py writes')
                status = 1
        elif not same:
            with open(name, 'w', encoding='utf8') as file:
                file.write(text)
    return status


if __name__ == '__main__':
    sys.exit(main())
