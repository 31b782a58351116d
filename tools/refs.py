#!/usr/bin/env python3
"""Every path, identifier and command that a document names in backticks or in a block of commands exists.

Documents are the pages (*.md), crates.txt and the header; the notes of landings, of the port and of the pass over its forms tell what was
then, and are left out.

- A word with a slash is a file or a folder, seen from the root, from the document's folder, from crates/ or rust/, or an edit CRATE/NAME.
- CRATE::MODULE::ITEM is an item of that crate's module; of other paths each part has to be a word of some source.
- Any other name is a word of some source, a crate, an edit or a file's name.
- Commands: `rt COMMAND`, `rt .. CRATE`, `cargo .. -p PACKAGE`, `cargo .. --bin PROGRAM`, `outline COMMAND` and scripts have to be there.
"""
import os
import re
import subprocess
import sys

SOURCES = ('.rt', '.antt', '.rs', '.sh', '.py', '.c', '.h', '.toml', '.edit', '.mjs', '.css', '.json', '.outline', '.program')
# What commands of a document write, what `rt` writes in a crate's folder, and what stands for a name.
WRITTEN = ('target/', '/', 'http')
BY_RT = re.compile(r'(?:crates/(\w+)/)?out(?:/\w+(?:\.a)?)?/?')
PLACEHOLDER = re.compile(r'[*<>{}()$…]|\.\.\.|\b[A-Z]{3,}\b')
# Names of C, of Rust's library, of the Linux kernel and of litmus tests, which are no names of this repository.
FOREIGN = re.compile(
    r'memory_order_\w+|atomic_\w+|_(relaxed|acquire|release|weak|or|and|xor)|Atomic\w+::\w+|SeqCst|UnsafeCell'
    r'|compare_exchange(_weak)?|fetch_\w+|(READ|WRITE)_ONCE|smp_\w+|xchg|sb|iriw|relaxed-behind|fetch-add-behind|two-adds')
# Commands of `rt`; the first two take names of crates.
OF_CRATES = ('ci', 'must-fail')
PROVER = OF_CRATES + tuple('all check doc expand fmt help lemma lib names new plant run seed test tidy try verdict version'.split())


def tracked():
    """The files of the repository: those that git knows or would know, else all but what is built."""
    listed = subprocess.run(['git', 'ls-files', '--cached', '--others', '--exclude-standard'], capture_output=True, text=True)
    if listed.returncode == 0:
        return [name for name in listed.stdout.splitlines() if os.path.exists(name)]
    found = []
    for folder, folders, names in os.walk('.'):
        folders[:] = [name for name in folders if name not in ('.git', 'target')]
        found += [os.path.normpath(os.path.join(folder, name)) for name in names]
    return found


def read(name):
    with open(name, encoding='utf8', errors='replace') as file:
        return file.read()


class Repository:
    def __init__(self):
        self.files = set(tracked())
        self.folders = {os.path.dirname(name)[:end] for name in self.files for end in ends(os.path.dirname(name))}
        self.crates = {name.split('/')[1] for name in self.files if name.startswith('crates/') and name.count('/') > 1}
        self.endings = {part for name in self.files | self.folders for part in suffixes(name)}
        edits = [name for name in self.files if name.startswith('crates/') and name.endswith('.edit')]
        self.edits = {name.split('/')[1] + '/' + os.path.basename(name)[:-5] for name in edits}
        self.words = self.all_words()
        self.packages = {word for name in self.files if name.endswith('Cargo.toml') for word in package(name)}
        self.programs = self.packages | {stem(name) for name in self.files if '/src/bin/' in name}
        table = read('rust/outline/src/command/help.rs')
        self.commands = set(re.findall(r'name: "([a-z-]+)"', table)) | {'help'}

    def all_words(self):
        words = {stem(name) for name in self.files} | {os.path.basename(name) for name in self.files} | self.crates
        for name in self.files:
            if name.endswith(SOURCES):
                for word in re.findall(r"[^\W\d][\w'₀-₉·\-]*", read(name)):
                    words.add(word)
                    words.update(re.split(r'[·\-]', word))
        return words

    def has_path(self, path, document):
        path = path.rstrip('/')
        beside = os.path.normpath(os.path.join(os.path.dirname(document), path))
        places = [path, beside, 'crates/' + path, 'rust/' + path, 'rust/outline/' + path]
        if path in self.edits or any(place in self.files or place in self.folders for place in places):
            return True
        return any(path + ending in self.endings for ending in ('', '.antt', '.rt', '.rs', '.edit', '.outline'))

    def has_item(self, path):
        first, *modules, last = path.split('::')
        if first not in self.crates:
            return all(part in self.words for part in path.split('::'))
        source = f'crates/{first}/src/'
        places = [source + '/'.join(modules) + '.rt'] if modules else [source + 'lib.rt', f'{source}{last}.rt']
        named = re.compile(r'\b' + re.escape(last) + r'\b')
        return any(place in self.files and (stem(place) == last or named.search(read(place))) for place in places)

    def command_fault(self, line):
        """What is missing of a command line, or nothing."""
        words = line.split('#')[0].split()
        if words[:1] == ['rt'] and len(words) > 1 and is_name(words[1]):
            named = words[2:] if words[1] in OF_CRATES else []
            lacking = next((f'no crate {word}' for word in named if is_name(word) and word not in self.crates), None)
            return lacking if words[1] in PROVER else f'no command {words[1]}'
        if words[:1] == ['cargo']:
            for option, there in (('-p', self.packages), ('--bin', self.programs)):
                for one, name in zip(words, words[1:]):
                    if one == option and is_name(name) and name not in there:
                        return f'no {option} {name}'
            return None
        if words and (words[0] == 'outline' or words[0].endswith('/outline')) and len(words) > 1:
            return None if not is_name(words[1]) or words[1] in self.commands else f'no command {words[1]}'
        if words and re.fullmatch(r'(\./)?(tools|examples|crates|\.ci)/[\w./-]*[\w-]', words[0]):
            there = words[0].removeprefix('./') in self.files or self.is_by_rt(words[0])
            return None if there else f'no script {words[0]}'
        return None

    def is_by_rt(self, path):
        """Whether `rt` writes this: an archive, a program or a folder in a crate's `out`."""
        found = BY_RT.fullmatch(path)
        return bool(found) and (found.group(1) is None or found.group(1) in self.crates)


def ends(folder):
    return [i for i, c in enumerate(folder) if c == '/'] + [len(folder)]


def suffixes(name):
    parts = name.split('/')
    return ['/'.join(parts[start:]) for start in range(len(parts))]


def stem(name):
    return os.path.splitext(os.path.basename(name))[0]


def package(name):
    return re.findall(r'^name = "(.*)"', read(name), re.M)


def is_name(word):
    return re.fullmatch(r'[a-z][a-z0-9_-]*', word) is not None


def fault(repository, text, document):
    """Why what stands in backticks is not there, or nothing."""
    if ' ' in text:
        return repository.command_fault(text)
    if re.fullmatch(r'[\d\W_]+', text) or PLACEHOLDER.search(text) or text.startswith(WRITTEN):
        return None
    if FOREIGN.fullmatch(text):
        return None
    if '::' in text:
        return None if repository.has_item(text) else 'no such item'
    if '/' in text and '=' not in text:
        there = repository.has_path(text.split(':')[0], document) or repository.is_by_rt(text)
        return None if there else 'no such path'
    if re.fullmatch(r"\.?[^\W\d][\w'\-]*", text):
        return None if text.lstrip('.') in repository.words else 'no such name'
    return None


def faults(repository, document):
    for number, line in enumerate(read(document).splitlines(), 1):
        for text in re.findall(r'`([^`]+)`', line):
            found = fault(repository, text.strip(), document)
            if found:
                yield number, text, found
        if line.startswith('    ') and document.endswith('.md'):
            found = repository.command_fault(line.strip().removeprefix('$ '))
            if found:
                yield number, line.strip(), found
        for target in re.findall(r'\]\(([^)#]+?)(?:#[^)]*)?\)', line):
            if not target.startswith('http') and not repository.has_path(target, document):
                yield number, target, 'no such path'


def main():
    os.chdir(os.path.join(os.path.dirname(os.path.abspath(__file__)), '..'))
    repository = Repository()
    pages = [name for name in repository.files if name.endswith('.md') and not name.startswith(('docs/landings/', 'docs/PORT', 'docs/DESIGN-PASS'))]
    documents = sorted(pages) + ['crates.txt', 'include/hidokpalu.h']
    count = 0
    for document in documents:
        for number, text, found in faults(repository, document):
            print(f'{document}:{number}: {text}: {found}')
            count += 1
    print(f'{len(documents)} documents, {count} names that are not there')
    return 1 if count else 0


if __name__ == '__main__':
    sys.exit(main())
