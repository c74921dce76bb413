#!/usr/bin/env python3
"""What is stated, a line each: every public call, type and promised theorem, and every definition that a reader must believe.

    python3 tools/statements.py [ROOT]      prints the lines
    python3 tools/statements.py --write     writes them to docs/STATEMENTS.txt

A line has the crate, the kind, the file, the name and a hash of the text, comments and spacing taken out, together with where each name
in it comes from. So no contract, statement or definition changes, weakens or vanishes without a line of a diff that says so.
"""

import hashlib
import sys
from collections import namedtuple
from pathlib import Path

import sources

PINNED = Path('docs/STATEMENTS.txt')
HEAD = '# What is stated, written by `make statements`. The gate fails where this file is not what it writes.\n'

Statement = namedtuple('Statement', 'crate kind file name hash')


def hashed(text, brought):
    """A short hash of a text and of what the names in it are."""
    text = sources.normal(text)
    named = sources.tokens(text)
    origins = sorted(f'{token} {origin}' for token, origin in brought.items() if token in named)
    return hashlib.sha256('\n'.join([text, *origins]).encode()).hexdigest()[:12]


def file_of_module(origin):
    """The file, below crates/, and the name that an imported name leads to, if it is a declaration of this repository."""
    head, *path = origin.split('.')
    if head != 'Rattle' or len(path) < 4 or path[2] == 'declared':
        return None
    crate, *path = path
    return f'{crate}/{"/".join(path[:-1])}.antt', path[-1]


class Reader:
    """The repository's files, each read once."""

    def __init__(self, root):
        self.crates, self.files = root / 'crates', {}

    def declared(self, file):
        """The declarations of a file of antt by name, and what the `use` lines of a file bring."""
        if file not in self.files:
            text = sources.read(self.crates / file)
            declared = {} if file.endswith('.rt') else {each.name: each for each in sources.declarations(text)}
            self.files[file] = declared, sources.imports(text)
        return self.files[file]

    def reached(self, file, text):
        """Where the names in a text of a file lead to: (file, name) of each declaration of the repository."""
        own, brought = self.declared(file)
        for token in sources.tokens(text):
            there = (file, token) if token in own else file_of_module(brought.get(token, ''))
            declared = self.declared(there[0])[0].get(there[1]) if there else None
            if declared and declared.is_definition():
                yield there


def calls_and_types(root):
    for crate, file, module in sources.code_files(root):
        text = sources.read(file)
        brought = sources.imports(text)
        for kind, called in (('fn', 'call'), ('type', 'type'), ('impl', 'impl')):
            for item in sources.public_items(text, kind):
                name = '::'.join([*module, *item.path])
                yield Statement(crate, called, str(file.relative_to(root / 'crates' / crate)), name, hashed(item.text, brought))


def theorems(root, reader):
    """Yields (file, declaration) of each promised theorem."""
    for file in sources.theorem_files(root):
        path = str(file.relative_to(reader.crates))
        for each in reader.declared(path)[0].values():
            if each.is_theorem():
                yield path, each


def definitions(root, reader):
    """Yields (file, declaration) of all that stands in specs/, and of what stands in proofs/ and a promised theorem speaks of."""
    found = {(str(file.relative_to(reader.crates)), name): None
             for file in sources.definition_files(root)
             for name in reader.declared(str(file.relative_to(reader.crates)))[0]}
    open_ends = [there for file, each in theorems(root, reader) for there in reader.reached(file, each.statement())]
    while open_ends:
        file, name = open_ends.pop()
        if (file, name) not in found and '/proofs/' in file:
            found[file, name] = None
            open_ends.extend(reader.reached(file, reader.declared(file)[0][name].whole()))
    return [(file, reader.declared(file)[0][name]) for file, name in found]


def statements(root):
    reader = Reader(root)

    def stated(kind, file, name, text):
        crate, _, rest = file.partition('/')
        return Statement(crate, kind, rest, name, hashed(text, reader.declared(file)[1]))

    return sorted([*calls_and_types(root),
                   *(stated('theorem', file, each.name, each.statement()) for file, each in theorems(root, reader)),
                   *(stated('definition', file, each.name, each.whole()) for file, each in definitions(root, reader))])


def written(root):
    return HEAD + ''.join(' '.join(each) + '\n' for each in statements(root))


def main(arguments):
    root = Path(__file__).resolve().parent.parent
    if arguments == ['--write']:
        (root / PINNED).write_text(written(root), encoding='utf-8')
        return
    print(written(Path(arguments[0]).resolve() if arguments else root), end='')


if __name__ == '__main__':
    main(sys.argv[1:])
