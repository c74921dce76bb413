#!/usr/bin/env python3
"""What a reader has to believe: the definitions that a contract of an exported call, or a promised theorem, reaches.

    python3 tools/believed.py           how many lines they have, by crate
    python3 tools/believed.py --list    each of them, and the definitions that nothing of this kind reaches

A line counts where it holds a part of a definition: comments, blank lines and `use` lines do not. A theorem that refutes a wrong
implementation reaches that implementation, which nobody has to believe: such theorems are left out.
"""

import sys
from collections import Counter
from pathlib import Path

import sources
import statements

ROOT = Path(__file__).resolve().parent.parent


def lines_of(declaration):
    return sum(bool(line.strip()) for line in (declaration.signature + '\n' + declaration.clauses).split('\n'))


def roots(root, reader):
    """Yields (file, text) of each contract of an exported call and each statement of a promised theorem."""
    for file, _, function in sources.public_calls(root):
        if 'extern "C"' in function.text:
            yield str(file.relative_to(reader.crates)), function.text
    for file, each in statements.theorems(root, reader):
        if not each.name.endswith('_refuted'):
            yield file, each.statement()


def believed(root):
    """The (file, declaration) of all that is reached."""
    reader, found = statements.Reader(root), {}
    open_ends = [there for file, text in roots(root, reader) for there in reader.reached(file, text)]
    while open_ends:
        file, name = open_ends.pop()
        if (file, name) not in found:
            found[file, name] = reader.declared(file)[0][name]
            open_ends.extend(reader.reached(file, found[file, name].whole()))
    return found


def main(arguments):
    reached = believed(ROOT)
    counted = Counter()
    for (file, _), declaration in reached.items():
        counted[file.split('/')[0]] += lines_of(declaration)
    for crate, lines in sorted(counted.items(), key=lambda pair: -pair[1]):
        print(f'{lines:6}  {crate}')
    print(f'{sum(counted.values()):6}  in {len(reached)} definitions')
    if '--list' in arguments:
        for (file, name), declaration in sorted(reached.items()):
            print(f'{lines_of(declaration):6}  {file} {name}')
        reader = statements.Reader(ROOT)
        for file, declaration in statements.definitions(ROOT, reader):
            if (file, declaration.name) not in reached:
                print(f'unreached  {file} {declaration.name}')


if __name__ == '__main__':
    main(sys.argv[1:])
