#!/usr/bin/env python3
"""Where src/ may still be written in an older form, for docs/DESIGN-PASS.md: what a reader has to look at, by the page's points.

    python3 tools/places.py [POINT..] [--list]     how many lines of src/ each search finds, or the lines themselves

A line that is found is a candidate: the page says which are places, and what became of each. Counted last are the reasons to stay, which
stand beside their places in comments that begin with `Kept:`.
"""

import re
import sys
from collections import Counter
from pathlib import Path

import sources

ROOT = Path(__file__).resolve().parent.parent

NUMBER = r'(?:u8|u32)'
SHOWN = r'(?:pub(?:\([a-z]+\))? )?'
SEARCHES = {
    '1 own enums': rf'^\s*{SHOWN}enum \w+',
    '1 flags in structs': rf'^\s+{SHOWN}\w+: bool,$',
    '1 numbers by name': rf'^\s*{SHOWN}const \w+: {NUMBER} = ',
    '3 counted loops': r'\bwhile \w+(?:\.\w+)? (?:<|>|!=) |\bfor \w+ in 0\.\.|\bloop \{',
    '4 by hand': rf'\bfn (?:is_same\w*|is_never|is_at|same|\w*_number|\w*number_of|numbered|number|\w*_byte|\w*_letter|letter'
                 rf'|hex_digit|digit|hex|one_if|flag|weigh|big_endian|phase_\w+|print_\w+|encode|decode|copy|blank)\b',
    '6 fixed buffers': r'\[[^\[\];]+; ?(?:[A-Z_]+|\d{2,})\]',
    '7 switches on a step': r'\bmatch (?:asked|call|awaited|step)\b',
}


def found_in(root, pattern):
    """Yields (file, line, text) of each line of code that a search finds; comments do not count."""
    for _, file, _ in sources.code_files(root):
        for number, line in enumerate(sources.CODE_COMMENT.sub(sources.blank, sources.read(file)).splitlines(), 1):
            if re.search(pattern, line):
                yield file.relative_to(root), number, line.strip()


def same_names(root):
    """Yields (file, line, text) of each function that has the name of another: twins have one name, or nearly."""
    functions = [(file, sources.line_at(sources.read(file), start), path[-1])
                 for _, file, _ in sources.code_files(root)
                 for kind, _, path, (start, _, _), _ in sources.every_item(sources.read(file)) if kind == 'fn']
    counted = Counter(name for _, _, name in functions)
    for file, line, name in functions:
        if counted[name] > 1 and name != 'main':
            yield file.relative_to(root), line, f'fn {name}'


def repeated_facts(root):
    """Yields (file, line, text) of each fact that three or more functions of a crate ask for."""
    facts = [(crate, file, sources.line_at(sources.read(file), start), ' '.join(fact.split()))
             for crate, file, _ in sources.code_files(root)
             for kind, _, _, (start, _, _), clauses in sources.every_item(sources.read(file)) if kind == 'fn'
             for clause, text in clauses if clause == 'requires'
             for fact in re.split(r'\) × \(| × ', text.strip().removeprefix('(').removesuffix(')'))]
    counted = Counter((crate, fact) for crate, _, _, fact in facts)
    for crate, file, line, fact in facts:
        if counted[crate, fact] >= 3:
            yield file.relative_to(root), line, fact


def searched(root):
    """The lines that each search finds, by its name."""
    found = {name: list(found_in(root, pattern)) for name, pattern in SEARCHES.items()}
    found['2 functions of one name'] = list(same_names(root))
    found['5 facts of three contracts'] = list(repeated_facts(root))
    return dict(sorted(found.items()))


def kept(root):
    """Every reason to stay, with its place."""
    for _, file, _ in sources.code_files(root):
        for number, line in enumerate(sources.read(file).splitlines(), 1):
            if re.search(r'//\s*Kept:', line):
                yield file.relative_to(root), number, line.strip()


def main(arguments):
    points = [each for each in arguments if each != '--list']
    for name, places in {**searched(ROOT), 'reasons to stay': list(kept(ROOT))}.items():
        if points and name.split()[0] not in points:
            continue
        print(f'{len(places):5}  {name}')
        if '--list' in arguments:
            for file, line, text in places:
                print(f'       {file}:{line}: {text}')


if __name__ == '__main__':
    main(sys.argv[1:])
