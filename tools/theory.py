#!/usr/bin/env python3
"""The theory of this repository by itself: every crate's types, definitions, laws and theorems, without its functions and their proofs.

    python3 tools/theory.py      checks it, in seconds

It is checked in seconds, and says what protects a reader where code and definition are misread alike: a changed definition that no theorem
notices here is held by the functions' proofs alone.
"""

import re
import shutil
import sys
import tempfile
from pathlib import Path

import edits
import kit
import sources

# The crate above all others, which reaches every library.
TOP_CRATE = 'demands'

FUNCTION = re.compile(
    sources.CODE_SKIPPED
    + r'|(?P<head>(?:#\[(?:[^\[\]]|\[[^\[\]]*\])*\]\s*)*(?:\bpub(?:\([a-z]+\))?\s+)?(?:extern\s+"C"\s+)?\bfn\s+\w+)'
    + r'|(?P<brace>[{}])',
    re.S)
ERROR = re.compile(r'^(?P<file>\S+?):\d+:\d+: error: `(?P<name>[^`]+)`')


def types_alone(text):
    """A file of code without its functions."""
    kept, position = [], 0
    while True:
        found = FUNCTION.search(text, position)
        if not found:
            break
        if found['head']:
            kept.append(text[position:found.start()])
            position = sources.clauses_and_body(text, found.end())[2]
        else:
            ends = sources.closing(text, found.start(), sources.CODE_BRACES) if found['brace'] == '{' else found.end()
            kept.append(text[position:ends])
            position = ends
    return re.sub(r'^ghost use[^;]*;\n', '', ''.join(kept) + text[position:], flags=re.M)


def libraries(root):
    """The library crates, leaves first."""
    return [name for _, name, _ in sources.listed_crates(root) if (root / 'crates' / name / 'src/lib.rt').is_file()]


def lay_out(root, folder):
    """Writes the theory of a repository into a folder."""
    shutil.rmtree(folder, ignore_errors=True)
    for name in libraries(root):
        crate, copy = root / 'crates' / name, folder / 'crates' / name
        for file in crate.rglob('*'):
            there = copy / file.relative_to(crate)
            if file.suffix == '.rt' and crate / 'src' in file.parents:
                there.parent.mkdir(parents=True, exist_ok=True)
                there.write_text(types_alone(sources.read(file)), encoding='utf-8')
            elif file.suffix == '.antt' and not edits.PROOF_OF_A_FUNCTION.fullmatch(str(file.relative_to(crate))):
                there.parent.mkdir(parents=True, exist_ok=True)
                shutil.copy(file, there)


def check(folder, kept):
    """Checks a theory over what the checker has kept of it; returns what it says."""
    words = ['--crate-name', TOP_CRATE, folder / 'crates' / TOP_CRATE / 'src/lib.rt', *kit.kit_words([])]
    for name in libraries_in(folder):
        if name != TOP_CRATE:
            words += ['--lib', f'{name}={folder}/crates/{name}/src/lib.rt']
    return kit.rattle('check', [*words, *kit.logic(), '--incremental', kept]).stdout


def libraries_in(folder):
    return sorted(crate.name for crate in (folder / 'crates').iterdir())


def rejected(said, folder):
    """The (file below crates/, declaration) of each declaration that was not admitted, in order."""
    found = (ERROR.match(line) for line in said.splitlines())
    return [(str(Path(each['file']).relative_to(folder / 'crates')), each['name']) for each in found if each]


def main():
    """Checks the theory of this repository by itself, over what was kept of it, and shows what was not admitted."""
    root = Path(__file__).resolve().parent.parent
    with tempfile.TemporaryDirectory() as folder:
        # outside the checkout, where `rt ci` takes no such file
        tree = Path(folder).resolve() / 'tree'
        lay_out(root, tree)
        said = check(tree, root / 'target/theory')
    print('\n'.join(line for line in said.replace(f'{tree}/', '').splitlines()
                    if ': error: ' in line or line.startswith(('logic=', 'note: ')) or 'hole' in line))
    return 0 if 'logic=proved' in said else 1


if __name__ == '__main__':
    sys.exit(main())
