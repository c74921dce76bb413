#!/usr/bin/env python3
"""Holds the edits that must be refused to their facts.

    python3 tools/edits.py [CRATE[/LABEL]..]     has `rt must-fail` try those of some crates, or some edits alone
    python3 tools/edits.py --said FILE           judges all by what `rt ci` printed, which the file has

An edit stands in crates/CRATE/must-fail/LABEL.edit. Its lines are

    file: src/lib.rt              the file to change
    old: number <= 11             a text that stands there once
    new: number <= 12             what is put in its place; there may be several such pairs
    fact: names::told returns-2   where it has to be refused first, which `rt` passes over

A fact is a goal of a function's proof, by the function and the goal, or a declaration of a file, as `proofs/Words.antt decode_encode`.
An edit fails where `rt` does not refuse it, and where it is refused first elsewhere than at its fact.
The last line is `N passed, M failed`, over the edits.
"""

import re
import subprocess
import sys
from dataclasses import dataclass, field
from pathlib import Path

import sources

ROOT = Path(__file__).resolve().parent.parent
SAID = re.compile(r'rt: must-fail (?P<name>\S+?)\.edit: (?P<what>.*)')
REFUSED = re.compile(r'refused, as it must be(?P<only> \(only [^)]*\))?: (?P<first>.*)')
# What `rt` shows of a line ends here.
SHOWN = 160
REJECTED = re.compile(r'(?:\./)?(?P<file>[^\s:]+):\d+:\d+: error: `(?P<name>[^`]+)`')
OPEN = r'it is not proved that|`search` found no proof'
UNPROVED = re.compile(rf'note: (?P<file>[^\s:]+):(?P<line>\d+):\d+: (?:{OPEN}) .*?\(`(?P<goal>[^`]+)')
PROOF_OF_A_FUNCTION = re.compile(r'proofs/(?P<path>.+)/(?:Answers|Invariants|Proof)\.antt')


class BadEdit(Exception):
    """The edit cannot be applied, or says no fact."""


@dataclass
class Edit:
    crate: str
    label: str
    changes: list = field(default_factory=list)  # (file, old, new)
    fact: str = ''

    @property
    def name(self):
        return f'{self.crate}/{self.label}'


# ---- the edits

def read_edit(file):
    """An edit as its file has it; lines that are none of an edit's are passed over, as `rt` does."""
    edit, changed, old = Edit(file.parent.parent.name, file.stem), '', None
    for line in sources.read(file).splitlines():
        word, colon, rest = line.partition(':')
        rest = rest[1:] if rest.startswith(' ') else rest
        if not colon:
            continue
        if word == 'file':
            changed = rest
        elif word == 'old':
            old = rest
        elif word == 'new':
            edit.changes.append((changed, old, rest))
        elif word == 'fact':
            place, _, name = rest.strip().partition(' ')
            edit.fact = f'{place_of(edit.crate, place)} {name}'.strip()
    return edit


def edits_of(root, crate):
    return [read_edit(file) for file in sorted((root / 'crates' / crate / 'must-fail').glob('*.edit'))]


def wanted(root, names):
    """The edits asked for, by crate, in the order of crates.txt."""
    crates = [name for _, name, _ in sources.listed_crates(root)]
    edits = {crate: edits_of(root, crate) for crate in crates}
    if names:
        known = {edit.name for each in edits.values() for edit in each} | set(crates)
        for name in set(names) - known:
            sys.exit(f'edits: there is no crate and no edit {name}')
        edits = {crate: [edit for edit in each if crate in names or edit.name in names] for crate, each in edits.items()}
    return {crate: each for crate, each in edits.items() if each}


def edited(edit, folder):
    """The texts of the files that an edit of the crate in a folder changes, by their path in it."""
    if not edit.changes:
        raise BadEdit('it changes nothing')
    if len(edit.fact.split()) != 2:
        raise BadEdit("it names no fact: a line 'fact: FUNCTION GOAL' or 'fact: FILE DECLARATION'")
    texts = {}
    for name, old, new in edit.changes:
        if not name.startswith(('src/', 'specs/')) or '..' in name or not (folder / name).is_file():
            raise BadEdit(f"'{name}' is no file of the crate's src/ or specs/")
        text = texts.get(name) or sources.read(folder / name)
        if not old or text.count(old) != 1:
            raise BadEdit(f"its old text stands {text.count(old) if old else 0} times in {name}")
        texts[name] = text.replace(old, new)
    return texts


# ---- what rt says of them

def place_of(crate, file):
    """How a fact names a file of proofs: by the function, where it is a part of one's proof."""
    function = PROOF_OF_A_FUNCTION.fullmatch(file)
    return '::'.join([crate, *function['path'].split('/')]) if function else file


def fact_of(crate, line, folder):
    """The fact that the first line of a refusal tells of, and whether the line is cut short in it. A line of code keeps its number in an
    edit, which puts one line in the place of one."""
    found = REJECTED.match(line)
    if found:
        return f'{place_of(crate, found["file"])} {found["name"]}', False
    found = UNPROVED.match(line)
    if found:
        module = [part for part in Path(found['file']).with_suffix('').parts[1:] if part not in ('lib', 'main')]
        path = sources.function_at(sources.read(folder / found['file']), int(found['line']))
        return f'{"::".join([crate, *module, *path])} {found["goal"]}', found.end() == len(line) >= SHOWN
    return '', False


def judged(edit, what, folder):
    """Whether an edit of the crate in a folder was refused as it must be, by what `rt` said of it, and the words for it."""
    refused = REFUSED.fullmatch(what)
    if not refused or refused['only']:
        return False, what or 'NOT TRIED'
    fact, is_cut = fact_of(edit.crate, refused['first'], folder)
    if not fact or not (edit.fact == fact or is_cut and edit.fact.startswith(fact)):
        return False, f'REFUSED ELSEWHERE: at {fact or "no declaration"}, and its fact is {edit.fact}'
    return True, f'refused at {edit.fact}'


def judge_all(root, edits, lines):
    """Yields what comes of each edit: whether it was refused as it must be, and the words for it."""
    said = {found['name']: found['what'] for found in map(SAID.match, lines) if found}
    for crate, each in edits.items():
        for edit in each:
            try:
                edited(edit, root / 'crates' / crate)
                well, words = judged(edit, said.get(edit.name, ''), root / 'crates' / crate)
            except BadEdit as bad:
                well, words = False, f'BAD EDIT: {bad}'
            yield well, f'{edit.name}: {words}'


def tried(root, crates):
    """What `rt must-fail` says of the edits of some crates."""
    said = subprocess.run(['rt', 'must-fail', *crates], cwd=root, stdin=subprocess.DEVNULL, stdout=subprocess.PIPE,
                          stderr=subprocess.STDOUT, encoding='utf-8', errors='replace').stdout
    return said.splitlines()


def main(arguments):
    if arguments[:1] == ['--said']:
        edits, lines = wanted(ROOT, []), sources.read(Path(arguments[1])).splitlines()
    else:
        edits = wanted(ROOT, arguments)
        lines = tried(ROOT, edits)
    passed = failed = 0
    for well, words in judge_all(ROOT, edits, lines):
        print(words, flush=True)
        passed, failed = passed + well, failed + (not well)
    print(f'{passed} passed, {failed} failed')
    return 1 if failed else 0


if __name__ == '__main__':
    sys.exit(main(sys.argv[1:]))
