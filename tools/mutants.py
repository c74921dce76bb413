#!/usr/bin/env python3
"""Changes every definition that a reader has to believe, one place at a time, and tells which theorem notices.

    python3 tools/mutants.py                 all of them
    python3 tools/mutants.py bus chunks      those of some crates
    python3 tools/mutants.py --only NAME     those of one definition

A change is one of: a number one more or one less, a truth value or an acknowledge bit turned round, `<` for `≤`, another constructor of the
same type, the branches of a test exchanged, two arguments exchanged, two neighbours of a list exchanged, `and` for `or`, a `not` left out.
What makes no sense any more (the definition itself is not admitted) is no change. Whatever leans on a function's proof is left out: the
theory alone is checked, and a change is noticed where a promised theorem is not admitted. Rows, which are computed, are then false; a law
may be true still, and only its proof broken, so rows are named first. The last line is `N passed, M failed`: changes
that were noticed, and changes that were not.
"""

import itertools
import os
import re
import shutil
import sys
import tempfile
from concurrent.futures import ThreadPoolExecutor
from dataclasses import dataclass
from pathlib import Path

import believed
import contracts
import kit
import sources
import statements
import theory

ROOT = Path(__file__).resolve().parent.parent

WORD = re.compile(r"[^\s(){}\[\],;]+")
EXCHANGED = {'true': 'false', 'false': 'true', 'ltb': 'leb', 'leb': 'ltb', '&&': '||', '||': '&&', '/': '%', '%': '/', '+': '-', '-': '+',
             'take': 'drop', 'drop': 'take'}


@dataclass(frozen=True)
class Change:
    file: str       # below crates/
    name: str
    line: int
    old: str        # the whole text of the definition's part that changes, which stands in the file once
    new: str

    def words(self):
        """What changed, in short."""
        before, after = self.old.split(), self.new.split()
        while before and after and before[0] == after[0]:
            before, after = before[1:], after[1:]
        while before and after and before[-1] == after[-1]:
            before, after = before[:-1], after[:-1]
        return f'{" ".join(before)[:60]} -> {" ".join(after)[:60]}'


# ---- constructors

def constructors(root):
    """Of each constructor, the next one of its type that takes as many arguments, for each type that has one of this name."""
    kinds = []
    for file in sources.definition_files(root):
        for each in sources.declarations(sources.read(file)):
            if each.word == 'data':
                block = each.signature.partition(' where')[2]
                kinds.append({name: type_.count('→') for name, type_ in re.findall(r'^\s+(\S+) : (.*)$', block, re.M)})
    for _, file, _ in sources.code_files(root):
        for item in sources.public_items(sources.read(file), 'type'):
            if re.match(r'pub\s+enum', item.text):
                cases = re.findall(r'^\s*(\w+)(\([^)]*\))?,', item.text.partition('{')[2], re.M)
                kinds.append({name: held.count(',') + 1 if held else 0 for name, held in cases})
    alike = {}
    for kind in kinds:
        for name, arity in kind.items():
            names = [other for other in kind if kind[other] == arity]
            other = names[(names.index(name) + 1) % len(names)]
            if other != name and other not in alike.setdefault(name, []):
                alike[name].append(other)
    return alike


# ---- the changes of a text

def atoms(text):
    """The (start, end) of each word and bracketed group of a text."""
    place = 0
    while place < len(text):
        if text[place].isspace():
            place += 1
            continue
        ends, depth = place, 0
        while ends < len(text) and (depth > 0 or not text[ends].isspace()):
            depth += {'(': 1, '{': 1, ')': -1, '}': -1}.get(text[ends], 0)
            if depth < 0:
                break
            ends += 1
            if depth == 0 and text[ends - 1] in ')}':
                break
        if ends == place:
            place += 1
            continue
        yield place, ends
        place = ends


def exchanged(text, one, other):
    """A text with two of its spans exchanged."""
    (a, b), (c, d) = sorted((one, other))
    return text[:a] + text[c:d] + text[b:c] + text[a:b] + text[d:]


def number_changes(word):
    base = 16 if word.startswith('0x') else 10
    value = int(word, base)
    for near in (value + 1, value - 1):
        if near >= 0:
            yield (f'0x{near:X}' if base == 16 else str(near))


def word_changes(word, alike):
    if re.fullmatch(r'0x[0-9A-Fa-f]+|\d+', word):
        yield from number_changes(word)
    if word in EXCHANGED:
        yield EXCHANGED[word]
    head, dot, last = word.rpartition('.')
    for other in alike.get(last, []):
        if not word.startswith('.'):
            yield head + dot + other


def text_changes(text, pairs, alike):
    """The texts that come of changing one place of the right side of a clause."""
    for found in WORD.finditer(text):
        for other in word_changes(found.group(), alike):
            yield text[:found.start()] + other + text[found.end():]
        rest = [(found.end() + a, found.end() + b) for a, b in itertools.islice(atoms(text[found.end():]), 3)]
        if found.group() == 'cond' and len(rest) == 3:
            yield exchanged(text, rest[1], rest[2])
        if found.group() == 'not' and rest:
            yield text[:found.start()] + text[rest[0][0]:rest[0][1]] + text[rest[0][1]:]
    spans = list(atoms(text))
    for one, middle, other in zip(spans, spans[1:], spans[2:]):
        if text[middle[0]:middle[1]] in ('∷', '++'):
            yield exchanged(text, one, other)
    for one, other in pairs:
        swap = {one: other, other: one}
        # the name of a field, before its `=`, is no argument
        yield re.sub(r"[^\s(){}\[\],;]+(?! =)", lambda found: swap.get(found.group(), found.group()), text)


def clauses_of(declaration):
    """The clauses of a definition, each as its left side and its right side."""
    for item in sources.items_of(list(enumerate(declaration.clauses.split('\n')))):
        left, equals, right = '\n'.join(line for _, line in item).partition(' =')
        if equals:
            yield left + equals, right


def pairs_alike(declaration, left):
    """The pairs of a clause's arguments that are names and have the same type."""
    types = [part.strip() for part in contracts.parted(sources.normal(declaration.signature.partition(' :')[2]), '→')]
    arguments = [left[a:b] for a, b in atoms(left.rpartition(' =')[0])][1:]
    named = [(name, type_) for name, type_ in zip(arguments, types) if re.fullmatch(r"[\w']+", name)]
    return [(one, other) for (one, a), (other, b) in itertools.combinations(named, 2) if a == b]


def changes(root, wanted):
    """Every change of every definition that is believed."""
    alike = constructors(root)
    for (file, name), declaration in sorted(believed.believed(root).items()):
        if declaration.word or '/specs/' not in file or file.startswith('demands/') or (wanted and file.split('/')[0] not in wanted and name not in wanted):
            continue
        for left, right in clauses_of(declaration):
            for other in dict.fromkeys(text_changes(right, pairs_alike(declaration, left), alike)):
                if sources.normal(other) != sources.normal(right):
                    yield Change(file, name, declaration.line, left + right, left + other)


# ---- trying them

def promised(root):
    """The promised theorems, and of each whether it is computed: rows, each of which is true by `refl` or not at all."""
    return {(file, each.name): bool(re.fullmatch(r'\S+ =[reflt(),\s]+', each.clauses.strip()))
            for file, each in statements.theorems(root, statements.Reader(root))}


class Bench:
    """A folder, outside the checkout, in which changed theories are checked over what the checker kept of the theory as it is."""

    def __init__(self, root, work):
        self.work, self.tree, self.kept, self.promised = work, work / 'theory', work / 'kept', promised(root)
        theory.lay_out(root, self.tree)
        said = theory.check(self.tree, self.kept)
        if 'logic=proved' not in said:
            sys.exit(f'mutants: the theory by itself is not proved:\n{said[-2000:]}')

    def noticed(self, number, change):
        """The promised theorems that notice a change; none where the definition itself makes no sense any more."""
        folder = self.work / f'change-{number}'
        kit.link_tree(self.tree, folder / 'theory')
        kit.link_tree(self.kept, folder / 'kept')
        file = folder / 'theory/crates' / change.file
        text = sources.without_comments(sources.read(file))
        if text.count(change.old) != 1:
            shutil.rmtree(folder)
            return change, None
        file.unlink()
        file.write_text(text.replace(change.old, change.new), encoding='utf-8')
        rejected = theory.rejected(theory.check(folder / 'theory', folder / 'kept'), folder / 'theory')
        shutil.rmtree(folder)
        if any('/specs/' in file for file, _ in rejected):
            return change, None
        return change, sorted(set(rejected) & set(self.promised), key=lambda there: (not self.promised[there], rejected.index(there)))


def try_all(changed, work):
    """Yields each change with the theorems that notice it, rows first, and whether the first is computed."""
    bench = Bench(ROOT, work)
    with ThreadPoolExecutor(int(os.environ.get('EDIT_JOBS', os.cpu_count() or 1))) as pool:
        for change, by in pool.map(bench.noticed, itertools.count(), changed):
            yield change, by, bool(by) and bench.promised[by[0]]


def main(arguments):
    tried = list(changes(ROOT, [word for word in arguments if not word.startswith('--')]))
    noticed = by_rows = unnoticed = senseless = 0
    with tempfile.TemporaryDirectory() as work:
        for change, by, computed in try_all(tried, Path(work).resolve()):
            if by is None:
                senseless += 1
                continue
            noticed, unnoticed = noticed + bool(by), unnoticed + (not by)
            by_rows += computed
            what = f'{"the rows of " if computed else ""}{by[0][0]} {by[0][1]}' if by else 'NOBODY'
            print(f'{change.file}:{change.line} {change.name}: {change.words()}: noticed by {what}', flush=True)
    print(f'{len(tried)} changes, of which {senseless} make no sense; {by_rows} were noticed by rows, {noticed - by_rows} by a law alone')
    print(f'{noticed} passed, {unnoticed} failed')
    return 1 if unnoticed else 0


if __name__ == '__main__':
    sys.exit(main(sys.argv[1:]))
