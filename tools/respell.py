#!/usr/bin/env python3
"""Spells this repository's definitions and lemmas as today's Rattle does: words in snake case.

    python3 tools/respell.py     once, right after port.py, before any edit by hand

port.py respells only the names that a library of the kit has too. This brings the others along: `pieceOf` and `piece-of` become `piece_of`,
wherever they stand in specs/, proofs/, clauses, edits that must be refused, and code spans of the pages. What stays: functions of src/,
exported C names, strings, types, modules, and the names that Rattle makes of a function's goals. It says which names fall together, and
then writes nothing.
"""

import re
import sys
from collections import defaultdict
from pathlib import Path

ROOT = Path(__file__).resolve().parent.parent
WORD = re.compile(r'[^\s(){}\[\].;,:@"«»`/]+')
DECLARED = re.compile(rf'^[ \t]*(?:(?:unfoldable|abbrev|pub)[ \t]+)*((?:{WORD.pattern}[ \t]+)*?{WORD.pattern})(?:[ \t]*\{{[^}}\n]*\}})*[ \t]+:(?=\s)', re.M)
COMMENT = re.compile(r'(?<!\S)(?:--|//)[^\n]*')
SPAN = re.compile(r'`[^`\n]*`')
STRING = re.compile(r'"(?:\\.|[^"\\\n])*"')
FUNCTION = re.compile(r'\b[a-z_]\w*(?=\()|use (?!Rattle)[a-z_:]+(?:\{[^}]*\})?|(?:proofs|contracts)(?:\.[a-z_+]+)+')
KEYWORDS = {'data', 'record', 'module', 'where', 'use', 'mod', 'let', 'in', 'ruleset', 'mutual', 'unfolding', 'elim'}
# What port.py had turned already, since a library spells it so; the edits and the pages still have the older spelling.
TURNED = set('''
a-read a-write add-total address-read all-made and-left and-right andThen answerOf as-long at-read atOnce begun-kept big-endian bitOf
body-bytes bodyOf by-kind by-most by-next by-number by-size by-turn closing-end count-most countOf cut-small doneOf effectOf endOf
failed-ends fieldOf fill-more fit-append fixed-back fixedOf flagsOf found-here four-bytes freshOf from-bytes from-start gives-up goes-on
goes-step going-on handed-out inTurn is-read isEmpty isNone isSome kept-read keptAt laid-next last-meets last-one lays-one leftOf listOf
listsOf mayRead mayWrite mul-at mul-words nameOf next-fits nextOf no-end no-room no-stop no-text no-words no-write none-left none-of
not-stuck numberIn numberOf one-more one-of opcodeOf out-of-range passes-over pastOf piece-inside pieceOf pieces-more piecesBy place-read
plan-run poll-meets poll-walks put-meets put-refused read-all read-count read-fits read-found read-more read-next read-number read-opened
readOf readStep reads-on received-none runFrom runOf runs-on same-length sizeOf slotsOf some-more some-runs standing-here startOf
starts-first step-cut step-end step-kept stepOf to-step too-few turn-is turnOf two-bytes walk-end walk-inside withList word-back word-low
wordAt wordBytes wordsOf write-goes written-out written-step writtenBy
'''.split())


# A library spells it so.
KEPT = {'and-false'}
# Where the spelling would meet another name.
OTHERWISE = {'planRun': 'planned_run', 'pieces-by': 'pieces_by_lem'}
IN_A_FILE = {'crates/sitankulo/proofs/ReadBack.antt': {'four_bytes': 'four_bytes_lem'}}


def spelled(name):
    return re.sub(r'(?<=[a-z0-9])[A-Z]', lambda found: '_' + found[0].lower(), name).replace('-', '_')


def is_old(name):
    return name[:1].islower() and re.search(r'[a-z0-9][A-Z]|[^\W_]-[^\W_]', name) is not None


def lemma_files(crate):
    """The files of definitions and lemmas, and not those that answer a function's goals."""
    return [*sorted(crate.glob('specs/**/*.antt')), *sorted(crate.glob('proofs/*.antt'))]


def declared_in(text):
    text = COMMENT.sub('', text)
    for found in DECLARED.finditer(text):
        names = found[1].split()
        if not KEYWORDS & set(names):
            yield from (name for name in names if is_old(name))


def table(crates):
    """Each name with its new spelling; a lemma that would have its definition's name gets `_lem`."""
    names = TURNED | {name for crate in crates for file in lemma_files(crate) for name in declared_in(file.read_text())} - KEPT
    definitions = {spelled(name) for name in names if '-' not in name}
    turned = {name: spelled(name) + '_lem' * ('-' in name and spelled(name) in definitions) for name in names}
    return turned | OTHERWISE


def turn_words(text, names):
    return WORD.sub(lambda found: names.get(found[0], found[0]), text)


def turn_comment(text, names):
    """In prose a hyphen is English: names in camel case alone turn there, and all that stand in a code span."""
    spans = SPAN.sub(lambda found: turn_words(found[0], names), text)
    return turn_words(spans, {old: new for old, new in names.items() if '-' not in old})


def turn_code(text, names, goals=False):
    """A file of code or antt. In an answer file what stands behind a dot may be a name that Rattle makes."""
    parts, position = [], 0
    for quiet in re.finditer(f'{COMMENT.pattern}|{STRING.pattern}', text):
        parts += [turn_names(text[position:quiet.start()], names, goals),
                  quiet[0] if quiet[0].startswith('"') else turn_comment(quiet[0], names)]
        position = quiet.end()
    return ''.join([*parts, turn_names(text[position:], names, goals)])


def turn_names(text, names, goals):
    if not goals:
        return turn_words(text, names)
    made = re.compile(rf'(?:\btie\.|^pub |^)?{WORD.pattern}(?:\.{WORD.pattern})*', re.M)

    def turn(found):
        head, *fields = found[0].split('.')
        if head in ('tie', 'c') or head.startswith('c.'):
            return found[0]
        return '.'.join([names.get(head, head), *(names.get(field, field) for field in fields)])

    return made.sub(turn, text)


def turn_edit(text, names):
    """The lines of an edit; a file that is named stays, and so does the fact of a function's goal."""
    lines = []
    for line in text.split('\n'):
        word, _, rest = line.partition(':')
        if word in ('old', 'new') or word == 'fact' and rest.strip().count('/') == 1:
            line = f'{word}:' + turn_code(rest, names)
        lines.append(line)
    return '\n'.join(lines)


def clashes(names, crates):
    """Names that fall together: two that get one spelling, or a spelling that a file has already."""
    by_new = defaultdict(set)
    for old, new in names.items():
        if old not in TURNED:
            by_new[new].add(old)
    for new, olds in by_new.items():
        if len(olds) > 1:
            yield f'{" and ".join(sorted(olds))} both become {new}'
    for crate in crates:
        for file in [*crate.glob('specs/**/*.antt'), *crate.glob('proofs/**/*.antt'), *crate.glob('src/**/*.rt')]:
            text = STRING.sub('', COMMENT.sub('', file.read_text()))
            # a function of src/ is no name of a clause
            words = set(WORD.findall(FUNCTION.sub('', text))) - IN_A_FILE.get(str(file.relative_to(ROOT)), {}).keys()
            for old in sorted(words & names.keys() - TURNED):
                if names[old] in words:
                    yield f'{file.relative_to(ROOT)} has {old} and {names[old]}'


def main():
    crates = sorted(folder for folder in (ROOT / 'crates').iterdir() if (folder / 'src').is_dir())
    names = table(crates)
    met = sorted(set(clashes(names, crates)))
    if met:
        print('\n'.join(met))
        return 1
    changed = 0
    for crate in crates:
        for file in sorted(crate.rglob('*')):
            if 'out' in file.relative_to(crate).parts or not file.is_file():
                continue
            if file.suffix not in ('.antt', '.rt', '.edit'):
                continue
            text = file.read_text()
            own = IN_A_FILE.get(str(file.relative_to(ROOT)), {})
            if file.suffix == '.edit':
                new = turn_edit(text, names)
            else:
                new = turn_code(text, names | own, goals=file.suffix == '.antt' and file.parent.name != 'proofs' and 'proofs' in file.parts)
            if new != text:
                file.write_text(new)
                changed += 1
    for page in sorted([*ROOT.glob('*.md'), *ROOT.glob('docs/*.md'), *ROOT.glob('examples/*.md')]):
        text = page.read_text()
        new = SPAN.sub(lambda found: turn_words(found[0], names), text)
        if new != text:
            page.write_text(new)
            changed += 1
    print(f'respell: {len(names)} names, {changed} files')
    return 0


if __name__ == '__main__':
    sys.exit(main())
