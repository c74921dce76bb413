#!/usr/bin/env python3
"""The rules of this repository: what its readers rely on and `rt` does not check.

    python3 tools/rules.py [ROOT]

Prints each problem as `RULE: file:line: what`, then `N passed, M failed`, which counts the rules.
"""

import re
import sys
from pathlib import Path

import contracts
import edits
import kit
import sources
import statements
from sources import read

CALL_ROW = re.compile(r'\s*\|\s*(`[^`\s]*::[^`\s]*`)\s*\|([^|]*)\|')
THEOREM_ROW = re.compile(r'\s*\|\s*(`[^`\s]+\.antt`)\s+(`[^`\s]+`)\s*\|')
PROMISES = Path('docs/PROMISES.md')


def place(root, file, line):
    return f'{file.relative_to(root)}:{line}'


# ---- contracts

def every_pub_fn_has_ensures(root):
    """A `pub fn` promises something: it has an `ensures`. An `impl` of a trait says by a ghost member what it gives."""
    return ([f'{place(root, file, function.line)}: `{name}` has no ensures'
             for file, name, function in sources.public_calls(root) if 'ensures' not in dict(function.clauses)]
            + [f'{place(root, file, each.line)}: `{name}` has no ghost member'
               for file, name, each in sources.public_impls(root) if 'ensures' not in dict(each.clauses)])


def no_requires_at_the_boundary(root):
    """A `pub fn` takes whatever it is handed: it has no `requires`."""
    return [f'{place(root, file, function.line)}: `{name}` has a requires'
            for file, name, function in sources.public_calls(root) if 'requires' in dict(function.clauses)]


def contracts_are_equations(root):
    """A contract settles what is returned and what each lent memory holds in the end: an equation each, directly or through an abbreviation
    or a record of `specs/`, and none that is said by itself. So does an `impl` of a trait."""
    declared, own_traits = statements.Reader(root).declared, sources.own_traits(root)
    return ([f'{place(root, file, function.line)}: `{name}`: {weakness}'
             for file, name, function in sources.public_calls(root)
             for weakness in contracts.weaknesses(function, str(file.relative_to(root / 'crates')), declared)]
            + [f'{place(root, file, each.line)}: `{name}`: {weakness}'
               for file, name, each in sources.public_impls(root) for weakness in contracts.impl_weaknesses(each, own_traits)])


def contracts_as_promised(root):
    """A contract speaks of the definitions that its row in docs/PROMISES.md names, which stand in the file named there."""
    reader, rows = statements.Reader(root), promised_calls(root)
    problems = []
    for file, name, function in [*sources.public_calls(root), *sources.public_impls(root)]:
        if f'`{name}`' not in rows:
            continue
        path = str(file.relative_to(root / 'crates'))
        equal, _ = contracts.equations(function, path, reader.declared)
        spoken = sources.tokens(' '.join([clause for _, clause in function.clauses] + list(equal.values())))
        row, cell = rows[f'`{name}`']
        definitions = re.findall(r'`([^`]+)`', cell)
        named = (re.findall(r'\S+\.(?:antt|rt)\b', cell) or [''])[-1]
        own, brought = reader.declared(named)
        if not definitions or not (root / 'crates' / named).is_file():
            problems.append(f'{row}: `{name}` names no definition with its file')
        problems += [f'{place(root, file, function.line)}: `{name}` does not speak of `{each}`, as {PROMISES} has it'
                     for each in definitions if each not in spoken]
        problems += [f'{row}: `{each}` is not to be found in {named}' for each in definitions
                     if each not in {**own, **brought} and not re.search(rf'\bghost {each}:', read(root / 'crates' / named))]
    return problems


# ---- what is promised

def what_exists(root):
    """The place of each public call and theorem, by the first cell of its row in docs/PROMISES.md."""
    places = {f'`{name}`': place(root, file, function.line)
              for file, name, function in [*sources.public_calls(root), *sources.public_impls(root)]}
    for file in sources.theorem_files(root):
        for each in sources.declarations(read(file)):
            if each.is_theorem():
                places[f'`{file.relative_to(root / "crates")}` `{each.name}`'] = place(root, file, each.line)
    return places


def promises(root, pattern):
    """Yields (place, the cells of a row) of docs/PROMISES.md."""
    for number, line in enumerate(read(root / PROMISES).splitlines(), 1):
        row = pattern.match(line)
        if row:
            yield f'{PROMISES}:{number}', row.groups()


def promised_calls(root):
    """The place and the second cell of each call's row."""
    return {name: (where, cell) for where, (name, cell) in promises(root, CALL_ROW)}


def what_is_promised(root):
    """The place of each row that names a public call or a theorem."""
    return {**{name: where for name, (where, _) in promised_calls(root).items()},
            **{' '.join(cells): where for where, cells in promises(root, THEOREM_ROW)}}


def promises_complete(root):
    """docs/PROMISES.md names every public call and every theorem, and nothing else."""
    exists, promised = what_exists(root), what_is_promised(root)
    return ([f'{where}: {name} is not in {PROMISES}' for name, where in exists.items() if name not in promised]
            + [f'{where}: {name} is no public call or theorem' for name, where in promised.items() if name not in exists])


def statements_pinned(root):
    """docs/STATEMENTS.txt is what `make statements` writes: no statement changes without a line of a diff that says so."""
    pinned, now = (set(text.splitlines()) for text in (read(root / statements.PINNED), statements.written(root)))
    if read(root / statements.PINNED) == statements.written(root):
        return []
    return ([f'{statements.PINNED}:1: pinned and no longer so: {line}' for line in sorted(pinned - now)]
            + [f'{statements.PINNED}:1: so and not pinned: {line}' for line in sorted(now - pinned)]
            or [f'{statements.PINNED}:1: not as `make statements` writes it'])


def specs_hold_definitions_only(root):
    """A theorem stands in proofs/: what is `pub` in specs/ is a type, an `abbrev` or `unfoldable`."""
    return [f'{place(root, file, each.line)}: `{each.name}` is neither abbrev nor unfoldable: a theorem belongs in proofs/'
            for file in sources.definition_files(root)
            for each in sources.declarations(read(file)) if each.is_theorem()]


# ---- nothing assumed

def declared_axioms(root):
    for file in sorted(root.glob('crates/**/*.antt')):
        for number, line in enumerate(sources.without_comments(read(file)).splitlines(), 1):
            if line.split()[:1] == ['axiom']:
                yield f'{place(root, file, number)}: an axiom: {line.strip()}'


def declared_c_functions(root):
    for _, file, _ in sources.code_files(root):
        code = sources.CODE_COMMENT.sub(sources.blank, read(file))
        for found in re.finditer(r'\bextern\s*(?:"C"\s*)?\{', code):
            yield f'{place(root, file, sources.line_at(code, found.start()))}: C functions of its own, whose contracts nothing proves'


def no_axioms(root):
    """Nothing is assumed: no axiom, no C function, and no library over the kit's own. That no call for C reaches a C function is read off
    the library's proof (tools/library.py)."""
    problems = [*declared_axioms(root), *declared_c_functions(root)]
    for line, name, _ in sources.listed_crates(root):
        reached = [each for each in kit.dependencies(root, name) if each in ('io', 'libc', 'os')]
        if reached and (root / f'crates/{name}/src/lib.rt').is_file():
            problems.append(f'crates.txt:{line}: {name}: a library that leans on {", ".join(reached)}, whose contracts are assumed')
    return problems


# ---- edits that must be refused

def edits_name_their_facts(root):
    """An edit that must be refused can be applied, and names the fact at which it has to be."""
    problems = []
    for crate in sources.crate_folders(root):
        for edit in edits.edits_of(root, crate.name):
            try:
                edits.edited(edit, crate)
            except edits.BadEdit as bad:
                problems.append(f'crates/{crate.name}/must-fail/{edit.label}.edit:1: {bad}')
    return problems


def exported_calls_are_attacked(root):
    """Each call for C, and the call of its name that it makes, has an edit that breaks a fact of its own proof."""
    attacked = {edit.fact.partition(' ')[0] for crate in sources.crate_folders(root) for edit in edits.edits_of(root, crate.name)}
    calls = list(sources.public_calls(root))
    exported = {function.path[-1] for _, _, function in calls if 'extern "C"' in function.text}
    return [f'{place(root, file, function.line)}: no edit breaks a fact of `{name}`'
            for file, name, function in calls if function.path[-1] in exported and name not in attacked]


# ---- layout

def laid_out(root):
    """Every file is in the layout of `rt fmt`."""
    files = [file for part in ('src/**/*.rt', 'specs/**/*.antt', 'proofs/**/*.antt') for file in sorted(root.glob(f'crates/*/{part}'))]
    checked = kit.rattle('fmt', ['--check', *files])
    if checked.returncode == 0:
        return []
    said = checked.stdout.replace(f'{root}/', '').strip() or 'crates:1: rattle fmt --check failed'
    return [line.replace(' is not in the layout', ':1: is not in the layout') for line in said.splitlines()]


def crates_listed(root):
    """Every folder in crates/ is in crates.txt, under a comment that says what the crate is for."""
    listed = {name: (line, above) for line, name, above in sources.listed_crates(root)}
    problems = []
    for crate in sources.crate_folders(root):
        line, above = listed.get(crate.name, (None, ''))
        if line is None:
            problems.append(f'crates/{crate.name}:1: not listed in crates.txt')
        elif not re.match(r'\s*#+\s*\w', above):
            problems.append(f'crates.txt:{line}: `{crate.name}` has no comment above it')
    return problems


RULES = [every_pub_fn_has_ensures, no_requires_at_the_boundary, contracts_are_equations, contracts_as_promised, promises_complete,
         statements_pinned, specs_hold_definitions_only, no_axioms, edits_name_their_facts, exported_calls_are_attacked, laid_out,
         crates_listed]


def main(arguments):
    root = Path(arguments[0]).resolve() if arguments else Path(__file__).resolve().parent.parent
    failed = 0
    for rule in RULES:
        name, problems = rule.__name__.replace('_', '-'), rule(root)
        for problem in problems or ['ok']:
            print(f'{name}: {problem}', flush=True)
        failed += bool(problems)
    print(f'{len(RULES) - failed} passed, {failed} failed')
    return 1 if failed else 0


if __name__ == '__main__':
    sys.exit(main(sys.argv[1:]))
