#!/usr/bin/env python3
"""The gate: proofs, edits that must be refused, rules, host tests, tests from C. Its last line is `N passed, M failed`, over all of them.

It begins with `rt ci`, over the checkout as it stands; what that made is what the parts after it take.
Parts that do not wait for each other run beside each other. What a part prints is shown when it ends; of `rt ci` line by line."""

import subprocess
import sys
import threading
import time
from collections import Counter
from dataclasses import dataclass, field
from pathlib import Path

import counting
import sources
import statements
from counting import TALLY, Count

ROOT = Path(__file__).resolve().parent.parent

# What `rt ci` printed, for the parts that read it.
SAID = Path('target/rt-ci.log')

# The cargo projects whose tests are run; one that is missing fails, and so does one that is not named here.
HOST_TESTS = ('oracle', 'differential')


@dataclass
class Part:
    name: str
    command: list
    count: object                # what reads the lines that it prints
    folder: Path = ROOT
    needs: tuple = ()            # the parts that have to end before
    optional: str = ''           # what it counts, where the machine may not have what it takes
    shown: bool = False          # line by line, as it goes
    kept: Path = None            # where its lines are written once it has ended
    ended: threading.Event = field(default_factory=threading.Event)
    result: Count = None
    seconds: float = 0
    lines: list = field(default_factory=list)


# ---- running the parts

printing = threading.Lock()


def show(name, lines):
    """Prints lines of a part; none may look like the gate's own last line."""
    with printing:
        for line in lines:
            print(f'{name}: {line}' if TALLY.fullmatch(line) else line, flush=True)


def run(part):
    """Runs the command of a part and keeps its lines; returns what was wrong with how it ended, if anything was."""
    try:
        process = subprocess.Popen(part.command, cwd=part.folder, stdin=subprocess.DEVNULL, stdout=subprocess.PIPE,
                                   stderr=subprocess.STDOUT, encoding='utf-8', errors='replace')
    except OSError as error:
        return f'cannot be run: {error}'
    with process:
        for line in process.stdout:
            part.lines.append(line.rstrip('\n'))
            if part.shown:
                show(part.name, part.lines[-1:])
    return f'ended with status {process.returncode}' if process.returncode else ''


def carry_out(part, parts):
    """Runs a part once those that it needs have ended. One that ends badly has failed, whatever it says, and so has one that counts
    nothing, if it is not optional."""
    for name in part.needs:
        parts[name].ended.wait()
    began = time.monotonic()
    wrong = run(part)
    if part.kept:
        part.kept.parent.mkdir(parents=True, exist_ok=True)
        part.kept.write_text(''.join(f'{line}\n' for line in part.lines), encoding='utf-8')
    part.result = part.count(part.lines)
    part.seconds = time.monotonic() - began
    if not wrong and not part.result.passed and not part.optional:
        wrong = 'counted nothing'
    if wrong and not part.result.failed:
        part.result.failed = 1
    show(part.name, ([] if part.shown else [f'== {part.name}', *part.lines]) + ([f'gate: {part.name} {wrong}'] if wrong else []))
    part.ended.set()


def carry_out_all(parts):
    named = {part.name: part for part in parts}
    threads = [threading.Thread(target=carry_out, args=(part, named)) for part in parts]
    for thread in threads:
        thread.start()
    for thread in threads:
        thread.join()


# ---- the parts

def host_tests(root):
    """The cargo projects; the differential tests run the programs that `rt ci` has built."""
    found = {project.parent.name for project in root.glob('host/*/Cargo.toml')}
    command = ['cargo', 'test', '--release', '--offline', '--no-fail-fast', '--', '--show-output']
    return [Part(f'host/{name}', command if name in found and name in HOST_TESTS else ['false'], counting.of_cargo,
                 root / 'host' / name if name in found else root, ('rt ci',) if name == 'differential' else ())
            for name in [*HOST_TESTS, *sorted(found - set(HOST_TESTS))]]


def all_parts(root):
    python, make = [sys.executable], ['make', '--no-print-directory']
    return [
        Part('rt ci', ['rt', 'ci'], counting.of_proofs, root, shown=True, kept=root / SAID),
        Part('edits', python + ['tools/edits.py', '--said', SAID], counting.told_as('edits refused'), needs=('rt ci',)),
        Part('tools', python + ['-m', 'unittest', 'discover', '-s', 'tools/tests'], counting.of_unittest),
        Part('rules', python + ['tools/rules.py'], counting.told_as('rules')),
        *host_tests(root),
        Part('library', python + ['tools/library.py', 'proved'], lambda lines: Count(int(bool(lines))), needs=('rt ci',)),
        Part('C calls', make + ['ctest'], counting.of_c_tests, needs=('library',)),
        Part('C calls against the Rust original', make + ['soak', 'COUNT=300000', 'SEED=1'], counting.of_soak, needs=('library',)),
        Part('C calls, fuzzed', make + ['fuzz', 'SECONDS=60', 'SEED=1'], counting.of_fuzzing, needs=('C calls',), optional='fuzz inputs'),
    ]


# ---- the end

def print_times(parts):
    print('\n  seconds  passed  failed  part')
    for part in parts:
        print(f'{part.seconds:9.1f}{part.result.passed:8}{part.result.failed:8}  {part.name}')


def print_counts(counted, floor):
    print('\n     counted    at least  what')
    for name in [*floor, *(name for name in counted if name not in floor)]:
        print(f'{counted[name]:12,}{floor.get(name, 0):12,}  {name}')


def main():
    sys.stdout.reconfigure(encoding='utf-8', errors='replace', line_buffering=True)
    parts = all_parts(ROOT)
    carry_out_all(parts)

    counted = sum((part.result.told for part in parts), Counter()) + counting.of_statements(
        sources.read(ROOT / statements.PINNED).splitlines())
    floor = counting.least(ROOT)
    left_out = [part.optional for part in parts if part.optional and not part.result.passed and not part.result.failed]
    lost = counting.lost(counted, floor, left_out)

    print_times(parts)
    print_counts(counted, floor)
    for name in left_out:
        print(f'gate: no {name}: this machine has not what it takes')
    for line in lost:
        print(f'gate: LOST: {line} ({counting.LEAST})')
    print()
    failed = sum(part.result.failed for part in parts) + len(lost)
    print(f'{sum(part.result.passed for part in parts)} passed, {failed} failed')
    return 1 if failed else 0


if __name__ == '__main__':
    sys.exit(main())
