"""Reading what the parts of the gate say: how many passed and failed, and what was counted, in words."""

import re
from collections import Counter
from dataclasses import dataclass, field
from pathlib import Path

import sources

TALLY = re.compile(r'(\d+) passed, (\d+) failed')
CRATE_PROVED = re.compile(r'rt: \w+ (?:proved$|is kept: an earlier run on this machine proved the same)')
EDIT_REFUSED = re.compile(r'rt: must-fail \S+: refused, as it must be')
# On its line `rt: ok` it counts edits that it could not try, and passes all the same.
EDITS_BAD = re.compile(r'rt: ok;.*?; must-fail edits: [^;]*?(\d+) bad')
# What a proof assumes is named above its verdict: of the kit's C functions a program may reach those of libc and os.
ASSUMED = re.compile(r'axioms (?!(?:libc|os): )\w+: (?!none reached)|logic=proved .* foreign=')
PROGRAM_RAN = re.compile(r'rt: \w+ ran, and wrote what its file stdout has')
CARGO_RESULT = re.compile(r'test result: \w+\. (\d+) passed; (\d+) failed; (\d+) ignored; \d+ measured; (\d+) filtered out')
COMPARED = re.compile(r'compared (\d+) answers')
C_CHECKS = re.compile(r'plain: (\d+) passed, 0 failed')
FUZZED = re.compile(r'\w+: (\d+) inputs, cov')

LEAST = Path('docs/COUNTS.txt')


@dataclass
class Count:
    """What a part says: how many passed and failed, and how many of what."""
    passed: int = 0
    failed: int = 0
    told: Counter = field(default_factory=Counter)


def last_line(lines):
    """A part whose last line is `N passed, M failed`."""
    tally = TALLY.fullmatch(lines[-1]) if lines else None
    return Count(int(tally[1]), int(tally[2])) if tally else Count()


def summed(pattern, lines):
    return sum(int(found[1]) for found in map(pattern.match, lines) if found)


def matching(pattern, lines):
    return sum(bool(pattern.match(line)) for line in lines)


def of_proofs(lines):
    """`rt ci`: its last line counts crates and must-fail edits; a program that is proved is counted once more where it ran well. Edits
    that it calls bad have failed, and so has a proof that assumes what it may not."""
    count = last_line(lines)
    ran = matching(PROGRAM_RAN, lines)
    bad = summed(EDITS_BAD, lines) + matching(ASSUMED, lines)
    return Count(count.passed + ran, count.failed + bad, Counter({
        'crates proved': matching(CRATE_PROVED, lines), 'programs run': ran, 'edits refused by rt ci': matching(EDIT_REFUSED, lines)}))


def told_as(what):
    """A part whose last line counts so many of one thing."""
    def count(lines):
        tally = last_line(lines)
        return Count(tally.passed, tally.failed, Counter({what: tally.passed}))
    return count


def of_unittest(lines):
    """Reads `Ran 15 tests in 1.2s` and `FAILED (failures=1, errors=1, skipped=2)`; a test that is skipped has not passed."""
    ran = sum(int(count) for line in lines for count in re.findall(r'^Ran (\d+) test', line))
    failed = sum(int(count) for line in lines[-1:] for count in re.findall(r'[a-z]=(\d+)[,)]', line))
    return Count(max(ran - failed, 0), failed, Counter({'tests of the tools': max(ran - failed, 0)}))


def of_cargo(lines):
    """A test that is ignored, or filtered out, has failed."""
    results = [found for found in map(CARGO_RESULT.match, lines) if found]
    passed = sum(int(result[1]) for result in results)
    failed = sum(int(number) for result in results for number in result.groups()[1:])
    return Count(passed, failed, Counter({'host tests': passed, 'answers compared': summed(COMPARED, lines)}))


def of_c_tests(lines):
    count = last_line(lines)
    return Count(count.passed, count.failed, Counter({'C checks': summed(C_CHECKS, lines)}))


def of_soak(lines):
    """The last line counts the answers that were compared; the part is one test."""
    count = last_line(lines)
    alike = bool(count.passed) and not count.failed
    return Count(int(alike), min(count.failed, 1), Counter({'answers compared': count.passed}))


def of_fuzzing(lines):
    count = last_line(lines)
    return Count(count.passed, count.failed, Counter({'fuzz inputs': summed(FUZZED, lines)}))


def of_statements(lines):
    """The lines of docs/STATEMENTS.txt, by kind."""
    names = {'call': 'public calls', 'impl': 'impls of traits', 'theorem': 'theorems', 'definition': 'definitions'}
    kinds = Counter(line.split()[1] for line in lines if line and not line.startswith('#'))
    return Counter({names[kind]: number for kind, number in kinds.items() if kind in names})


# ---- what may not be lost

def least(root):
    """The least that has to be counted, by name."""
    numbers = {}
    for line in sources.read(root / LEAST).splitlines():
        name, _, number = line.split('#')[0].strip().rpartition(' ')
        if name:
            numbers[name] = int(number.replace(',', ''))
    return numbers


def lost(counted, floor, left_out=()):
    """What was counted less often than it has to be, but for what could not be had on this machine."""
    return [f'{name}: {counted[name]}, and at least {number} before'
            for name, number in floor.items() if counted[name] < number and name not in left_out]
