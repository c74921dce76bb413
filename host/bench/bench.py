#!/usr/bin/env python3
"""Counts instructions with callgrind: the library through its C calls, and the Rust original, on the same inputs.

    bench.py PROGRAM BY_HAND      host/bench/counted, built as a release, with the library and with by_hand.c in its place

Each thing is done once, in a run of its own, and only what it does is collected. The controller that completes lists is left out on both
sides. The Rust original's mock FIFO and pins do more than the one store or load of a part: what they do beyond it is counted by itself and
taken off, and the table shows both figures.
"""

import re
import subprocess
import sys

COLLECTED = re.compile(r'Collected : (\d+)')


def run(program, thing, amount):
    """The instructions collected, and how often collecting was paused."""
    command = ['valgrind', '--tool=callgrind', '--callgrind-out-file=/dev/null', '--collect-atstart=no', program, thing, str(amount)]
    ran = subprocess.run(command, capture_output=True, text=True)
    found = COLLECTED.search(ran.stderr)
    if ran.returncode != 0 or not found:
        sys.exit(f'bench: {thing} {amount} failed:\n{ran.stderr}')
    return int(found[1]), int(ran.stdout)


class Counts:
    """Counts of one program, each taken once."""

    def __init__(self, program):
        self.program, self.known = program, {}
        self.toggling, _ = run(program, 'nothing', 1)

    def __call__(self, thing, amount=1):
        if (thing, amount) not in self.known:
            collected, pauses = run(self.program, thing, amount)
            self.known[thing, amount] = collected - self.toggling * (1 + pauses)
        return self.known[thing, amount]


# ---- the table

def mock_excess(counts, thing, amount):
    """What the original's mocks do beyond one store or load of a register, in the same loop."""
    return counts(f'mock_{thing}', amount) - counts(f'plain_{thing}', amount)


HEADINGS = ['what', 'ours', 'of it checking again', 'the Rust', 'ratio', 'without checking again',
            'the Rust without its mocks', 'ratio', 'without checking again', 'by hand in C']


def print_line(cells):
    print('| ' + ' | '.join(f'{cell:,}' if isinstance(cell, int) else cell for cell in cells) + ' |')


def compared(ours, checks, other):
    """The other's count, our ratio to it, and the ratio of what is left of ours without checking again."""
    return [other, f'{ours / other:.2f}', f'{(ours - checks) / other:.2f}' if checks else '']


def print_row(name, ours, checks, original, mocks, hand):
    """`mocks` is what the original's mocks do beyond one store or load for each byte or level."""
    print_line([name, ours, checks or '', *compared(ours, checks, original), *compared(ours, checks, original - mocks), hand])


def print_transaction(name, counts, by_hand, thing, amount, mocks):
    print_row(name, counts(f'ours_{thing}', amount), counts(f'ours_{thing}_checks', amount), counts(f'original_{thing}', amount), mocks,
              by_hand(f'ours_{thing}', amount))


def print_table(counts, by_hand):
    print_line(HEADINGS)
    print('|---|' + '--:|' * (len(HEADINGS) - 1))
    print_transaction('all lists of a write of 4,093 bytes', counts, by_hand, 'write', 4093, mock_excess(counts, 'fifo_writes', 4093))
    print_transaction('all lists of a read of 4,096 bytes', counts, by_hand, 'read', 4096, mock_excess(counts, 'fifo_reads', 4096))
    # a register's number and the address twice go out, two bytes come in
    mocks = mock_excess(counts, 'fifo_writes', 3000) + mock_excess(counts, 'fifo_reads', 2000)
    print_transaction('a thousand register reads', counts, by_hand, 'register_reads', 1000, mocks)
    print_row('one snapshot classified', counts('ours_classify'), 0, counts('original_classify'), 0, by_hand('ours_classify'))
    # twenty polls with SDA low change a pin 21 times
    mocks = mock_excess(counts, 'pin_changes', 23) - mock_excess(counts, 'pin_changes', 2)
    print_row('twenty clear polls', clear_polls(counts, 'ours'), 0, clear_polls(counts, 'original'), mocks, clear_polls(by_hand, 'ours'))
    print_line(['one list inspected', counts('ours_inspect'), *[''] * (len(HEADINGS) - 2)])


def clear_polls(counts, whose):
    return counts(f'{whose}_clear', 20) - counts(f'{whose}_clear', 0)


def print_growth(counts, name, things, amounts):
    print()
    print_line([name, *amounts])
    print('|---|' + '--:|' * len(amounts))
    for title, thing in things:
        figures = [counts(thing, amount) for amount in amounts]
        print_line([title, *figures])
        print_line([f'{title}, times the one before', '', *(f'{late / early:.2f}' for early, late in zip(figures, figures[1:]))])


def print_all_growth(counts):
    for name, thing, first in [('bytes written', 'write', 511), ('bytes read', 'read', 512), ('records', 'records', 146)]:
        things = [('ours', f'ours_{thing}'), ('of it checking again', f'ours_{thing}_checks'),
                  ('the Rust, with its mocks', f'original_{thing}')]
        print_growth(counts, name, things, [first * times for times in (1, 2, 4, 8)])


def main():
    if len(sys.argv) != 3:
        sys.exit(__doc__)
    counts = Counts(sys.argv[1])
    print_table(counts, Counts(sys.argv[2]))
    print_all_growth(counts)


if __name__ == '__main__':
    main()
