"""Attacks on a copy of this repository that an earlier gate let through: each is made, and each is seen to fail."""

import re
import unittest
import unittest.mock
from collections import Counter

from repository import Copy

import counting
import edits
import gate
import rules
import statements


class Attacks(Copy):
    def counted(self):
        """What can be counted without running anything: statements, and edits."""
        told = counting.of_statements(self.read(statements.PINNED).splitlines())
        return told + Counter({'edits refused': sum(map(len, edits.wanted(self.root, []).values()))})

    def lost(self):
        floor = {name: number for name, number in counting.least(self.root).items() if name in ('theorems', 'public calls', 'edits refused')}
        self.assertEqual(len(floor), 3)
        return counting.lost(self.counted(), floor)

    def pin_again(self):
        self.write(statements.PINNED, statements.written(self.root))

    def carried_out(self, name):
        """The failures of one of the gate's parts."""
        part = {part.name: part for part in gate.all_parts(self.root)}[name]
        part.needs = ()
        with unittest.mock.patch.object(gate, 'show'):
            gate.carry_out_all([part])
        return part.result.failed

    def test_nothing_fails_where_nothing_is_changed(self):
        for rule in (rules.contracts_are_equations, rules.contracts_as_promised, rules.promises_complete, rules.statements_pinned):
            self.assert_passes(rule)
        self.assertEqual(self.lost(), [])

    def test_a_theorem_deleted_together_with_its_row(self):
        theorem = re.compile(r'^pub done_malformed :.*?(?=^\S[^\n]* :|\Z)', re.S | re.M)
        path = 'crates/command/proofs/Words.antt'
        self.assertEqual(len(theorem.findall(self.read(path))), 1)
        self.write(path, theorem.sub('', self.read(path)))
        rows = [line for line in self.read(rules.PROMISES).splitlines(keepends=True) if '`done_malformed`' not in line]
        self.write(rules.PROMISES, ''.join(rows))
        self.assert_passes(rules.promises_complete)
        [problem] = rules.statements_pinned(self.root)
        self.assertIn('pinned and no longer so: command theorem proofs/Words.antt done_malformed', problem)
        self.pin_again()
        self.assertRegex(' '.join(self.lost()), r'^theorems: \d+, and at least \d+ before$')

    def test_a_theorem_weakened_until_it_says_nothing(self):
        path = 'crates/command/proofs/Words.antt'
        [statement] = re.findall(r'^pub done_malformed : .*$', self.read(path), re.M)
        self.replace(path, statement, 'pub done_malformed : (w : ℕ) → w ≡ w')
        gone, new = rules.statements_pinned(self.root)
        self.assertIn('command theorem proofs/Words.antt done_malformed', gone)
        self.assertIn('command theorem proofs/Words.antt done_malformed', new)

    def test_a_contract_that_says_nothing(self):
        path = 'crates/sitankulo/src/inspecting.rt'
        self.replace(path, '{ result ≡ inspect_answer words.now fifo.now phase }', '{ result ≡ result }')
        [problem] = rules.contracts_are_equations(self.root)
        self.assertRegex(problem, r'sitankulo_inspect`: `result` is said by what is left itself: `result`$')
        self.assertEqual(len(rules.statements_pinned(self.root)), 2)

    def test_a_definition_that_says_nothing(self):
        self.replace('crates/command/specs/Word.antt', 'done_of w = ', 'done_of w = false -- ')
        self.assertIn('command definition specs/Word.antt done_of', rules.statements_pinned(self.root)[0])

    def test_a_host_project_removed(self):
        for file in (self.root / 'host/differential').rglob('Cargo.toml'):
            file.unlink()
        self.assertEqual(self.carried_out('host/differential'), 1)

    def test_a_host_test_ignored(self):
        self.replace('host/oracle/tests/given_text.rs', '#[test]\nfn given_text_is_unchanged', '#[test]\n#[ignore]\nfn given_text_is_unchanged')
        part = {part.name: part for part in gate.all_parts(self.root)}['host/oracle']
        self.assertIn('cargo', part.command)
        self.assertEqual(self.carried_out('host/oracle'), 1)

    def test_edits_removed(self):
        next((self.root / 'crates/sitankulo/must-fail').glob('*.edit')).unlink()
        self.assertRegex(' '.join(self.lost()), r'^edits refused: \d+, and at least \d+ before$')

    def test_an_edit_hidden_from_rt(self):
        folder = self.root / 'crates/sitankulo/must-fail'
        (folder / 'more').mkdir()
        edit = next(folder.glob('*.edit'))
        edit.rename(folder / 'more' / edit.name)
        self.assertRegex(' '.join(self.lost()), r'^edits refused: \d+, and at least \d+ before$')


if __name__ == '__main__':
    unittest.main()
