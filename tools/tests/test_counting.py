"""What the gate reads out of the lines that its parts print."""

import sys
import unittest
import unittest.mock
from collections import Counter

from repository import Repository

import counting
import gate


class Counting(unittest.TestCase):
    def assert_counts(self, count, passed, failed, **told):
        self.assertEqual((count.passed, count.failed), (passed, failed))
        self.assertEqual(count.told, Counter({name.replace('_', ' '): number for name, number in told.items()}))

    def test_only_a_last_line_that_is_a_tally_counts(self):
        self.assert_counts(counting.last_line(['1 passed, 0 failed', '12 passed, 3 failed']), 12, 3)
        self.assert_counts(counting.last_line(['12 passed, 3 failed', 'and then it fell over']), 0, 0)
        self.assert_counts(counting.last_line(['12 passed, 3 failed, or so']), 0, 0)
        self.assert_counts(counting.last_line([]), 0, 0)

    def test_proofs_edits_and_programs(self):
        lines = ['rt: chunks proved', 'rt: chunks: its tests are proved', 'rt: show proved', 'rt: over NOT PROVED',
                 'rt: old is kept: an earlier run on this machine proved the same files over the same libraries',
                 'rt: must-fail chunks/one.edit: refused, as it must be: ./proofs/cut/Answers.antt:1:2: error: `returns`: no proof of that',
                 'rt: must-fail chunks/two.edit: NOT REFUSED: the crate is still proved with this edit',
                 "rt: show ran, and wrote what its file stdout has", "rt: show ran (built by Rattle's own compiler), and wrote what its file stdout has",
                 'rt: FAILED: chunks/two.edit', '3 passed, 1 failed']
        told = {'crates proved': 3, 'edits refused by rt ci': 1, 'programs run': 1}
        self.assert_counts(counting.of_proofs(lines), 4, 1, **told)

    def test_edits_that_rt_calls_bad_have_failed(self):
        well = 'rt: ok; handles allowed: none; must-fail edits: 120 refused, 2 of them only by a limit; every proof and must-fail edit was done in this run'
        bad = well.replace('a limit;', 'a limit, 12 bad;')
        self.assert_counts(counting.of_proofs([well, '140 passed, 0 failed']), 140, 0, crates_proved=0, edits_refused_by_rt_ci=0, programs_run=0)
        self.assert_counts(counting.of_proofs([bad, '140 passed, 0 failed']), 140, 12, crates_proved=0, edits_refused_by_rt_ci=0, programs_run=0)

    def test_a_proof_that_assumes_what_it_may_not_has_failed(self):
        told = {'crates_proved': 0, 'edits_refused_by_rt_ci': 0, 'programs_run': 0}
        well = ['axioms libc: libc::write (1 of the 128 declared)', 'axioms os: os::c::rattle_errno (1 of the 22 declared)',
                'axioms std: none reached of the 2 declared', 'logic=proved functions=8 axioms=2 target=x86_64-unknown-linux-gnu', '1 passed, 0 failed']
        self.assert_counts(counting.of_proofs(well), 1, 0, **told)
        for line in ('axioms std: std::f (1 of the 2 declared)', 'axioms low: low::f (1 of the 1 declared)', 'logic=proved functions=1 foreign=low::f sum=1'):
            self.assert_counts(counting.of_proofs([line, *well]), 1, 1, **told)

    def test_a_tool_test_that_fails_or_is_skipped_has_not_passed(self):
        self.assert_counts(counting.of_unittest(['Ran 15 tests in 1.2s', '', 'OK']), 15, 0, tests_of_the_tools=15)
        self.assert_counts(counting.of_unittest(['Ran 15 tests in 1.2s', 'FAILED (failures=1, errors=2, skipped=3)']), 9, 6, tests_of_the_tools=9)
        self.assert_counts(counting.of_unittest(['Traceback']), 0, 0, tests_of_the_tools=0)

    def test_a_host_test_that_is_ignored_or_filtered_has_failed(self):
        result = 'test result: ok. 7 passed; {} failed; {} ignored; 0 measured; {} filtered out; finished in 0.01s'
        compared = ['compared 1000 answers of drive', 'compared 5 answers of replay']
        self.assert_counts(counting.of_cargo([result.format(0, 0, 0), *compared, result.format(0, 0, 0)]), 14, 0, host_tests=14, answers_compared=1005)
        self.assert_counts(counting.of_cargo([result.format(1, 2, 3)]), 7, 6, host_tests=7, answers_compared=0)

    def test_checks_from_c(self):
        lines = ['plain: 11872330 passed, 0 failed', 'sanitized: 11872330 passed, 0 failed', '2 passed, 0 failed']
        self.assert_counts(counting.of_c_tests(lines), 2, 0, C_checks=11872330)

    def test_a_soak_that_compares_nothing_or_finds_a_difference_has_not_passed(self):
        self.assert_counts(counting.of_soak(['300000 passed, 0 failed']), 1, 0, answers_compared=300000)
        self.assert_counts(counting.of_soak(['299998 passed, 2 failed']), 0, 1, answers_compared=299998)
        self.assert_counts(counting.of_soak(['0 passed, 0 failed']), 0, 0, answers_compared=0)

    def test_fuzz_inputs(self):
        lines = ['lists: 1200 inputs, cov 10 of 20 counters, ft 30, seed 1', 'clears: 34 inputs, cov 1 of 2 counters, ft 3, seed 1', '2 passed, 0 failed']
        self.assert_counts(counting.of_fuzzing(lines), 2, 0, fuzz_inputs=1234)

    def test_statements_by_kind(self):
        lines = ['# a comment', 'bus definition specs/Events.antt Event 0123', 'bus theorem proofs/Worked.antt one 0123', 'bus call src/lib.rt f 0123',
                 'bus theorem proofs/Worked.antt two 0123', 'bus type src/lib.rt T 0123']
        self.assertEqual(counting.of_statements(lines), Counter({'definitions': 1, 'theorems': 2, 'public calls': 1}))


class Lost(Repository):
    def test_what_falls_below_the_least_is_lost(self):
        self.write('docs/COUNTS.txt', '# the least\n\ntheorems 113\nC checks 11,872,330 # plainly\nfuzz inputs 10\n')
        floor = counting.least(self.root)
        self.assertEqual(floor, {'theorems': 113, 'C checks': 11872330, 'fuzz inputs': 10})
        enough = Counter({'theorems': 114, 'C checks': 11872330, 'fuzz inputs': 10})
        self.assertEqual(counting.lost(enough, floor), [])
        self.assertEqual(counting.lost(enough - Counter({'theorems': 2}), floor), ['theorems: 112, and at least 113 before'])
        self.assertEqual(counting.lost(Counter({'theorems': 113, 'C checks': 11872330}), floor), ['fuzz inputs: 0, and at least 10 before'])

    def test_what_a_machine_has_not_is_not_lost(self):
        self.assertEqual(counting.lost(Counter(), {'fuzz inputs': 10}, left_out=['fuzz inputs']), [])


class Parts(Repository):
    def setUp(self):
        super().setUp()
        silent = unittest.mock.patch.object(gate, 'show')
        silent.start()
        self.addCleanup(silent.stop)

    def part(self, name, program, **options):
        return gate.Part(name, [sys.executable, '-c', program], counting.last_line, self.root, **options)

    def carried_out(self, program, **options):
        part = self.part('a part', program, **options)
        gate.carry_out_all([part])
        return part.result.passed, part.result.failed

    def test_what_ends_well_and_counts_something_has_passed(self):
        self.assertEqual(self.carried_out('print("3 passed, 0 failed")'), (3, 0))

    def test_what_ends_badly_has_failed_whatever_it_says(self):
        self.assertEqual(self.carried_out('print("3 passed, 0 failed"); exit(1)'), (3, 1))

    def test_what_counts_nothing_has_failed_unless_it_is_optional(self):
        self.assertEqual(self.carried_out('print("0 passed, 0 failed")'), (0, 1))
        self.assertEqual(self.carried_out('print("0 passed, 0 failed")', optional='fuzz inputs'), (0, 0))

    def test_what_cannot_be_run_has_failed(self):
        part = gate.Part('a part', [str(self.root / 'not-there')], counting.last_line, self.root)
        gate.carry_out_all([part])
        self.assertEqual((part.result.passed, part.result.failed), (0, 1))

    def test_what_a_part_says_is_kept_for_those_that_read_it(self):
        part = self.part('a part', 'print("one"); print("1 passed, 0 failed")', kept=self.root / 'target/said.log')
        gate.carry_out_all([part])
        self.assertEqual(self.read('target/said.log'), 'one\n1 passed, 0 failed\n')

    def test_a_part_waits_for_those_that_it_needs(self):
        first = self.part('first', 'import time; time.sleep(0.3); open("made", "w"); print("1 passed, 0 failed")')
        second = self.part('second', 'open("made"); print("1 passed, 0 failed")', needs=('first',))
        gate.carry_out_all([second, first])
        self.assertEqual((second.result.passed, second.result.failed), (1, 0))


if __name__ == '__main__':
    unittest.main()
