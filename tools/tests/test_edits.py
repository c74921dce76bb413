"""The edits that must be refused: which are taken, and what is made of what `rt` says of them."""

import unittest

from repository import Repository

import edits

CODE = '''\
// how much is cut
pub fn cut() -> u8
    ensures { result ≡ 31 }
{
    31
}

mod inner {
    impl Cursor {
        #[tactic(auto, unfolding(
            crate::specs::Cuts::cut))]
        fn next(self) -> u8 {
            7
        }
    }
}
'''


class Edits(Repository):
    def setUp(self):
        super().setUp()
        self.write('crates.txt', 'chunks:\n')
        self.write('crates/chunks/src/lib.rt', CODE)
        self.write('crates/chunks/src/far/away.rt', CODE)
        self.folder = self.root / 'crates/chunks'

    def edit(self, text):
        self.write('crates/chunks/must-fail/one.edit', text)
        return edits.edits_of(self.root, 'chunks')[0]

    def assert_bad(self, words, text):
        with self.assertRaisesRegex(edits.BadEdit, words):
            edits.edited(self.edit(text), self.folder)

    def test_an_edit_is_applied(self):
        edit = self.edit('a comment\nfile: src/lib.rt\nold:     31\nnew:     32\nold:     32\nnew:     33\nfact: chunks::cut returns\n')
        self.assertEqual((edit.name, edit.fact), ('chunks/one', 'chunks::cut returns'))
        self.assertEqual(edits.edited(edit, self.folder), {'src/lib.rt': CODE.replace('    31', '    33')})

    def test_an_edit_that_does_not_apply_is_bad(self):
        fact = 'fact: chunks::cut returns\n'
        self.assert_bad('it changes nothing', fact)
        self.assert_bad('it names no fact', 'file: src/lib.rt\nold: ≡ 31\nnew: ≡ 32\n')
        self.assert_bad('stands 0 times in src/lib.rt', 'file: src/lib.rt\nold: 33\nnew: 32\n' + fact)
        self.assert_bad('stands 2 times in src/lib.rt', 'file: src/lib.rt\nold: 31\nnew: 32\n' + fact)
        self.assert_bad("is no file of the crate's", 'file: src/other.rt\nold: 31\nnew: 32\n' + fact)
        self.assert_bad("is no file of the crate's", 'file: proofs/cut/Answers.antt\nold: 31\nnew: 32\n' + fact)

    # ---- what rt says

    def fact(self, line):
        return edits.fact_of('chunks', line, self.folder)

    def test_a_goal_with_an_answer(self):
        said = 'error: `returns-2`: `search`: no proof of that'
        for file in ('Answers', 'Invariants', 'Proof'):
            self.assertEqual(self.fact(f'./proofs/cut/{file}.antt:29:15: {said}'), ('chunks::cut returns-2', False))
        self.assertEqual(self.fact(f'./proofs/far/away/cut/Answers.antt:29:15: {said}'), ('chunks::far::away::cut returns-2', False))

    def test_a_goal_without_an_answer(self):
        said = 'it is not proved that what the function ensures holds when it returns (`returns-then-a`); the facts known there'
        self.assertEqual(self.fact(f'note: src/lib.rt:5:5: {said}'), ('chunks::cut returns-then-a', False))
        for line in (10, 14):
            self.assertEqual(self.fact(f'note: src/lib.rt:{line}:9: {said}'), ('chunks::inner::Cursor::next returns-then-a', False))
        self.assertEqual(self.fact(f'note: src/lib.rt:30:9: {said}'), ('chunks returns-then-a', False))
        self.assertEqual(self.fact(f'note: src/far/away.rt:6:1: {said}'), ('chunks::far::away::cut returns-then-a', False))

    def test_a_goal_in_other_words(self):
        self.assertEqual(self.fact('note: src/lib.rt:5:5: `search` found no proof (`slice_bounds-a-end`); `search` gave up at one of its limits'),
                         ('chunks::cut slice_bounds-a-end', False))
        self.assertEqual(self.fact('note: src/lib.rt:5:5: index 8 is out of bounds of an array of 8 (`bounds-a-8`)'), ('', False))

    def test_a_goal_whose_name_is_cut_short(self):
        line = f'note: src/lib.rt:5:5: it is not proved that {"much " * 19}holds (`returns-then-a-long-name'[:160]
        fact, is_cut = self.fact(line)
        self.assertTrue(is_cut and 'chunks::cut returns-then-a-long-name'.startswith(fact))
        what = f'refused, as it must be: {line}'
        self.assertTrue(edits.judged(edits.Edit('chunks', 'one', [], 'chunks::cut returns-then-a-long-name'), what, self.folder)[0])
        self.assertFalse(edits.judged(edits.Edit('chunks', 'one', [], 'chunks::cut returns-else'), what, self.folder)[0])

    def test_a_declaration(self):
        self.assertEqual(self.fact('./proofs/Laws.antt:3:1: error: `cut_law`: no proof of that'), ('proofs/Laws.antt cut_law', False))
        self.assertEqual(self.fact('note: this is advice'), ('', False))

    def judged(self, what, fact='chunks::cut returns'):
        return edits.judged(edits.Edit('chunks', 'one', [], fact), what, self.folder)

    def test_an_edit_is_refused_at_its_fact(self):
        said = './proofs/cut/Answers.antt:9:1: error: `returns`: no proof of that'
        self.assertEqual(self.judged(f'refused, as it must be: {said}'), (True, 'refused at chunks::cut returns'))

    def test_an_edit_that_is_refused_only_by_a_limit_has_failed(self):
        limit = '(only by a limit of the prover, which gave no verdict, so this says less of the contract: choose a change that it refuses sooner)'
        said = './proofs/cut/Answers.antt:9:1: error: `returns`: no proof of that'
        self.assertFalse(self.judged(f'refused, as it must be {limit}: {said}')[0])

    def test_an_edit_that_is_refused_elsewhere_has_failed(self):
        said = 'refused, as it must be: ./proofs/cut/Answers.antt:9:1: error: `returns-2`: no proof of that'
        self.assertEqual(self.judged(said), (False, 'REFUSED ELSEWHERE: at chunks::cut returns-2, and its fact is chunks::cut returns'))
        self.assertEqual(self.judged('refused, as it must be'), (False, 'refused, as it must be'))

    def test_an_edit_that_is_refused_for_a_missing_name_has_failed(self):
        why = '(only because a proof file names what the edit took away, so this says little of the contract: change a value and keep the names)'
        self.assertFalse(self.judged(f'refused, as it must be {why}: ./proofs/cut/Answers.antt:9:1: error: `returns`: `a` is not in scope')[0])

    def test_an_edit_that_is_not_refused_has_failed(self):
        for said in ('NOT REFUSED: the crate is still proved with this edit', 'BAD EDIT: it did not reach the prover', 'NOT TRIED: its check was killed'):
            self.assertEqual(self.judged(said), (False, said))

    def test_all_are_judged_by_their_lines(self):
        self.write('crates/chunks/must-fail/one.edit', 'file: src/lib.rt\nold:     31\nnew:     32\nfact: chunks::cut returns\n')
        self.write('crates/chunks/must-fail/two.edit', 'file: src/lib.rt\nold:     7\nnew:     8\nfact: chunks::cut returns\n')
        lines = ['rt: must-fail chunks/one.edit: refused, as it must be: ./proofs/cut/Answers.antt:9:1: error: `returns`: no proof of that']
        self.assertEqual(list(edits.judge_all(self.root, edits.wanted(self.root, []), lines)),
                         [(True, 'chunks/one: refused at chunks::cut returns'), (False, 'chunks/two: NOT TRIED')])


if __name__ == '__main__':
    unittest.main()
