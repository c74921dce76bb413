"""Which statements are pinned, and what changes their hash."""

import unittest

from repository import Repository

import statements

CODE = '''\
ghost use Rattle.chunks.specs.Pieces.{piece_of};

pub struct Piece {
    pub at: usize,
}

// how many bytes go next
pub fn cut(left: u64) -> u64
    ensures { result ≡ piece_of left }
{
    left
}

fn private() {}
'''
DEFINITIONS = '''\
use Rattle.std.specs.Prelude.{ℕ, ◌+◌}

pub data Kind : Type 0 where
  small : Kind
  large : ℕ → Kind

unfoldable pub piece_of : ℕ → ℕ
piece_of n = helper n

helper : ℕ → ℕ
helper n = n + 0
'''
THEOREMS = '''\
use Rattle.chunks.specs.Pieces.{piece_of}
use Rattle.chunks.proofs.Laws.{law}

abbrev Whole : ℕ → Type 0
Whole n = piece_of n ≡ n

abbrev unused : ℕ
unused = 1

private_fact : ℕ
private_fact = 1

module _ (n : ℕ) (small : n ≤ 8)
  where
    pub piece_whole : Whole n
    unfolding piece_of
    piece_whole = refl
'''
PINNED = {('call', 'src/lib.rt', 'cut'), ('type', 'src/lib.rt', 'Piece'), ('definition', 'specs/Pieces.antt', 'Kind'),
          ('definition', 'specs/Pieces.antt', 'piece_of'), ('definition', 'specs/Pieces.antt', 'helper'),
          ('definition', 'proofs/Whole.antt', 'Whole'), ('theorem', 'proofs/Whole.antt', 'piece_whole')}


class Statements(Repository):
    def setUp(self):
        super().setUp()
        self.files = {'src/lib.rt': CODE, 'specs/Pieces.antt': DEFINITIONS, 'proofs/Whole.antt': THEOREMS,
                      'proofs/Laws.antt': 'pub law : ℕ\nlaw = 1\n'}
        for path, text in self.files.items():
            self.write(f'crates/chunks/{path}', text)

    def hashes(self):
        return {(each.kind, each.file, each.name): each.hash for each in statements.statements(self.root)}

    def changed(self, path, old, new):
        """The names of the statements that an edit changes."""
        before = self.hashes()
        self.assertEqual(self.files[path].count(old), 1)
        self.write(f'crates/chunks/{path}', self.files[path].replace(old, new))
        after = self.hashes()
        self.write(f'crates/chunks/{path}', self.files[path])
        return {name for kind, file, name in set(before) | set(after) if before.get((kind, file, name)) != after.get((kind, file, name))}

    def test_what_is_pinned(self):
        self.assertEqual(set(self.hashes()), PINNED)

    def test_a_change_shows_in_its_own_line(self):
        self.assertEqual(self.changed('src/lib.rt', 'result ≡ piece_of left', 'result ≡ result'), {'cut'})
        self.assertEqual(self.changed('src/lib.rt', 'at: usize', 'at: u32'), {'Piece'})
        self.assertEqual(self.changed('specs/Pieces.antt', 'n + 0', 'n + 1'), {'helper'})
        self.assertEqual(self.changed('specs/Pieces.antt', 'large : ℕ → Kind', 'large : Kind'), {'Kind'})
        self.assertEqual(self.changed('proofs/Whole.antt', 'piece_of n ≡ n', 'n ≡ n'), {'Whole'})
        self.assertEqual(self.changed('proofs/Whole.antt', 'pub piece_whole : Whole n', 'pub piece_whole : ℕ'), {'piece_whole', 'Whole'})

    def test_what_is_quoted_is_pinned(self):
        self.files['specs/Names.antt'] = 'abbrev pub name_of : ℕ → List ℕ\nname_of n = codes "a {b  -- c" -- a comment\n'
        self.write('crates/chunks/specs/Names.antt', self.files['specs/Names.antt'])
        for old, new in (('"a ', '"b '), ('-- c"', '-- d"'), ('b  --', 'b --'), ('a {b', 'a { b'), ('"a {b  -- c"', '""')):
            self.assertEqual(self.changed('specs/Names.antt', old, new), {'name_of'})
        self.assertEqual(self.changed('specs/Names.antt', '-- a comment', '-- another'), set())

    def test_a_premise_of_a_section_is_part_of_the_statement(self):
        self.assertEqual(self.changed('proofs/Whole.antt', 'n ≤ 8', 'n ≤ 7'), {'piece_whole'})

    def test_a_name_that_comes_from_elsewhere_changes_the_statement(self):
        self.assertEqual(self.changed('src/lib.rt', 'specs.Pieces.{', 'specs.Others.{'), {'cut'})

    def test_code_proofs_comments_and_spacing_change_nothing(self):
        self.assertEqual(self.changed('src/lib.rt', '    left\n', '    left + 0\n'), set())
        self.assertEqual(self.changed('src/lib.rt', '// how many', '// so many'), set())
        self.assertEqual(self.changed('src/lib.rt', 'ensures { result', 'ensures {\n    result  '), set())
        self.assertEqual(self.changed('proofs/Whole.antt', 'piece_whole = refl', 'piece_whole = sym refl'), set())
        self.assertEqual(self.changed('proofs/Whole.antt', 'unfolding piece_of', 'unfolding piece_of helper'), set())

    def test_what_vanishes_shows(self):
        self.assertEqual(self.changed('src/lib.rt', 'pub fn cut', 'fn cut'), {'cut'})
        self.assertEqual(self.changed('proofs/Whole.antt', '    pub piece_whole', '    piece_whole'), {'piece_whole', 'Whole'})


if __name__ == '__main__':
    unittest.main()
