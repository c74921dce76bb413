#!/usr/bin/env python3
"""Each rule is shown a repository that breaks it, which it reports, and one that keeps it, which it passes."""

import unittest

from repository import Repository

import rules
import sources
import statements


class EveryPubFnHasEnsures(Repository):
    rule = staticmethod(rules.every_pub_fn_has_ensures)

    def test_reports_each_form_of_pub_fn(self):
        self.write('crates/chunks/src/lib.rt', '''\
// pub fn commented() { }
pub fn plain(left: u64) -> u64 {
    left
}

#[unsafe(no_mangle)]
pub extern "C" fn exported(
    out: &mut [u8; 4],
) -> u32
    requires { 1 ≤ 2 } // ensures { nothing }
{
    let ensures_nothing = b'{';
    0
}

impl Cursor {
    pub fn method(self) -> Cursor {
        self
    }
}

mod inner {
    pub fn hidden() {}
}
''')
        self.write('crates/chunks/src/piece.rt', '/* ensures { */ pub fn first() {}\n')
        self.write('crates/show/src/main.rt', 'pub fn shown() {}\n\nfn main() {}\n')
        self.assert_reports(
            self.rule,
            'crates/chunks/src/lib.rt:2: `chunks::plain` has no ensures',
            'crates/chunks/src/lib.rt:7: `chunks::exported` has no ensures',
            'crates/chunks/src/lib.rt:17: `chunks::Cursor::method` has no ensures',
            'crates/chunks/src/lib.rt:23: `chunks::inner::hidden` has no ensures',
            'crates/chunks/src/piece.rt:1: `chunks::piece::first` has no ensures',
            'crates/show/src/main.rt:1: `show::shown` has no ensures')

    def test_passes_clauses_over_several_lines(self):
        self.write('crates/chunks/src/lib.rt', '''\
ghost use lib.Odd.{◌//◌, ◌≡◌};

fn private() {}

pub(crate) fn for_this_crate() {}

pub struct Cursor<'a> {
    pub at: &'a [u8],
}

impl<'a> Cursor<'a> {
    #[unsafe(no_mangle)]
    pub extern "C" fn next(
        self, // {
        out: [u8; 4],
    ) -> [u8; 4]
        ghost n: { ℕ }
        ensures bounded {
          result ≡ record { at = n // 2 } -- } a comment of antt
        }
    {
        if out.len() > 2 { out } else { out }
    }
}

pub fn last() -> u8
    // what comes after { a comment
    ensures* { ⌜ result ≡ 1 ⌝ }
{
    1
}
''')
        self.assert_passes(self.rule)
        self.assertEqual([name for _, name, _ in sources.public_calls(self.root)],
                         ['chunks::Cursor::next', 'chunks::last'])


    def test_a_traits_functions_and_what_implements_it(self):
        self.write('crates/chunks/src/lib.rt', '''\
pub trait Sized2 {
    ghost size_in: { Self → ℕ };

    fn size(&self, of: [u8; 8]) -> usize
        ensures { result ≡ size_in self.now };

    fn unsaid(&self) -> [[u8; 2]; 3];
}

trait Private {
    fn unsaid(&self);
}

impl Sized2 for Piece {
    ghost size_in = { piece_size };

    fn size(&self, of: [u8; 8]) -> usize {
        self.0
    }
}

impl<T: Sized2> Sized2 for Result<T, Piece> {
    fn size(&self, of: [u8; 8]) -> usize {
        0
    }
}

impl fmt::Display for Piece {
    fn fmt<W: fmt::Write>(&self, f: &mut fmt::Formatter<W>) -> fmt::Result {
        f.write_str("piece")
    }
}

pub fn last() {}
''')
        self.write('crates/show/src/main.rt', 'impl Sized2 for Shown {}\n\nfn main() {}\n')
        self.assert_reports(
            self.rule,
            'crates/chunks/src/lib.rt:7: `chunks::Sized2::unsaid` has no ensures',
            'crates/chunks/src/lib.rt:34: `chunks::last` has no ensures',
            'crates/chunks/src/lib.rt:22: `chunks::Result<T,Piece>::Sized2` has no ghost member',
            'crates/chunks/src/lib.rt:28: `chunks::Piece::Display` has no ghost member')
        self.assertEqual([(name, each.clauses) for _, name, each in sources.public_impls(self.root)][0],
                         ('chunks::Piece::Sized2', [('ensures', 'piece_size')]))


    def test_an_impl_with_arrays_in_its_head(self):
        self.write('crates/chunks/src/lib.rt', '''\
impl Wrap<[u8; 8]> {
    pub fn unsaid(&self) -> u8 {
        0
    }
}

impl From<[[[[[u8; 2]; 3]; 4]; 5]; 6]> for Piece {
    fn from(bytes: [[[[[u8; 2]; 3]; 4]; 5]; 6]) -> Piece {
        Piece(bytes)
    }
}
''')
        self.assert_reports(
            self.rule,
            'crates/chunks/src/lib.rt:2: `chunks::WrapU88::unsaid` has no ensures',
            'crates/chunks/src/lib.rt:7: `chunks::Piece::From<[[[[[u8;2];3];4];5];6]>` has no ghost member')


class NoRequiresAtTheBoundary(Repository):
    rule = staticmethod(rules.no_requires_at_the_boundary)

    def test_reports_a_pub_fn_with_requires(self):
        self.write('crates/chunks/src/lib.rt', '''\
pub fn cut(left: u64) -> u64
    requires small {
      left ≤ 8 }
    ensures { result ≡ left }
{
    left
}
''')
        self.assert_reports(self.rule, 'crates/chunks/src/lib.rt:1: `chunks::cut` has a requires')

    def test_passes_requires_on_private_functions_and_in_comments(self):
        self.write('crates/chunks/src/lib.rt', '''\
// requires { nothing }
pub fn cut(left: u64) -> u64
    ensures { result ≡ left }
{
    within(left)
}

fn within(left: u64) -> u64
    requires { left ≤ 8 }
{
    left
}
''')
        self.assert_passes(self.rule)


class ContractsAreEquations(Repository):
    rule = staticmethod(rules.contracts_are_equations)

    def contract(self, head, *clauses):
        self.write('crates/chunks/src/lib.rt', f"""\
ghost use Rattle.chunks.specs.Left.{{Left, Laid, Vague}};

pub fn cut{head}
{chr(10).join(f"    ensures n{number} {{ {clause} }}" for number, clause in enumerate(clauses))}
{{
    0
}}
""")
        self.write('crates/chunks/specs/Left.antt', """\
abbrev pub Left : ℕ → ℕ → List ℕ → List ℕ → Type 0
Left n r old new =
    (r ≡ n) × (new ≡ laid n old)

pub record Laid (r : Run) (report : ℕ) (old new : List ℕ) : Type 0 where
  pub reported : report ≡ report_of r
  pub memory :
      new
      ≡ laid r old

pub record Vague (report : ℕ) : Type 0 where
  pub some : report ≤ 8
""")

    def assert_weak(self, *weaknesses):
        self.assert_reports(self.rule, *(f'crates/chunks/src/lib.rt:3: `chunks::cut`: {each}' for each in weaknesses))

    def test_reports_what_is_said_by_itself(self):
        self.contract('(left: u64) -> u64', 'result ≡ result')
        self.assert_weak('`result` is said by what is left itself: `result`')
        self.contract('(out: &mut [u8]) -> u64', 'result ≡ 1', 'out.new ≡ out.new')
        self.assert_weak('`out.new` is said by what is left itself: `out.new`')

    def test_reports_what_is_not_said(self):
        self.contract('(left: u64, out: &mut [u8]) -> u64', 'left ≡ left')
        self.assert_weak('no equation for `result`', 'no equation for `out.new`',
                         'an equation for `left`, which is neither the result nor what lent memory holds in the end')
        self.contract("(left: u64) -> &'static [u8]", 'left ≡ left')
        self.assert_weak('no equation for `result.now`',
                         'an equation for `left`, which is neither the result nor what lent memory holds in the end')

    def test_reports_what_is_no_equation(self):
        self.contract('(left: u64) -> u64', '(result ≡ left) × (result ≤ 8)')
        self.assert_weak('`result ≤ 8` is no equation')
        self.contract('(left: u64) -> u64', 'Vague result')
        self.assert_weak('`result ≤ 8` is no equation', 'no equation for `result`')
        self.contract('(left: u64) -> u64', '(left ≡ 1 → result ≡ left)')
        self.assert_weak('`left ≡ 1 → result ≡ left` is no equation', 'no equation for `result`')

    def test_reports_a_memory_that_an_abbreviation_leaves_out(self):
        self.contract('(out: &mut [u8], more: &mut [u8]) -> u64', 'Left 1 result out.old (out.new)')
        self.assert_weak('no equation for `more.new`')
        self.contract('(out: &mut [u8]) -> u64', 'Left 1 result out.old out.old')
        self.assert_weak('no equation for `out.new`',
                         'an equation for `out.old`, which is neither the result nor what lent memory holds in the end')

    def test_passes_equations_in_each_form(self):
        self.contract('(left: u64) -> u64', 'result ≡ piece_of left')
        self.assert_passes(self.rule)
        self.contract("(left: u64) -> &'static [u8]", 'result.now ≡ bytes_of left')
        self.assert_passes(self.rule)
        self.contract('(out: &mut [u8])', 'out.new ≡ cond (leb 8 (length out.old)) [] out.old')
        self.assert_passes(self.rule)
        self.contract("(out: &'a mut [u8]) -> u64", 'Left (two 1) result out.old (out.new)')
        self.assert_passes(self.rule)
        self.contract('(out: &mut [u8]) -> u64', '(result ≡ 1) × (out.new ≡ cond (eqb result 1) [] out.old)')
        self.assert_passes(self.rule)
        self.contract('(out: &mut [u8]) -> u64', 'Laid (run_of 1) result out.old (out.new)')
        self.assert_passes(self.rule)


    def member(self, trait, text):
        self.write('crates/chunks/src/lib.rt', f'''\
pub trait Numbered {{
    ghost number_in: {{ Self → ℕ }};

    fn number(self) -> u8
        ensures {{ result ≡ number_in self }};
}}

impl {trait} for Piece {{
    ghost member = {{ {text} }};

    fn done(self) {{}}
}}
''')

    def assert_member_weak(self, trait, text, weakness):
        self.member(trait, text)
        self.assert_reports(self.rule, f'crates/chunks/src/lib.rt:8: `chunks::Piece::{trait.split("::")[-1]}`: {weakness}')

    def test_reports_an_impl_that_is_no_equation(self):
        self.assert_member_weak('fmt::Display', 'λ piece. Some (name_of piece)', '`λ piece. Some(name_of piece)` is no equation for `piece`')
        self.assert_member_weak('From<u8>', 'λ n piece. piece.at ≡ n', '`λ n piece. piece.at ≡ n` is no equation for `piece`')
        self.assert_member_weak('From<u8>', 'λ n piece. n ≡ n', '`λ n piece. n ≡ n` is no equation for `piece`')
        self.assert_member_weak('From<u8>', 'λ n piece. piece ≡ piece', '`piece` is said by what is left itself: `piece`')
        self.assert_member_weak('From<u8>', 'gives', '`gives` is no equation')

    def test_reports_a_method_of_an_impl_with_clauses_of_its_own(self):
        self.member('Numbered', 'number_of')
        file = self.root / 'crates/chunks/src/lib.rt'
        file.write_text(file.read_text().replace('    fn done(self) {}\n', '    fn number(self) -> u8\n        ensures { result ≤ 255 }\n    {\n        0\n    }\n'))
        self.assert_reports(self.rule, 'crates/chunks/src/lib.rt:8: `chunks::Piece::Numbered`: '
                                       'a method has `ensures` of its own, in place of what the trait says')
        file.write_text(file.read_text().replace('        ensures { result ≤ 255 }\n', '        // ensures {\n'))
        self.assert_passes(self.rule)

    def test_passes_an_impl_that_is_one(self):
        for trait, text in (('From<u8>', 'λ n piece. piece ≡ piece_of n'), ('Default', 'λ piece. piece ≡ record { at = replicate 8 0; }'),
                            ('Numbered', 'number_of'), ('Numbered', 'number_or T.number_in')):
            self.member(trait, text)
            self.assert_passes(self.rule)


class ContractsAsPromised(Repository):
    rule = staticmethod(rules.contracts_as_promised)

    def setUp(self):
        super().setUp()
        self.write('crates/chunks/src/lib.rt', """\
ghost use Rattle.chunks.specs.Pieces.{piece_of};

pub fn cut(left: u64) -> u64
    ensures { result ≡ piece_of left }
{
    left
}
""")
        self.write('crates/chunks/specs/Pieces.antt', 'unfoldable pub piece_of : ℕ → ℕ\npiece_of n = n\n\nabbrev pub count_of : ℕ\ncount_of = 1\n')

    def test_reports_a_contract_that_speaks_of_something_else(self):
        self.write('docs/PROMISES.md', '| `chunks::cut` | `count_of`, chunks/specs/Pieces.antt | how many |\n')
        self.assert_reports(self.rule, 'crates/chunks/src/lib.rt:3: `chunks::cut` does not speak of `count_of`, as docs/PROMISES.md has it')

    def test_reports_a_row_without_its_definition(self):
        self.write('docs/PROMISES.md', '| `chunks::cut` | what is next | how many |\n')
        self.assert_reports(self.rule, 'docs/PROMISES.md:1: `chunks::cut` names no definition with its file')
        self.write('docs/PROMISES.md', '| `chunks::cut` | `piece_of`, chunks/specs/Other.antt | how many |\n')
        self.assert_reports(self.rule, 'docs/PROMISES.md:1: `chunks::cut` names no definition with its file',
                            'docs/PROMISES.md:1: `piece_of` is not to be found in chunks/specs/Other.antt')

    def test_passes_a_row_that_names_it(self):
        self.write('docs/PROMISES.md', '| `chunks::cut` | `piece_of`, chunks/specs/Pieces.antt | how many |\n')
        self.assert_passes(self.rule)


class StatementsPinned(Repository):
    rule = staticmethod(rules.statements_pinned)

    def setUp(self):
        super().setUp()
        self.write('crates/chunks/specs/Pieces.antt', 'abbrev pub piece_of : ℕ → ℕ\npiece_of n = n\n')
        self.write('docs/STATEMENTS.txt', statements.written(self.root))

    def test_reports_a_definition_that_changed(self):
        self.write('crates/chunks/specs/Pieces.antt', 'abbrev pub piece_of : ℕ → ℕ\npiece_of n = 0\n')
        gone, new = self.rule(self.root)
        self.assertRegex(gone, r'^docs/STATEMENTS.txt:1: pinned and no longer so: chunks definition specs/Pieces.antt piece_of \w{12}$')
        self.assertRegex(new, r'^docs/STATEMENTS.txt:1: so and not pinned: chunks definition specs/Pieces.antt piece_of \w{12}$')

    def test_reports_a_line_too_many(self):
        self.write('docs/STATEMENTS.txt', statements.written(self.root) + '\n')
        self.assert_reports(self.rule, 'docs/STATEMENTS.txt:1: pinned and no longer so: ')

    def test_passes_other_comments_and_spacing(self):
        self.write('crates/chunks/specs/Pieces.antt', '-- a comment\nabbrev pub piece_of : ℕ\n    → ℕ\npiece_of n =\n    n -- the same\n')
        self.assert_passes(self.rule)


class PromisesComplete(Repository):
    rule = staticmethod(rules.promises_complete)

    def setUp(self):
        super().setUp()
        self.write('crates/chunks/src/lib.rt', 'pub fn cut() {}\n\nimpl Piece {\n    pub fn next(self) {}\n}\n')
        self.write('crates/chunks/proofs/Lib.antt', 'pub mod Pieces\npub mod Laws\n')
        self.write('crates/chunks/proofs/LawsOfCuts.antt', 'pub cited : ℕ\ncited = 1\n')
        self.write('crates/chunks/proofs/cut/Proof.antt', 'pub proof : ℕ\nproof = 1\n')
        self.write('crates/chunks/proofs/Pieces.antt', '''\
-- pub commented : ℕ
{-
pub in_a_block : ℕ
-}
use lib.ListN.{length}
pub use lib.Seq.{paste}

helper : ℕ
helper = 1

abbrev pub Shown : Type 0
Shown = ℕ

pub record Cut : Type 0 where
  pub at : ℕ

unfoldable mutual
  pub even : ℕ → Bool
  even n = true

pub pieces_sum : (n : ℕ) → n ≡ n
pieces_sum n = refl

module _ (c : ℕ) where
  pub pieces_last {ℓ} :
      (n : ℕ) → n ≡ n
  pieces_last n = refl
''')

    def test_reports_what_the_page_lacks(self):
        self.write('docs/PROMISES.md', 'It also speaks of `chunks::cut`, but in no table.\n')
        self.assert_reports(
            self.rule,
            'crates/chunks/src/lib.rt:1: `chunks::cut` is not in docs/PROMISES.md',
            'crates/chunks/src/lib.rt:4: `chunks::Piece::next` is not in docs/PROMISES.md',
            'crates/chunks/proofs/Pieces.antt:21: `chunks/proofs/Pieces.antt` `pieces_sum` is not in docs/PROMISES.md',
            'crates/chunks/proofs/Pieces.antt:25: `chunks/proofs/Pieces.antt` `pieces_last` is not in docs/PROMISES.md')

    def test_passes_a_whole_page_and_reports_what_it_invents(self):
        page = '''\
| call | what |
|---|---|
| `chunks::cut` | cuts |
| `chunks::Piece::next` | goes on |

| theorem | what |
|---|---|
| `chunks/proofs/Pieces.antt` `pieces_sum` | all bytes |
|  `chunks/proofs/Pieces.antt`  `pieces_last`  | the last one |

| other | `chunks::not_a_first_cell` |
| `chunks` | a crate |
'''
        self.write('docs/PROMISES.md', page)
        self.assert_passes(self.rule)
        self.write('docs/PROMISES.md', page + '''
| `chunks::gone` | |
| `chunks/proofs/Pieces.antt` `helper` | |
| `chunks/proofs/LawsOfCuts.antt` `cited` | |
''')
        self.assert_reports(
            self.rule,
            'docs/PROMISES.md:14: `chunks::gone` is no public call or theorem',
            'docs/PROMISES.md:15: `chunks/proofs/Pieces.antt` `helper` is no public call or theorem',
            'docs/PROMISES.md:16: `chunks/proofs/LawsOfCuts.antt` `cited` is no public call or theorem')


class SpecsHoldDefinitionsOnly(Repository):
    rule = staticmethod(rules.specs_hold_definitions_only)

    def test_reports_a_theorem_among_definitions(self):
        self.write('crates/chunks/specs/Piece.antt', '''\
pub record Piece : Type 0 where
  pub at : ℕ
pub after_a_record : ℕ
after_a_record = 1

module _ (c : ℕ) where
  pub hidden :
      ℕ
  hidden = 1
''')
        self.write('crates/chunks/specs/below/More.antt', 'pub deeper : ℕ\ndeeper = 1\n')
        belongs = 'is neither abbrev nor unfoldable: a theorem belongs in proofs/'
        self.assert_reports(
            self.rule,
            f'crates/chunks/specs/Piece.antt:3: `after_a_record` {belongs}',
            f'crates/chunks/specs/Piece.antt:7: `hidden` {belongs}',
            f'crates/chunks/specs/below/More.antt:1: `deeper` {belongs}')

    def test_passes_definitions_and_private_facts(self):
        self.write('crates/chunks/specs/Lib.antt', 'pub mod Piece\n')
        self.write('crates/chunks/specs/Piece.antt', '''\
-- pub commented : ℕ
pub data Kind : Type 0 where
  out : ℕ → Kind

pub record Piece (c : ℕ)
    : Type 0 where
  pub at : ℕ

  pub length : ℕ

abbrev pub Small : ℕ → Type 0
Small n = n ≤ 8

unfoldable pub piece_of : ℕ → ℕ
piece_of n = n

unfoldable mutual
  pub even : ℕ → Bool
  even n = true

private_fact : ℕ
private_fact = 1
''')
        self.assert_passes(self.rule)


class NoAxioms(Repository):
    rule = staticmethod(rules.no_axioms)

    def test_reports_an_axiom_of_antt(self):
        self.write('crates/chunks/proofs/Bad.antt', '-- axiom no : ℕ\n\naxiom pub bad : (a b : ℕ) → a ≡ b\n')
        self.write('crates/chunks/specs/Deep.antt', 'module _ (c : ℕ) where\n  axiom deep : ℕ\n')
        self.assert_reports(
            self.rule,
            'crates/chunks/proofs/Bad.antt:3: an axiom: axiom pub bad : (a b : ℕ) → a ≡ b',
            'crates/chunks/specs/Deep.antt:2: an axiom: axiom deep : ℕ')

    def test_reports_declared_c_functions(self):
        self.write('crates/chunks/src/lib.rt', '// extern "C" {\n\nextern "C" {\n    fn magic() -> u32;\n}\n')
        self.write('crates/show/src/main.rt', 'fn main() {}\n\nunsafe extern "C" {\n    fn magic() -> u32;\n}\n')
        own = 'C functions of its own, whose contracts nothing proves'
        self.assert_reports(self.rule, f'crates/chunks/src/lib.rt:3: {own}', f'crates/show/src/main.rt:3: {own}')

    def test_reports_a_library_over_the_kits_c_functions(self):
        self.write('crates.txt', 'chunks:\nover staticlib: chunks io libc\n')
        self.write('crates/chunks/src/lib.rt', '')
        self.write('crates/over/src/lib.rt', '')
        self.assert_reports(self.rule, 'crates.txt:2: over: a library that leans on io, libc, whose contracts are assumed')

    def test_passes_libraries_and_a_program_over_the_kit(self):
        self.write('crates.txt', '# cuts\nchunks:\n# shows\nshow: chunks io # and more\n')
        self.write('crates/chunks/src/lib.rt', 'pub extern "C" fn cut() {}\n')
        self.write('crates/chunks/proofs/Fine.antt', 'axiomatic : ℕ\naxiomatic = 1\n')
        self.write('crates/show/src/main.rt', '')
        self.assert_passes(self.rule)


class EditsNameTheirFacts(Repository):
    rule = staticmethod(rules.edits_name_their_facts)

    def test_reports_an_edit_without_a_fact_and_one_that_does_not_apply(self):
        self.write('crates/chunks/src/lib.rt', '1')
        self.write('crates/chunks/must-fail/one.edit', 'file: src/lib.rt\nold: 1\nnew: 2\n')
        self.write('crates/chunks/must-fail/two.edit', 'file: src/lib.rt\nold: 1\nnew: 2\nfact: chunks::cut\n')
        self.write('crates/chunks/must-fail/three.edit', 'file: src/lib.rt\nold: 3\nnew: 2\nfact: chunks::cut returns\n')
        no_fact = "it names no fact: a line 'fact: FUNCTION GOAL' or 'fact: FILE DECLARATION'"
        self.assert_reports(self.rule, f'crates/chunks/must-fail/one.edit:1: {no_fact}',
                            'crates/chunks/must-fail/three.edit:1: its old text stands 0 times in src/lib.rt',
                            f'crates/chunks/must-fail/two.edit:1: {no_fact}')

    def test_passes_an_edit_with_a_fact(self):
        self.write('crates/chunks/src/lib.rt', '1')
        self.write('crates/chunks/must-fail/one.edit', 'file: src/lib.rt\nold: 1\nnew: 2\nfact: chunks::cut returns\n')
        self.assert_passes(self.rule)


class ExportedCallsAreAttacked(Repository):
    rule = staticmethod(rules.exported_calls_are_attacked)

    def setUp(self):
        super().setUp()
        self.write('crates/calls/src/lib.rt', '#[unsafe(no_mangle)]\npub extern "C" fn begin() -> u32 {\n    0\n}\n\npub fn inside() {}\n')

    def test_reports_a_call_without_an_edit_of_its_own(self):
        self.write('crates/calls/must-fail/one.edit', 'fact: calls::inside returns\n')
        self.assert_reports(self.rule, 'crates/calls/src/lib.rt:2: no edit breaks a fact of `calls::begin`')

    def test_reports_the_call_that_it_makes_without_one(self):
        self.write('crates/calls/must-fail/one.edit', 'fact: calls::begin returns\n')
        self.write('crates/below/src/lib.rt', 'pub fn begin() -> u32 {\n    0\n}\n')
        self.assert_reports(self.rule, 'crates/below/src/lib.rt:1: no edit breaks a fact of `below::begin`')

    def test_passes_a_call_with_one(self):
        self.write('crates/calls/must-fail/one.edit', 'fact: calls::begin returns\n')
        self.assert_passes(self.rule)


class LaidOut(Repository):
    rule = staticmethod(rules.laid_out)

    def test_reports_a_file_out_of_the_layout(self):
        self.write('crates.txt', '# cuts\nchunks:\n')
        self.write('crates/chunks/src/lib.rt', 'pub fn one( ) -> u8 { 1 }\n')
        self.assert_reports(self.rule, 'crates/chunks/src/lib.rt:1: is not in the layout')

    def test_passes_a_file_in_the_layout(self):
        self.write('crates.txt', '# cuts\nchunks:\n')
        self.write('crates/chunks/src/lib.rt', 'pub fn one() -> u8 {\n    1\n}\n')
        self.assert_passes(self.rule)


class CratesListed(Repository):
    rule = staticmethod(rules.crates_listed)

    def test_reports_what_is_not_listed_or_not_explained(self):
        self.write('crates.txt', '# cuts\nchunks:\nbus: chunks\n#\nempty:\n')
        for name in ('bus', 'chunks', 'empty', 'lost'):
            self.write(f'crates/{name}/src/lib.rt', '')
        self.assert_reports(
            self.rule,
            'crates.txt:3: `bus` has no comment above it',
            'crates.txt:5: `empty` has no comment above it',
            'crates/lost:1: not listed in crates.txt')

    def test_passes_a_list_with_comments(self):
        self.write('crates.txt', '# cuts\nchunks:\n\n# events\nbus staticlib: chunks # over it\n')
        self.write('crates/bus/src/lib.rt', '')
        self.write('crates/chunks/src/lib.rt', '')
        self.assert_passes(self.rule)


if __name__ == '__main__':
    unittest.main()
