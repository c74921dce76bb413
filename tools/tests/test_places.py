#!/usr/bin/env python3
"""What tools/places.py finds: lines of code in an older form, and the reasons to stay."""

import unittest

from repository import Repository

import places


class Places(Repository):
    def found(self, name):
        return [(line, text) for _, line, text in places.searched(self.root)[name]]

    def test_a_counted_loop_but_none_in_a_comment(self):
        self.write('crates/wire/src/lib.rt', '''\
// while i < n is what this was
fn put(n: usize) {
    let mut i = 0;
    while i < n {
        i += 1;
    }
    for x in [1, 2] {}
}
''')
        self.assertEqual(self.found('3 counted loops'), [(4, 'while i < n {')])

    def test_a_fact_that_three_functions_ask_for(self):
        asks = 'fn {}(n: usize)\n    requires {{ (n ≤ 32) × (1 ≤ n) }}\n{{\n}}\n\n'
        self.write('crates/list/src/lib.rt', asks.format('one') + asks.format('two'))
        self.assertEqual(self.found('5 facts of three contracts'), [])
        self.write('crates/list/src/more.rt', asks.format('three'))
        self.assertEqual([text for _, text in self.found('5 facts of three contracts')], ['n ≤ 32', '1 ≤ n'] * 3)

    def test_functions_of_one_name_and_reasons_to_stay(self):
        self.write('crates/drive/src/main.rt', '// Kept: programs share no code.\nfn digit(b: u8) {}\n\nfn main() {}\n')
        self.write('crates/replay/src/main.rt', 'fn digit(b: u8) {}\n\nfn main() {}\n')
        self.assertEqual(self.found('2 functions of one name'), [(2, 'fn digit'), (1, 'fn digit')])
        self.assertEqual([line for _, line, _ in places.kept(self.root)], [1])


if __name__ == '__main__':
    unittest.main()
