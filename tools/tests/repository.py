"""A repository to try the tools on: an empty one to write files into, or a copy of this one to make an attack on."""

import shutil
import sys
import tempfile
import unittest
from pathlib import Path

TOP = Path(__file__).resolve().parents[2]
sys.path.insert(0, str(TOP / 'tools'))


class Repository(unittest.TestCase):
    def setUp(self):
        folder = tempfile.TemporaryDirectory()
        self.addCleanup(folder.cleanup)
        self.root = Path(folder.name).resolve()

    def write(self, path, text):
        file = self.root / path
        file.parent.mkdir(parents=True, exist_ok=True)
        file.write_text(text, encoding='utf-8')

    def read(self, path):
        return (self.root / path).read_text(encoding='utf-8')

    def assert_reports(self, rule, *problems):
        self.assertEqual(rule(self.root), list(problems))

    def assert_passes(self, rule):
        self.assert_reports(rule)


class Copy(Repository):
    """A copy of this repository, without what is built."""

    def setUp(self):
        super().setUp()
        shutil.rmtree(self.root)
        shutil.copytree(TOP, self.root, ignore=shutil.ignore_patterns('target', 'out', '.git', '__pycache__'))

    def replace(self, path, old, new):
        """Makes an attack's edit; what is to be changed stands there once."""
        text = self.read(path)
        self.assertEqual(text.count(old), 1, f'{old!r} in {path}')
        self.write(path, text.replace(old, new))
