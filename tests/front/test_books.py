"""The books of the examples print and save what NumPy does with the same text."""
import os
import shutil
import subprocess
import sys
import tempfile
import unittest
from pathlib import Path

TOP = Path(__file__).resolve().parents[2]
BOOKS = TOP / 'examples/books'
DATA = ('make_data', 'under_numpy')

try:
    import numpy as np
except ImportError:
    np = None


class Books(unittest.TestCase):
    def setUp(self):
        folder = tempfile.TemporaryDirectory()
        self.addCleanup(folder.cleanup)
        self.folder = Path(folder.name) / 'books'
        shutil.copytree(BOOKS, self.folder)

    def call(self, *words):
        return subprocess.run([sys.executable, *words], cwd=self.folder, capture_output=True, text=True,
                              env={**os.environ, 'PYTHONPATH': str(TOP / 'python')})

    @unittest.skipUnless(np, 'needs NumPy')
    def test_numpy_prints_and_saves_the_same(self):
        names = sorted(path.stem for path in self.folder.glob('*.py') if path.stem not in DATA)
        self.assertGreaterEqual(len(names), 4)
        for name in names:
            with self.subTest(book=name):
                ours = self.call('-m', 'ndnote', 'run', f'{name}.py', '--save', f'{name}.saved')
                theirs = self.call('under_numpy.py', f'{name}.py')
                self.assertEqual((ours.returncode, theirs.returncode), (0, 0), ours.stderr + theirs.stderr)
                self.assertEqual(ours.stdout, theirs.stdout)
                self.assertTrue(ours.stdout)
                saved = sorted((self.folder / f'{name}.saved').iterdir())
                self.assertTrue(saved)
                for path in saved:
                    self.assertEqual(path.read_bytes(), (self.folder / path.name).read_bytes(), path.name)

    @unittest.skipUnless(np, 'needs NumPy')
    def test_the_data_is_what_the_books_come_with(self):
        self.assertEqual(self.call('make_data.py').returncode, 0)
        for path in BOOKS.iterdir():
            if path.is_file():
                self.assertEqual(path.read_bytes(), (self.folder / path.name).read_bytes(), path.name)


if __name__ == '__main__':
    unittest.main()
