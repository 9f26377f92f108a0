"""What `ndnote --desk --progress` tells on standard error: each run of a cell, and no other cell."""
import os
import re
import subprocess
import unittest
from pathlib import Path
from typing import List, Tuple

TOP = Path(__file__).resolve().parents[1]
PROGRAM = os.path.abspath(os.environ.get('NDNOTE_PROGRAM') or TOP / 'crates/ndnote/out/ndnote')
PAIR = re.compile(r'run (\d+)\ndone (\d+) \d+\n')


def cell(word: str, at: int, source: str) -> str:
    return f'{word} {at}\n{source}\n.\n'


# Three cells, of which the last reads the first.
BOOK = cell('insert', 0, 'x = 1') + cell('insert', 1, 'y = 2') + cell('insert', 2, 'print(x)')


class Progress(unittest.TestCase):
    def told(self, script: str) -> Tuple[List[int], str]:
        """The places of the cells that are told to run, and the answers."""
        ran = subprocess.run([PROGRAM, '--desk', '--progress'], input=script, capture_output=True, text=True, timeout=60)
        self.assertEqual(ran.returncode, 0, ran.stderr)
        pairs = PAIR.findall(ran.stderr)
        self.assertEqual(PAIR.sub('', ran.stderr), '')
        self.assertTrue(all(begun == ended for begun, ended in pairs), ran.stderr)
        return [int(begun) for begun, _ in pairs], ran.stdout

    def runs(self, edit: str) -> List[int]:
        """The places that an edit of the book tells."""
        told, _ = self.told(BOOK + edit)
        self.assertEqual(told[:3], [0, 1, 2])
        return told[3:]

    def test_stale_cells_alone(self) -> None:
        self.assertEqual(self.runs(cell('edit', 0, 'x = 3')), [0, 2])
        self.assertEqual(self.runs(cell('edit', 1, 'y = 3')), [1])
        self.assertEqual(self.runs(cell('edit', 1, 'y = 2')), [])
        self.assertEqual(self.runs('rule atomic\n'), [])

    def test_places_behind_the_edit(self) -> None:
        """A place is that of the cell once the edit is done."""
        self.assertEqual(self.runs(cell('insert', 0, 'z = 1')), [0])
        self.assertEqual(self.runs(cell('insert', 1, 'x = 5')), [1, 3])
        self.assertEqual(self.runs('remove 0\n'), [1])
        self.assertEqual(self.runs('move 2 0\n'), [0])
        self.assertEqual(self.runs('move 0 2\n'), [1])
        self.assertEqual(self.runs('move 0 1\n'), [])

    def test_a_try_and_what_is_refused(self) -> None:
        self.assertEqual(self.runs(cell('try', 2, 'print(y)')), [2])
        self.assertEqual(self.runs(cell('try', 9, 'print(y)') + 'remove 7\nshow 2\n'), [])

    def test_no_answer_depends_on_it(self) -> None:
        script = BOOK + cell('edit', 0, 'x = 9') + 'show 2\n'
        silent = subprocess.run([PROGRAM, '--desk'], input=script, capture_output=True, text=True, timeout=60)
        self.assertEqual((silent.returncode, silent.stderr), (0, ''))
        self.assertEqual(self.told(script)[1], silent.stdout)

    def test_no_standard_error(self) -> None:
        """Lines that cannot be told are left out."""
        with open('/dev/full', 'w') as full:
            ran = subprocess.run([PROGRAM, '--desk', '--progress'], input=BOOK, stdout=subprocess.PIPE, stderr=full,
                                 text=True, timeout=60)
        self.assertEqual((ran.returncode, ran.stdout), (0, 'ok\nok\nok\n'))

    def test_it_is_refused_without_the_words_for_front_ends(self) -> None:
        ran = subprocess.run([PROGRAM, '--progress'], input='count\n', capture_output=True, text=True, timeout=60)
        self.assertEqual((ran.returncode, ran.stdout), (2, ''))
        self.assertIn('ndnote: ', ran.stderr)
        self.assertIn('--desk', ran.stderr)


if __name__ == '__main__':
    unittest.main()
