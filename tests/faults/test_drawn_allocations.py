"""Some allocations of longer scripts are refused, drawn anew in each run: those of the examples, and of a long cell."""
from __future__ import annotations

import tempfile
import unittest
from pathlib import Path
from typing import List

from setting import IS_ALL, SEED, TOP
from trying import MOST, Trying

MOST_OF_LONG = 12       # allocations that are tried of each command of a long script
STATEMENTS = 1_000


class OfLongScripts(Trying):
    """Of each command of a long script."""

    def test_drawn_allocations_of_the_examples(self) -> None:
        self.draw('the examples', sorted((TOP / 'examples').glob('*.ndn')))

    def test_drawn_allocations_of_a_long_cell(self) -> None:
        with tempfile.TemporaryDirectory(prefix='ndnote-faults-') as room:
            path = Path(room) / 'long_cell.ndn'
            lines = ['insert 0', 'z = 1', '.', 'insert 1', 'y = np.arange(2)', *['y += np.arange(2)'] * (STATEMENTS - 1),
                     '.', 'edit 0', 'z = 2', '.', 'move 0 1', 'remove 1']
            path.write_text('\n'.join(lines) + '\n', encoding='utf-8')
            self.draw('a long cell', [path])

    def draw(self, name: str, paths: List[Path]) -> None:
        self.try_notebooks(f'{name}, drawn allocations, seed {SEED}', paths, MOST if IS_ALL else MOST_OF_LONG)


if __name__ == '__main__':
    unittest.main()
