"""Trying: the trials of several notebooks side by side, and what must come of them."""
from __future__ import annotations

import functools
import unittest
from collections import Counter
from pathlib import Path
from typing import List, Sequence, Tuple

from setting import SEED, program, shim, tell, workers
from trials import Counts, try_notebook

MOST = 1 << 40          # more allocations than any command takes


def try_all(paths: Sequence[Path], most: int) -> Tuple[Counts, List[str]]:
    """How the trials of the notebooks ended, and the first fault of each."""
    counts, faults = Counter(), []
    one = functools.partial(try_notebook, program=program(), shim=shim(), most=most, seed=SEED)
    with workers() as pool:
        for found, fault in pool.map(one, paths):
            counts.update(found)
            faults += [fault] if fault else []
    return counts, faults


def summary(name: str, books: int, counts: Counts) -> str:
    return (f'{name}: {books} notebooks, {counts["allocations"]} allocations, {counts["trials"]} trials: '
            f'{counts["refused"]} with a refused command, {counts["ended"]} ended, {counts["answered"]} as ever')


class Trying(unittest.TestCase):
    """What was refused has changed nothing, and succeeds when it is given again."""

    def try_notebooks(self, name: str, paths: Sequence[Path], most: int) -> None:
        """Refuses up to `most` allocations of each command, and says what came of it."""
        shim()
        counts, faults = try_all(paths, most)
        tell(summary(name, len(paths), counts))
        self.assertEqual(faults, [])
        self.assertGreater(min(counts['refused'], counts['ended']), 0)
