"""Each allocation of the program is refused in turn: one, several, and all from one on."""
from __future__ import annotations

import random
import tempfile
import unittest
from collections import Counter
from pathlib import Path

from setting import IS_ALL, SEED, program, refusals, shim, tell
from commands import commands_of
from judging import Fault, Script
from notebook import FOLDER, Notebook, notebooks
from trials import Counts, MEMORY, chosen
from trying import MOST, Trying

INPUT = FOLDER / 'file_in_fortran_order.ndn'


class OfCommands(Trying):
    """Of each command of the notebooks."""

    def test_every_allocation_of_the_notebooks(self) -> None:
        self.try_notebooks('every allocation', notebooks(), MOST)


class OfRuns(unittest.TestCase):
    """Of whole runs, from the first allocation of the program on, with an input and a script as files."""

    def setUp(self) -> None:
        self.shim = shim()
        room = tempfile.TemporaryDirectory(prefix='ndnote-faults-')
        self.addCleanup(room.cleanup)
        setting, *self.commands = commands_of(INPUT.read_bytes())
        file, script = Path(room.name) / 'f.npy', Path(room.name) / 'script'
        file.write_bytes(bytes.fromhex(setting.decode().split()[-1]))
        script.write_bytes(b''.join(self.commands))
        self.words = [program(), f'f={file}', '--script', str(script)]

    def judge(self, ran: refusals.Ran, script: Script, what: str) -> None:
        try:
            script.judged(ran.output, ran.status != 0)
        except Fault as fault:
            self.fail(f'{what}: {fault}')
        self.assertIn(ran.status, (0, 1, 3), what)
        self.assertEqual(ran.status == 0, not ran.errors, what)
        self.assertTrue(ran.status == 0 or MEMORY in ran.errors, (what, ran.errors))
        self.assertTrue(ran.status != 3 or not ran.output, what)

    def test_every_allocation_of_a_run(self) -> None:
        notebook = Notebook(INPUT, program(), self.shim)
        self.addCleanup(notebook.close)
        setting = tuple(commands_of(INPUT.read_bytes()))[:1]
        script = Script(tuple(self.commands), lambda it: notebook.told(setting + it).answers[1:])
        count = refusals.run(self.words, b'', self.shim).allocations
        ends: Counts = Counter()
        for several in (1, 7, MOST):
            for first in chosen(count, MOST if IS_ALL else 400, random.Random(SEED)):
                faults = refusals.Faults(allocation=first, allocations=several)
                ran = refusals.run(self.words, b'', self.shim, faults)
                self.judge(ran, script, f'{several} allocations refused from {first} on')
                ends[str(ran.status)] += 1
        told = ', '.join(f'{count} with status {status}' for status, count in sorted(ends.items()))
        tell(f'every allocation of a run: {count} allocations, {sum(ends.values())} runs: {told}')
        self.assertEqual(set(ends), {'0', '1', '3'})


if __name__ == '__main__':
    unittest.main()
