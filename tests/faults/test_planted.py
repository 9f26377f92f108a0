"""A program with a planted mistake is found by the tests of this folder that are there for it."""
from __future__ import annotations

import os
import stat
import subprocess
import sys
import tempfile
import unittest
from pathlib import Path
from typing import Tuple

from setting import program, shim

SOURCE = Path(__file__).with_name('planted.c')
FOLDER = SOURCE.parent
NOTHING, KEEPS, HALVES, PASSES_OVER, FORGETS = range(5)
LONG_CELL = 'test_drawn_allocations.OfLongScripts.test_drawn_allocations_of_a_long_cell'
# A program that does not hold the length of a header against that of the file.
TRUSTS = '''#!{python}
import re, subprocess, sys
def mended(found):
    head, length, rest = found.groups()
    least = min(int.from_bytes(bytes.fromhex(length.decode()), 'little'), len(rest) // 2)
    return head + least.to_bytes(2, 'little').hex().encode() + rest
script = re.sub(rb'(934e554d50590100)([0-9a-f]{{4}})([0-9a-f]*)', mended, sys.stdin.buffer.read())
sys.exit(subprocess.run([{program!r}, *sys.argv[1:]], input=script).returncode)
'''


class Planted(unittest.TestCase):
    def setUp(self) -> None:
        shim()
        room = tempfile.TemporaryDirectory(prefix='ndnote-planted-')
        self.addCleanup(room.cleanup)
        self.room = Path(room.name)

    def compiled(self, mistake: int) -> str:
        library, starter = self.room / f'planted{mistake}.so', self.room / f'starter{mistake}'
        told = [f'-DMISTAKE={mistake}', f'-DPROGRAM="{program()}"', f'-DLIBRARY="{library}"']
        for path, options in ((library, ['-shared', '-fPIC']), (starter, ['-static', '-DSTARTER'])):
            words = ['cc', '-O2', '-Wall', '-Wextra', '-Werror', *options, *told]
            subprocess.run([*words, '-o', str(path), str(SOURCE), '-ldl'], check=True)
        return str(starter)

    def run_test(self, planted: str, test: str) -> Tuple[bool, str]:
        told = {'NDNOTE_PROGRAM': planted, 'NDNOTE_SEED': '1', 'PYTHONPATH': str(FOLDER)}
        ran = subprocess.run([sys.executable, '-m', 'unittest', test], cwd=FOLDER,
                             env={**os.environ, **told}, text=True, errors='replace',
                             capture_output=True, timeout=600, check=False)
        return ran.returncode == 0, ran.stderr

    def check(self, planted: str, *tests: Tuple[str, str]) -> None:
        """Each test fails and says what is wrong."""
        for test, told in tests:
            is_right, said = self.run_test(planted, test)
            self.assertFalse(is_right, test)
            self.assertIn(told, said, test)

    def test_nothing_is_planted(self) -> None:
        starter = self.compiled(NOTHING)
        for test in ('test_limits.Limits.test_a_refused_input_leaves_the_one_before',
                     'test_judging.Streams', 'test_judging.Allocations.test_the_program_is_right'):
            is_right, said = self.run_test(starter, test)
            self.assertTrue(is_right, said)

    def test_an_edit_that_is_kept_after_want_of_memory(self) -> None:
        self.check(self.compiled(KEEPS),
                   ('test_allocations.OfCommands', 'all questions: answered'),
                   ('test_allocations.OfRuns', 'is answered'),
                   (LONG_CELL, 'all questions: answered'))

    def test_half_a_value(self) -> None:
        self.check(self.compiled(HALVES),
                   ('test_broken_inputs.Files.test_every_front', 'None'),
                   ('test_broken_inputs.Formats.test_every_changed_byte', 'no value'),
                   ('test_ends_of_ranges.Headers', 'None'),
                   ('test_random_scripts.Random.test_random_lines', 'no known form'),
                   ('test_limits.Limits.test_a_refused_input_leaves_the_one_before', 'b 1 2 01'))

    def test_a_failed_write_that_is_passed_over(self) -> None:
        self.check(self.compiled(PASSES_OVER),
                   ('test_reads_and_writes.Failing.test_every_write', 'status 0'),
                   ('test_reads_and_writes.Ending.test_a_full_device', '(0, '),
                   ('test_files_and_long_answers.OfLongAnswers', '(0, '),
                   ('test_files_and_long_answers.Closed', '(0, '))

    def test_words_for_front_ends(self) -> None:
        self.check(self.compiled(KEEPS), ('test_desk.OfAllocations.test_allocations_of_each_word', 'all questions'))
        self.check(self.compiled(FORGETS), ('test_desk.OfFiles.test_every_write', 'No such file'))

    def test_a_header_length_that_is_trusted(self) -> None:
        planted = self.room / 'trusts'
        planted.write_text(TRUSTS.format(python=sys.executable, program=program()))
        planted.chmod(stat.S_IRWXU)
        self.check(str(planted),
                   ('test_broken_inputs.Files.test_every_front', 'Npy.Truncated'),
                   ('test_broken_inputs.Files.test_every_changed_byte', 'longer than the file'),
                   ('test_ends_of_ranges.Headers.test_every_length', 'Npy.'))


if __name__ == '__main__':
    unittest.main()
