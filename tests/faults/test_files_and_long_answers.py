"""Reads of files, answers that take many writes, and streams that are closed."""
from __future__ import annotations

import errno
import subprocess
import tempfile
import unittest
from collections import Counter
from pathlib import Path
from typing import List

from setting import program, refusals, shim, tell
from commands import answers_of, commands_of
from judging import Script
from test_broken_inputs import STRUCTURES
from test_reads_and_writes import CAUSES, READ_ERRORS, SIZES, WRITE_ERRORS

SCRIPT = b"insert 0\nx = np.load('f')\nprint(x)\n.\nshow 0\nvalue 0 x\nsource 0\n"
LONG = b'insert 0\nx = np.arange(20000)\nprint(x)\n.\nshow 0\nvalue 0 x\nsource 0\n'
LITTLE = 4_093                  # bytes of a write that cuts long answers at odd places
BUFFER = 8_192                  # bytes of answers that are written at once


class OfFiles(unittest.TestCase):
    """The input and the script are files. An input that cannot be read has status 3 and no answers.

    An interrupted read (EINTR) may be tried again, and then all is answered.
    """

    def setUp(self) -> None:
        shim()
        room = tempfile.TemporaryDirectory(prefix='ndnote-faults-')
        self.addCleanup(room.cleanup)
        file, script = Path(room.name) / 'f', Path(room.name) / 'script'
        file.write_bytes(STRUCTURES), script.write_bytes(SCRIPT)
        self.command = [program(), f'f={file}', '--script', str(script)]
        causes = {3: f'ndnote: input f: {file}: ', 1: f'ndnote: script {script}: '}
        self.causes = {status: told.encode() for status, told in causes.items()}
        self.wanted = self.run_with(refusals.NO_FAULTS).output

    def run_with(self, faults: refusals.Faults) -> refusals.Ran:
        return refusals.run(self.command, b'', shim(), faults)

    def test_little_at_a_time(self) -> None:
        self.assertIn(b'array ', self.wanted)
        for size in SIZES:
            ran = self.run_with(refusals.Faults(read_bytes=size, write_bytes=size))
            self.assertEqual((ran.status, ran.output, ran.errors), (0, self.wanted, b''), size)

    def test_every_read(self) -> None:
        counts: Counter = Counter()
        for size in SIZES:
            reads = self.run_with(refusals.Faults(read_bytes=size)).reads
            for error in READ_ERRORS:
                faults = [refusals.Faults(read_bytes=size, failed_read=number, read_error=error)
                          for number in range(1, reads + 1)]
                statuses = [self.status_of(it) for it in faults]
                self.assertEqual(statuses, sorted(statuses, key=(1).__eq__), 'inputs come first')
                self.assertTrue(error == errno.EINTR or set(statuses) == {1, 3}, statuses)
                counts.update(statuses)
        tell(f'every read of files: {counts[3]} of an input, {counts[1]} of a script, '
             f'{counts[0]} tried again')

    def status_of(self, faults: refusals.Faults) -> int:
        ran = self.run_with(faults)
        if ran.status == 0 and faults.read_error == errno.EINTR:
            self.assertEqual((ran.output, ran.errors), (self.wanted, b''), faults)
            return 0
        self.assertIn(ran.status, self.causes, faults)
        self.assertTrue(ran.errors.startswith(self.causes[ran.status]), (faults, ran.errors))
        self.assertTrue(self.wanted.startswith(ran.output), (faults, ran.output))
        self.assertTrue(ran.status == 1 or not ran.output, (faults, ran.output))
        return ran.status


class OfLongAnswers(unittest.TestCase):
    def run_with(self, faults: refusals.Faults) -> refusals.Ran:
        return refusals.run([program()], LONG, shim(), faults)

    def test_every_write(self) -> None:
        """A write that fails leaves the bytes of those before it, and no other is tried."""
        whole, runs = self.run_with(refusals.NO_FAULTS), 0
        commands, answers = tuple(commands_of(LONG)), answers_of(whole.output)
        refused = Script(commands, lambda _: answers).judged(whole.output, False)
        self.assertEqual((refused, len(answers)), (frozenset(), len(commands)))
        for size in (0, LITTLE):
            lengths: List[int] = []
            count = self.run_with(refusals.Faults(write_bytes=size)).writes
            self.assertGreater(count, len(answers))
            for number in range(1, count + 1):
                for error in WRITE_ERRORS:
                    faults = refusals.Faults(write_bytes=size, failed_write=number,
                                             write_error=error)
                    ran = self.run_with(faults)
                    told = (ran.status, ran.errors, ran.writes)
                    self.assertEqual(told, (1, CAUSES['write'], number), faults)
                    self.assertTrue(whole.output.startswith(ran.output), faults)
                    lengths.append(len(ran.output))
            self.assertEqual(lengths, sorted(lengths))
            self.assertEqual(len(set(lengths)), count)
            runs += len(lengths)
        tell(f'every write of long answers: {len(whole.output)} bytes, {runs} runs')

    def test_answers_as_long_as_the_buffer(self) -> None:
        """`ok`, the line with the length and the end of the source are 14 bytes."""
        for length in (BUFFER - 15, BUFFER - 14, BUFFER - 13, 20_000):
            text = b'x' * length
            ran = refusals.run([program()], b'insert 0\n' + text + b'\n.\nsource 0\n', shim())
            self.assertEqual((ran.status, ran.output), (0, b'ok\nsource %d\n%s\n' % (length, text)), length)


class Closed(unittest.TestCase):
    """Streams that the caller has closed."""

    def run_closed(self, redirections: str) -> 'subprocess.CompletedProcess[bytes]':
        words = ['sh', '-c', f'exec "$0" {redirections}', program()]
        return subprocess.run(words, input=b'count\n', capture_output=True, check=False, timeout=60)

    def test_closed_streams(self) -> None:
        for redirections, status, output, errors in (
                ('<&-', 1, b'', CAUSES['read']), ('>&-', 1, b'', CAUSES['write']),
                ('2>&-', 0, b'count 0\n', b''), ('<&- >&-', 1, b'', CAUSES['read']),
                ('>&- 2>&-', 1, b'', b''), ('</', 1, b'', CAUSES['read'])):
            ran = self.run_closed(redirections)
            told = (ran.returncode, ran.stdout, ran.stderr)
            self.assertEqual(told, (status, output, errors), redirections)


if __name__ == '__main__':
    unittest.main()
