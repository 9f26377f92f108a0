"""Reads and writes fail in turn, and take or give little at a time; scripts end early, or never."""
from __future__ import annotations

import errno
import itertools
import subprocess
import unittest
from collections import Counter
from typing import Callable, Iterator, Tuple

from setting import IS_ALL, program, refusals, shim, tell
from commands import answers_of, commands_of
from judging import Fault, Script
from notebook import FOLDER
from streaming import streamed

SCRIPT = (FOLDER / 'overlapping_views.ndn').read_bytes() + b'value 3 x\nnames 3\nvalue 1 y\nsource 2\ncount\n'
COMMANDS = tuple(commands_of(SCRIPT))
SIZES = (0, 1, 2, 3, 7, 64)     # bytes of a read or a write; 0: as the program asks
READ_ERRORS = (errno.EIO, errno.EINTR, errno.EAGAIN)
PIECE = 1 << 20                 # bytes of a long line that are given at once
TAKES_NOTHING = 0
WRITE_ERRORS = (errno.EIO, errno.ENOSPC, errno.EPIPE, errno.EINTR, TAKES_NOTHING)
CAUSES = {'read': b'ndnote: the script could not be read\n', 'write': b'ndnote: an answer could not be written\n',
          'line': b'ndnote: a line of the script is too long\n'}
Run = Callable[[refusals.Faults], refusals.Ran]


def run(faults: refusals.Faults = refusals.NO_FAULTS) -> refusals.Ran:
    return refusals.run([program()], SCRIPT, shim(), faults)


def fault_of(ran: refusals.Ran, cause: str, wanted: bytes) -> str:
    """What is wrong with a run in which a read or a write failed; nothing where it is right."""
    if (ran.status, ran.errors) != (1, CAUSES[cause]):
        return f'status {ran.status}, {ran.errors!r}'
    try:
        Script(COMMANDS, lambda _: answers_of(wanted)).judged(ran.output, True, wants_memory=False)
    except Fault as fault:
        return str(fault)
    return ''


def failing_reads(run: Run) -> Iterator[Tuple[refusals.Faults, refusals.Ran]]:
    for size in SIZES:
        count = run(refusals.Faults(read_bytes=size)).reads
        for number in range(1, count + 1):
            for error in READ_ERRORS:
                faults = refusals.Faults(read_bytes=size, failed_read=number, read_error=error)
                yield faults, run(faults)


def failing_writes(run: Run) -> Iterator[Tuple[refusals.Faults, refusals.Ran]]:
    for size in SIZES:
        count = run(refusals.Faults(write_bytes=size)).writes
        for number in range(1, count + 1):
            for error in WRITE_ERRORS:
                faults = refusals.Faults(write_bytes=size, failed_write=number, write_error=error)
                yield faults, run(faults)


def written_before(wanted: bytes, faults: refusals.Faults) -> int:
    """How many bytes the writes before the failing one take."""
    size, done, number = faults.write_bytes, 0, 0
    for answer in answers_of(wanted):
        for at in range(0, len(answer), size or len(answer)):
            number += 1
            if number == faults.failed_write:
                return done
            done += min(size or len(answer), len(answer) - at)
    return done


class Failing(unittest.TestCase):
    """A read or a write fails: the program ends with status 1, names the cause, and wrote what came before."""

    def setUp(self) -> None:
        shim()
        self.wanted = run().output
        self.assertEqual(len(answers_of(self.wanted)), len(COMMANDS))

    def test_every_read(self) -> None:
        counts: Counter = Counter()
        for faults, ran in failing_reads(run):
            self.assertEqual(fault_of(ran, 'read', self.wanted), '', faults)
            counts['all answers' if ran.output == self.wanted else 'the first answers'] += 1
        tell(f'every read: {sum(counts.values())} runs: ' + ', '.join(f'{it} {name}' for name, it in counts.items()))
        self.assertEqual(len(counts), 2)

    def test_every_write(self) -> None:
        count = 0
        for faults, ran in failing_writes(run):
            self.assertEqual(fault_of(ran, 'write', self.wanted), '', faults)
            self.assertEqual(ran.output, self.wanted[:written_before(self.wanted, faults)], faults)
            count += 1
        tell(f'every write: {count} runs')
        self.assertGreater(count, 0)

    def test_little_at_a_time(self) -> None:
        for reads in SIZES:
            for writes in SIZES:
                ran = run(refusals.Faults(read_bytes=reads, write_bytes=writes))
                self.assertEqual((ran.status, ran.output, ran.errors), (0, self.wanted, b''), (reads, writes))


class Ending(unittest.TestCase):
    """Scripts that end early, and scripts that do not end."""

    def test_every_front_of_a_script(self) -> None:
        answers = answers_of(run().output)
        for length in range(len(SCRIPT)):
            front, at, done = SCRIPT[:length], 0, 0
            while at + len(COMMANDS[done]) <= length:
                at += len(COMMANDS[done])
                done += 1
            rest, wanted = front[at:], b''.join(answers[:done])
            if rest:
                wanted += answers[done] if rest + b'\n' == COMMANDS[done] else b'bad command\n'
            ran = subprocess.run([program()], input=front, capture_output=True, check=False, timeout=60)
            self.assertEqual((ran.returncode, ran.stdout, ran.stderr), (0, wanted, b''), front[-40:])

    def test_a_line_without_an_end(self) -> None:
        with open('/dev/zero', 'rb') as endless:
            ran = subprocess.run([program()], stdin=endless, capture_output=True, check=False, timeout=120)
        self.assertEqual((ran.returncode, ran.stdout, ran.stderr), (1, b'', CAUSES['line']))

    def test_the_longest_line_and_the_next(self) -> None:
        longest = 1 << 28
        for length, status, wanted, told in ((longest, 0, b'count 0\ncount 0\n', b''),
                                             (longest + 1, 1, b'count 0\n', CAUSES['line'])):
            pieces = itertools.chain([b'count\n#'], itertools.repeat(bytes(PIECE), length // PIECE - 1),
                                     [bytes(PIECE - 1 + length % PIECE) + b'\ncount\n'])
            ran = streamed(pieces)
            self.assertEqual((ran.returncode, ran.stdout, ran.stderr), (status, wanted, told), length)

    def test_a_script_without_an_end_and_a_reader_of_answers_that_goes(self) -> None:
        yes = subprocess.Popen(['yes', 'count'], stdout=subprocess.PIPE)
        process = subprocess.Popen([program()], stdin=yes.stdout, stdout=subprocess.PIPE, stderr=subprocess.PIPE)
        yes.stdout.close()
        self.assertEqual(process.stdout.read(8), b'count 0\n')
        process.stdout.close()
        self.assertEqual((process.stderr.read(), process.wait(60)), (CAUSES['write'], 1))
        process.stderr.close()
        yes.wait(60)

    def test_a_full_device(self) -> None:
        with open('/dev/full', 'wb') as full:
            ran = subprocess.run([program()], input=SCRIPT, stdout=full, stderr=subprocess.PIPE, check=False, timeout=60)
        self.assertEqual((ran.returncode, ran.stderr), (1, CAUSES['write']))

    def test_the_most_reads(self) -> None:
        """A reader that never ends is left after 2^32 reads, which take minutes: the last of them with --all alone."""
        most = 1 << 32 if IS_ALL else 1 << 24
        faults = refusals.Faults(is_endless=True, failed_read=0 if IS_ALL else most, read_error=errno.EIO)
        ran = refusals.run([program()], b'', shim(), faults, seconds=3600)
        self.assertEqual((ran.status, ran.output, ran.errors, ran.reads), (1, b'', CAUSES['read'], most))
        tell(f'a script without an end: {ran.reads} reads')


if __name__ == '__main__':
    unittest.main()
