"""Words for front ends: allocations that are refused, and reads and writes of files that fail."""
from __future__ import annotations

import errno
import os
import tempfile
import unittest
from collections import Counter
from pathlib import Path
from typing import List

from setting import IS_ALL, SEED, program, refusals, shim, tell
from trials import try_notebook
from trying import MOST, summary

SCRIPT = Path(__file__).with_name('desks') / 'words.ndn'
DESK = ('--desk',)
MOST_OF_WORDS = 60      # allocations that are tried of each command
SIZES = (0, 7, 64)      # bytes of a read or a write; 0: as the program asks
CELL = b"insert 0\nx = np.arange(40)\nnp.save('f', x)\n.\n"
TAKES_NOTHING = 0
CAUSES = {errno.EIO: b'Failed', errno.ENOSPC: b'StorageFull', errno.EROFS: b'ReadOnlyFilesystem',
          errno.EACCES: b'PermissionDenied', errno.EINTR: b'Failed', TAKES_NOTHING: b'Failed'}


class Room(unittest.TestCase):
    def setUp(self) -> None:
        self.program, self.shim = program(), shim()
        room = tempfile.TemporaryDirectory(prefix='ndnote-desk-')
        self.addCleanup(room.cleanup)
        self.room = Path(room.name).resolve()

    def run_with(self, script: bytes, faults: refusals.Faults = refusals.NO_FAULTS) -> refusals.Ran:
        return refusals.run([self.program, *DESK], script, self.shim, faults)


class OfAllocations(Room):
    def test_allocations_of_each_word(self) -> None:
        """What wants memory is refused, all questions are answered as before, and it succeeds when given again."""
        script = self.room / 'words.ndn'
        script.write_text(SCRIPT.read_text().replace('FOLDER', str(self.room)))
        for name, count in (('given', 3), ('other', 2)):
            lines = f"insert 0\nnp.save('f', np.arange({count}))\n.\nsave 0 f {self.room}/{name}.npy\n"
            self.run_with(lines.encode())
        counts, fault = try_notebook(script, self.program, self.shim, MOST if IS_ALL else MOST_OF_WORDS, SEED, DESK)
        tell(summary(f'words for front ends, seed {SEED}', 1, counts))
        self.assertIsNone(fault)
        self.assertGreater(min(counts['refused'], counts['answered']), 0)
        self.assertEqual(sorted(os.listdir(self.room)), ['f.npy', 'given.npy', 'h.npy', 'other.npy', 'words.ndn'])

    def test_a_file_that_is_not_saved_for_want_of_memory(self) -> None:
        """The file at the path is the old one or the new one, as the answer says, and no other is left."""
        path, counts = self.room / 'f', Counter()
        script = CELL + b'save 0 f %b\n' % bytes(path)
        self.assertEqual(self.run_with(script).output, b'ok\nok\n')
        new = path.read_bytes()
        for first in range(1, self.run_with(script).allocations + 1):
            path.write_bytes(b'old')
            ran = self.run_with(script, refusals.Faults(allocation=first))
            is_saved = ran.output == b'ok\nok\n'
            self.assertEqual((path.read_bytes() == new, os.listdir(self.room)), (is_saved, ['f']), ran)
            counts[ran.output] += 1
        self.assertGreater(counts[b'ok\nrefused OutOfMemory\n'], 0)
        tell(f'a file that is saved: {sum(counts.values())} runs')


class OfFiles(Room):
    def test_every_read(self) -> None:
        """A read of the input that fails is a refusal; a read of the script ends the program."""
        made = bytes(self.room / 'made')
        self.run_with(CELL + b'save 0 f %b\n' % made)
        for call, form, fault in ((b"np.load('f')", b'file %b' % made, b'Npy.BadMagic'),
                                  (b"buffer('f')", b'raw %b <q 8 40 8 128' % made, b'Stmt.NoInput f')):
            with self.subTest(call):
                script = b'insert 0\nprint(%b)\n.\ninput f npy 00\ninput f %b\nshow 0\n' % (call, form)
                self.see_every_read(script, b'ok\nok\nrefused Unread Failed\ntext 0\nrefused 1 %b\nend\n' % fault)

    def see_every_read(self, script: bytes, told: bytes) -> None:
        wanted, counts = self.run_with(script).output, Counter()
        self.assertIn(b'[ 0  1  2', wanted)
        for size in SIZES:
            for number in range(1, self.run_with(script, refusals.Faults(read_bytes=size)).reads + 1):
                for error in (errno.EIO, errno.EINTR):
                    faults = refusals.Faults(read_bytes=size, failed_read=number, read_error=error)
                    ran = self.run_with(script, faults)
                    is_end = ran.status == 1 and ran.errors == b'ndnote: the script could not be read\n'
                    self.assertTrue(is_end and (wanted.startswith(ran.output) or told.startswith(ran.output))
                                    or ran.status == 0 and ran.output in (wanted, told), (faults, ran))
                    counts[ran.status, ran.output == told] += 1
                    self.assertFalse(error == errno.EINTR and ran.output == told, faults)
        self.assertGreater(min(counts[0, True], counts[1, False]), 0)
        tell(f'every read of an input by its path: {sum(counts.values())} runs, {counts[0, True]} refused')

    def test_every_write(self) -> None:
        """A write, a sync or a rename that fails leaves what stood at the path, and no file beside it."""
        path, counts = self.room / 'f', Counter()
        script = CELL + b'save 0 f %b\ncount\n' % bytes(path)
        self.run_with(script)
        new = path.read_bytes()
        for is_there in (True, False):
            for faults in self.failing(script):
                path.write_bytes(b'old') if is_there else path.unlink(missing_ok=True)
                ran = self.run_with(script, faults)
                left = path.read_bytes() if path.exists() else None
                self.assertLessEqual(set(os.listdir(self.room)), {'f'}, faults)
                if ran.output == b'ok\nok\ncount 1\n':
                    self.assertEqual((ran.status, left, faults.change_error), (0, new, errno.EINTR), faults)
                else:
                    told = b'ok\nrefused Unwritten %b\ncount 1\n' % CAUSES[faults.change_error]
                    self.assertEqual((ran.status, ran.output, left), (0, told, b'old' if is_there else None), faults)
                counts[ran.output] += 1
        self.assertGreater(len(counts), len(set(CAUSES.values())))
        tell(f'every write of a saved file: {sum(counts.values())} runs')

    def failing(self, script: bytes) -> List[refusals.Faults]:
        """Each call that changes a file fails; the last two are the sync and the rename, which do not take nothing."""
        found = []
        for size in SIZES:
            count = self.run_with(script, refusals.Faults(write_bytes=size)).changes
            self.assertGreater(count, 2)
            found += [refusals.Faults(write_bytes=size, failed_change=number, change_error=error)
                      for number in range(1, count + 1) for error in CAUSES
                      if number < count - 1 or error not in (TAKES_NOTHING, errno.EINTR)]
        return found

    def test_little_at_a_time(self) -> None:
        path = self.room / 'f'
        script = CELL + (b"save 0 f %b\ninput f file %b\ninput g raw %b <q 8 40 8 128\ntry 1\nprint(np.load('f') - buffer('g'))\n.\n"
                         % (bytes(path), bytes(path), bytes(path)))
        wanted = self.run_with(script).output
        for size in SIZES:
            ran = self.run_with(script, refusals.Faults(read_bytes=size, write_bytes=size))
            self.assertEqual((ran.status, ran.output), (0, wanted), size)


if __name__ == '__main__':
    unittest.main()
