"""What the built program needs of memory, under a bound on its address space."""
from __future__ import annotations

import os
import resource
import subprocess
import sys
import tempfile
import threading
import unittest
from pathlib import Path
from typing import Optional

TOP = Path(__file__).resolve().parents[1]
sys.path.insert(0, str(TOP / 'tools'))

from driver import Program  # noqa: E402

MIB = 1 << 20
HEADER = b"{'descr': '|u1', 'fortran_order': False, 'shape': (%d,), }"
SHOWN = b'insert 0\nprint(1)\n.\nshow 0\n'


def real_program() -> Optional[str]:
    """The program that $NDNOTE_PROGRAM names, or the one that is built here."""
    for path in (os.environ.get('NDNOTE_PROGRAM', ''), str(TOP / 'crates/ndnote/out/ndnote')):
        if path and os.access(path, os.X_OK):
            return path
    return None


def npy_file(count: int) -> bytes:
    """An NPY file of this many elements, each a byte 1."""
    header = HEADER % count
    header += b' ' * (-(len(header) + 11) % 64) + b'\n'
    return b'\x93NUMPY\x01\x00' + len(header).to_bytes(2, 'little') + header + b'\x01' * count


@unittest.skipUnless(real_program(), 'no program: NDNOTE_PROGRAM, or crates/ndnote/out/ndnote')
class Memory(unittest.TestCase):
    """The bound is on the address space, so a little more than the data is left for code and stack."""

    def run_within(self, mib: int, script: bytes, *words: str) -> subprocess.CompletedProcess:
        def bound() -> None:
            resource.setrlimit(resource.RLIMIT_AS, (mib * MIB, mib * MIB))

        return subprocess.run([real_program(), *words], input=script, capture_output=True, preexec_fn=bound,
                              timeout=120, check=False)

    def test_an_input_file_is_held_once(self) -> None:
        with tempfile.TemporaryDirectory() as folder:
            path = Path(folder, 'big.npy')
            path.write_bytes(npy_file(60 * MIB))
            ran = self.run_within(80, SHOWN, f'big.npy={path}')
        self.assertEqual((ran.returncode, ran.stderr), (0, b''))
        self.assertEqual(ran.stdout, b'ok\ntext 2\n1\nok\nend\n')

    def test_a_stencil_keeps_its_image_and_no_bit_for_each_byte(self) -> None:
        """200 generations of life on 512 by 512: 50 MiB of images, and 6 more if the bits of each read were kept."""
        around = ' + '.join(f'g[{a}:{a + 510}, {b}:{b + 510}]' for a in range(3) for b in range(3) if (a, b) != (1, 1))
        step = f'g[1:-1, 1:-1] = ({around} | g[1:-1, 1:-1]) == 3'
        cells = ["k = np.arange(512 * 512).reshape(512, 512)\ng = (k * k % 7 < 2).astype('uint8')\ndel k", *[step] * 200]
        program = Program(real_program())
        self.addCleanup(program.close)
        program.load(cells)
        self.assertLess(program.memory()[0], 60 * MIB)

    def test_scattered_elements_keep_ranges_and_no_bit_for_each_byte(self) -> None:
        """20 cells that each print ten elements of 32 MiB: 4 MiB of bits a cell, if they were kept."""
        count, step = 4 * MIB, 400_009
        chosen = ', '.join(str(at * at * 37 % step + at * step) for at in range(10))
        cells = [f'x = np.arange({count})', *(f'print(x[[{chosen}, {count - 1 - at}]])' for at in range(20))]
        program = Program(real_program())
        self.addCleanup(program.close)
        program.load(cells)
        self.assertLess(program.memory()[0], 48 * MIB)

    def test_an_input_of_a_pipe_is_read_to_its_end(self) -> None:
        script = b"insert 0\nx = np.load('p.npy')\nprint(x.sum())\n.\nshow 0\n"
        with tempfile.TemporaryDirectory() as folder:
            path = Path(folder, 'p.npy')
            os.mkfifo(path)
            writer = threading.Thread(target=lambda: path.write_bytes(npy_file(300_000)))
            writer.start()
            ran = self.run_within(200, script, f'p.npy={path}')
            writer.join()
        self.assertEqual(ran.returncode, 0, ran.stderr)
        self.assertIn(b'300000', ran.stdout)


if __name__ == '__main__':
    unittest.main()
