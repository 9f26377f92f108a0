"""Scripts and inputs at the limits, and which of two refusals comes first where both stand."""
from __future__ import annotations

import subprocess
import tempfile
import unittest
from pathlib import Path
from typing import Iterable, Iterator, List, Tuple

from setting import program, tell
from commands import answers_of
from streaming import streamed

CELLS = 10_000
CELL_BYTES = 65_536
INPUT_BYTES = 1 << 26
NESTING = 64
BRACKETS = 65_000
FORMAT_BYTES = 1                # of the format b
ENTRY_BYTES = 8                 # of a length or a stride


def run(script: bytes, *words: str) -> 'subprocess.CompletedProcess[bytes]':
    return subprocess.run([program(), *words], input=script, capture_output=True, check=False, timeout=120)


def cell(command: str, source: bytes) -> bytes:
    return command.encode() + b'\n' + source + b'\n.\n'


class Limits(unittest.TestCase):
    """Expected answers are those of the order in which docs/SCRIPT.md has the refusals of an edit."""

    def check(self, cases: Iterable[Tuple[bytes, str]], before: bytes = b'', skip: int = 0) -> None:
        """Runs the commands of the cases in one script. The first answers, which are not looked at, are those before."""
        wanted: List[Tuple[bytes, str]] = []

        def pieces() -> Iterator[bytes]:
            yield before
            for command, answer in cases:
                wanted.append((command[:60], answer + '\n'))
                yield command

        ran = streamed(pieces())
        self.assertEqual((ran.returncode, ran.stderr), (0, b''))
        answers = [answer.decode() for answer in answers_of(ran.stdout)[skip:]]
        self.assertEqual(list(zip((command for command, _ in wanted), answers)), wanted)
        self.assertEqual(len(answers), len(wanted))

    def test_the_most_cells(self) -> None:
        long, not_text = b'#' * (CELL_BYTES + 1), b'\xff'
        full = b''.join(b'insert %d\n.\n' % at for at in range(CELLS - 1))
        self.check([
            (cell(f'insert {CELLS + 1}', long), f'refused NoCell {CELLS + 1} {CELLS - 1}'),
            (cell('insert 0', long), 'refused CellTooLong'),
            (cell('insert 0', b'x = 1'), 'ok'),
            (b'count\n', f'count {CELLS}'),
            (cell('insert 0', b'x = 1'), 'refused TooManyCells'),
            (cell(f'insert {CELLS}', b'x = 1'), 'refused TooManyCells'),
            (cell(f'insert {CELLS + 1}', b'x = 1'), f'refused NoCell {CELLS + 1} {CELLS}'),
            (cell('insert 0', long), 'refused TooManyCells'),
            (cell(f'insert {CELLS + 1}', long), f'refused NoCell {CELLS + 1} {CELLS}'),
            (cell(f'insert {CELLS + 1}', not_text), 'bad command'),
            (cell(f'edit {CELLS}', long), f'refused NoCell {CELLS} {CELLS}'),
            (cell('edit 0', long), 'refused CellTooLong'),
            (cell('edit 0', long + not_text), 'bad command'),
            (f'move {CELLS} {CELLS + 1}\n'.encode(), f'refused NoCell {CELLS} {CELLS}'),
            (f'move {CELLS + 2} {CELLS + 1}\n'.encode(), f'refused NoCell {CELLS + 2} {CELLS}'),
            (f'move 0 {CELLS + 1}\n'.encode(), f'refused NoCell {CELLS + 1} {CELLS}'),
            (f'move {CELLS - 1} 0\n'.encode(), 'ok'),
            (b'remove 0\n', 'ok'),
            (cell(f'insert {CELLS - 1}', b'#' * CELL_BYTES), 'ok'),
            (b'count\n', f'count {CELLS}')], full, CELLS - 1)
        tell(f'the most cells: {CELLS}')

    def test_the_most_bytes_of_a_file(self) -> None:
        lines = ((b'input f npy %s\n', 0, 'ok'), (b'input f npy %s\n', 1, 'refused InputTooLarge'),
                 (b'input a/b npy %s\n', 1, 'refused BadInputName'),
                 (b'input ' + b'n' * 65 + b' npy %s\n', 1, 'refused BadInputName'),
                 (b'input a/b npy %s0\n', 1, 'bad command'))
        self.check((line % (b'00' * (INPUT_BYTES + more)), wanted) for line, more, wanted in lines)

    def test_the_most_bytes_of_a_buffer(self) -> None:
        """The format, the lengths and the strides count."""
        most = INPUT_BYTES - FORMAT_BYTES - 3 * ENTRY_BYTES
        lines = ((b'input f buffer b 1 2 1,1 0 %s\n', 0, 'ok'),
                 (b'input f buffer b 1 2 1,1 0 %s\n', 1, 'refused InputTooLarge'),
                 (b'input a/b buffer b 1 2 1,1 0 %s\n', 1, 'refused BadInputName'),
                 (b'input f buffer zz 1 2 1,1 0 %s\n', 0, 'refused InputTooLarge'),
                 (b'input f buffer b 1 2,3 1,1 0 %s\n', 0, 'refused InputTooLarge'),
                 (b'input f buffer b 1 02 1,1 0 %s\n', 1, 'bad command'))
        self.check((line % (b'00' * (most + more)), wanted) for line, more, wanted in lines)

    def test_a_refused_input_leaves_the_one_before(self) -> None:
        load = cell('insert 0', b"x = buffer('f')")
        self.check([(b'input f buffer b 1 2 1 0 0102\n', 'ok'),
                    (b'input f npy %s\n' % (b'00' * (INPUT_BYTES + 1)), 'refused InputTooLarge'),
                    (b'value 0 x\n', 'array b 1 2 0102')], load, 1)

    def test_two_refusals_of_a_drop(self) -> None:
        longest = 'n' * 64
        self.check([(b'drop a/b\n', 'refused BadInputName'), (b'drop a/b c\n', 'bad command'),
                    (f'drop {longest}n\n'.encode(), 'refused BadInputName'),
                    (f'drop {longest}\n'.encode(), f'refused NoInputNamed {longest}'),
                    (b'drop \xff\n', 'bad command')])

    def test_two_refusals_of_a_question(self) -> None:
        before = cell('insert 0', b'x = 1')
        self.check([(b'value 1 y\n', 'refused NoCell 1 1'), (b'value 0 y\n', 'refused NoName y'),
                    (b'saved 1 s\n', 'refused NoCell 1 1'), (b'saved 0 s\n', 'refused NoSave s'),
                    (b'show 1\n', 'refused NoCell 1 1'), (b'show 01\n', 'bad command')], before, 1)

    def test_files_of_the_command_line(self) -> None:
        with tempfile.TemporaryDirectory(prefix='ndnote-faults-') as room:
            most, more = Path(room) / 'most', Path(room) / 'more'
            most.write_bytes(bytes(INPUT_BYTES)), more.write_bytes(bytes(INPUT_BYTES + 1))
            name = "a name has 1 to 64 digits, letters, '-', '.' or '_'"
            for words, status, told in (
                    ((f'f={most}',), 0, ''),
                    ((f'f={more}',), 3, f'input f: {more}: larger than {INPUT_BYTES} bytes'),
                    ((f'a/b={more}',), 3, f'input a/b: {more}: {name}'),
                    ((f'g={most}', f'f={more}', 'a/b=missing'), 3, f'input f: {more}: larger than {INPUT_BYTES} bytes'),
                    ((f'a/b={more}', f'f={more}'), 3, f'input a/b: {more}: {name}')):
                ran = run(b'count\n', *words)
                self.assertEqual((ran.returncode, ran.stdout, ran.stderr.decode()),
                                 (status, b'' if status else b'count 0\n', f'ndnote: {told}\n' if status else ''))

    def test_brackets(self) -> None:
        """All brackets but some of the first are more than may nest, whether or not they are closed."""
        show = b'text 0\nrefused 1 Parse.TooDeep %d\nend\n'
        for opening, column in ((b'(', 1), (b'x = (', 5), (b'x = -', 5), (b'x = np.array([', 13), (b'x[', 2)):
            for many in (NESTING + 1, BRACKETS):
                source = opening + opening[-1:] * (many - 1)
                ran = run(cell('insert 0', source) + b'show 0\n')
                self.assertEqual((ran.returncode, ran.stdout), (0, b'ok\n' + show % (column + NESTING)), source[:10])

    def test_a_script_that_ends_inside_a_cell(self) -> None:
        for end, wanted in ((b'insert 0', 'bad command'), (b'insert 0\nx = 1', 'bad command'),
                            (b'edit 0\nx = 1\n', 'bad command'), (b'insert 9\n.', 'refused NoCell 9 1'),
                            (b'insert 0\n..', 'bad command'), (b'insert 0\n. ', 'bad command')):
            self.check([(end, wanted)], cell('insert 0', b'x = 1'), 1)


class Shapes(unittest.TestCase):
    """Item sizes, offsets, lengths and strides at the ends of their ranges."""

    def values(self) -> List[str]:
        return ['0', '1', '2', '65536', '65537', str((1 << 24) + 1), str(1 << 27), str(1 << 32), str((1 << 32) + 1),
                str((1 << 63) - 1), str(1 << 63), str((1 << 64) - 1)]

    def test_every_pair_of_ends(self) -> None:
        """Each buffer is a value or a fault of formats and views, and none lends bytes that the input has not."""
        strides = ['0', '1', '-1', str((1 << 63) - 1), str(-(1 << 63)), '65536', '-65536']
        buffers = [f'b {size} {length} {stride} {offset}' for size in self.values() for length in self.values()
                   for stride in strides for offset in self.values()]
        lines = ['insert 0', "x = buffer('f')", '.']
        for words in buffers:
            lines += [f'input f buffer {words} 00010203', 'show 0']
        opened, *answers = answers_of(run('\n'.join(lines).encode() + b'\n').stdout)
        self.assertEqual((opened, len(answers)), (b'ok\n', 2 * len(buffers)))
        for words, answer, shown in zip(buffers, answers[::2], answers[1::2]):
            fault = self.wanted(*words.split()[1:])
            end = f'refused 1 {fault}' if fault else 'ok'
            self.assertEqual((answer, shown), (b'ok\n', f'text 0\n{end}\nend\n'.encode()), words)
        tell(f'ends of item sizes, lengths, strides and offsets: {len(buffers)} buffers')

    def wanted(self, *words: str) -> str:
        """The first refusal of an array of bytes over four bytes."""
        size, length, stride, offset = map(int, words)
        if size != 1:
            return 'Format.LargerThanItem' if size < 1 else 'Format.BadItemSize'
        if length > 1 << 24:
            return 'View.TooManyElements'
        ends = (offset, offset + (length - 1) * stride)
        return 'View.OutOfBlock' if length and not 0 <= min(ends) <= max(ends) < 4 else ''


if __name__ == '__main__':
    unittest.main()
