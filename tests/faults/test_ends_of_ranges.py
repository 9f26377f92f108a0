"""Lengths of headers, shapes of files and buffers of two axes at the ends of their ranges."""
from __future__ import annotations

import itertools
import math
import unittest
from typing import Iterator, List, Sequence, Tuple

from setting import tell
from broken import Found
from numpy_side import file_difference, needs_numpy
from test_broken_inputs import BUFFER, FILES, answers_to, told_of_files

Case = Tuple[Sequence[int], Sequence[int], int]     # shape, strides, offset

MAGIC = b'\x93NUMPY'
# Lengths of an axis up to the greatest, past it, and past all words of a machine.
LENGTHS = (0, 1, 2, 1 << 24, (1 << 24) + 1, 1 << 27, 1 << 32, (1 << 32) + 1, (1 << 63) - 1, 1 << 63,
           (1 << 64) - 1, 1 << 64, 10 ** 39)
STRIDES = (0, 1, -1, 65_536, (1 << 63) - 1, -(1 << 63))
OFFSETS = (0, 1, 3, 4, (1 << 64) - 1)
MOST_AXES, MOST_ELEMENTS, MOST_BYTES, LONGEST = 32, 1 << 24, 1 << 27, 1 << 32
BLOCK = b'\x00\x01\x02\x03'
WORD = 1 << 64
DESCRS = (("'|u1'", 1), ("'>i8'", 8), ("[('a','|i1'),('','|V8')]", 9),
          ("[('a','|i1'),('','|V65535')]", 65_536))


def file_of(header: bytes, length: int, version: int, rest: bytes) -> bytes:
    """A file that says a length of its header, whatever it has."""
    told = length.to_bytes(2 if version == 1 else 4, 'little')
    return MAGIC + bytes([version, 0]) + told + header + rest


def lengths_told(version: int, header: bytes) -> Iterator[int]:
    """Each length up to past the end of the file, and the ends of the range of what can be told."""
    yield from range(len(header) + 20)
    yield from ((1 << 15) - 1, 1 << 15, (1 << 16) - 1)
    yield from ((1 << 16), (1 << 31) - 1, 1 << 31, (1 << 32) - 1) if version > 1 else ()


def is_in_limits(item_size: int, shape: Sequence[int]) -> bool:
    elements = math.prod(shape)
    is_small = elements <= MOST_ELEMENTS and elements * item_size <= MOST_BYTES
    return is_small and len(shape) <= MOST_AXES and max(shape, default=0) <= LONGEST


class Headers(unittest.TestCase):
    """A length that is not the header's: the file is too short, or the header ends elsewhere."""

    def wanted(self, length: int, header: bytes, elements: bytes) -> Tuple[str, Tuple[int, ...]]:
        """The fault, or none. The newline behind the dictionary may be left out of the header."""
        if length > len(header) + len(elements):
            return 'Npy.Truncated', ()
        if length in (len(header) - 1, len(header)):
            return '', ()
        return 'Npy.BadHeader', (min(length, len(header)),)

    def files(self) -> Iterator[Tuple[int, bytes, bytes, bytes]]:
        for _, file, header_end, _ in FILES:
            header, elements = file[10:header_end], file[header_end:]
            for version in (1, 2, 3):
                for length in lengths_told(version, header):
                    yield length, header, elements, file_of(header, length, version, elements)

    def test_every_length(self) -> None:
        files = list(self.files())
        for (*words, file), (answer, told) in zip(files, told_of_files(it for *_, it in files)):
            found = (told.fault, told.numbers) if told else None
            self.assertEqual((answer, found), (b'ok\n', self.wanted(*words)), file)
        tell(f'lengths of headers: {len(files)} files')

    def test_the_longest_header_and_one_that_lacks_a_byte(self) -> None:
        _, file, header_end, elements = FILES[1]
        longest = (1 << 16) - 1
        header = file[10:header_end - 1].ljust(longest - 1) + b'\n'
        whole = file_of(header, longest, 1, file[header_end:])
        truncated = Found('Npy.Truncated', (), b'')
        told = told_of_files([whole, whole[:-1], whole[:10 + longest - 1]])
        wanted = [Found('', (), elements), truncated, truncated]
        self.assertEqual(told, [(b'ok\n', it) for it in wanted])

    @needs_numpy
    def test_numpy_reads_the_same(self) -> None:
        files = [it for *_, it in self.files()]
        for file, (_, told) in zip(files, told_of_files(files)):
            self.assertEqual(file_difference(file, told), '', file)


class Files(unittest.TestCase):
    """Files that say a shape and have no elements."""

    def shapes(self) -> Iterator[Tuple[int, ...]]:
        yield ()
        yield from itertools.product(LENGTHS, repeat=1)
        yield from itertools.product(LENGTHS, repeat=2)
        for axes in (MOST_AXES, MOST_AXES + 1, 1_000):
            yield from ((0,) * axes, (1,) * axes)
        yield from ((1 << 8,) * 3, (1 << 8, 1 << 8, 257), (2,) * 24, (2,) * 25)
        yield (0, 1 << 32, 1 << 32)

    def test_every_shape(self) -> None:
        cases = [(size, shape, self.file(descr, shape))
                 for descr, size in DESCRS for shape in self.shapes()]
        for (*words, _), (answer, told) in zip(cases, told_of_files(file for *_, file in cases)):
            found = told.fault if told else None
            self.assertEqual((answer, found), (b'ok\n', self.wanted(*words)), words)
        tell(f'shapes of files: {len(cases)} files')

    def wanted(self, item_size: int, shape: Tuple[int, ...]) -> str:
        """The fault; none where there are no elements to read."""
        if not is_in_limits(item_size, shape):
            return 'Npy.TooLarge'
        return 'Npy.Truncated' if math.prod(shape) else ''

    def file(self, descr: str, shape: Tuple[int, ...]) -> bytes:
        words = ','.join(map(str, shape)) + (',' if len(shape) == 1 else '')
        header = f"{{'descr':{descr},'fortran_order':False,'shape':({words})}}\n".encode()
        return file_of(header, len(header), 1, b'')


class Buffers(unittest.TestCase):
    """Buffers of bytes over four bytes. None lends a byte that the input has not."""

    def wanted(self, shape: Sequence[int], strides: Sequence[int], offset: int) -> str:
        """The first refusal; nothing for a value."""
        if len(shape) != len(strides):
            return 'View.AxesDiffer'
        if len(shape) > MOST_AXES:
            return 'View.TooManyAxes'
        if not is_in_limits(1, shape):
            return 'View.TooManyElements'
        ways = [(length - 1) * stride for length, stride in zip(shape, strides)]
        first = offset + sum(min(way, 0) for way in ways)
        last = offset + sum(max(way, 0) for way in ways)
        is_held = not math.prod(shape) or 0 <= first <= last < len(BLOCK)
        return '' if is_held else 'View.OutOfBlock'

    def check(self, cases: List[Case], name: str) -> None:
        told = answers_to(BUFFER, (self.words(*case) for case in cases))
        self.assertEqual(len(told), len(cases))
        for case, (answer, it) in zip(cases, told):
            found = it.fault if it else None
            self.assertEqual((answer, found), (b'ok\n', self.wanted(*case)), case)
        arrays = sum(not it.fault for _, it in told)
        tell(f'{name}: {len(cases)} buffers, {arrays} of them arrays')

    def words(self, shape: Sequence[int], strides: Sequence[int], offset: int) -> bytes:
        lists = ','.join(map(str, shape)) or '()', ','.join(map(str, strides)) or '()'
        return f'buffer B 1 {lists[0]} {lists[1]} {offset} {BLOCK.hex()}'.encode()

    def test_two_axes(self) -> None:
        """Without 2^24, since as many elements would be answered."""
        lengths = [it for it in LENGTHS if it < WORD and it != MOST_ELEMENTS]
        shapes = itertools.product(lengths, repeat=2)
        strides = list(itertools.product(STRIDES, repeat=2))
        self.check(list(itertools.product(shapes, strides, OFFSETS)), 'two axes')

    def test_many_axes(self) -> None:
        counts = (0, 1, 2, MOST_AXES, MOST_AXES + 1, 1_000)
        shapes = [(length,) * axes for length in (0, 1, 2) for axes in counts]
        strides = [(stride,) * axes for stride in (0, 1, -1) for axes in counts]
        self.check(list(itertools.product(shapes, strides, (0, 3, 4))), 'many axes')


if __name__ == '__main__':
    unittest.main()
