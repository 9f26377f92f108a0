"""Every front and every changed byte of files and formats: a value, or a named fault."""
from __future__ import annotations

import functools
import subprocess
import unittest
from collections import Counter
from typing import Iterable, List, Optional, Tuple

from setting import program, tell
from broken import (Found, changed, file_fault, format_fault, found, front_fault, is_word,
                    named_faults)
from commands import answers_of, commands_of
from notebook import FOLDER
from numpy_side import file_difference, format_difference, needs_numpy

Told = List[Tuple[bytes, Optional[Found]]]      # answers to inputs, and what their cell finds

SETTING = commands_of((FOLDER / 'file_in_fortran_order.ndn').read_bytes())[0]
FILE = bytes.fromhex(SETTING.decode().split()[-1])
HEADER = 10 + int.from_bytes(FILE[8:10], 'little')
FIELDS = (b"{'descr':[('a','|i1'),('','|V1'),('b','<i2'),('c','|b1')],"
          b"'fortran_order':False,'shape':(2,)}\n")
RECORDS = bytes([1, 0, 2, 3, 1, 4, 0, 5, 6, 0])
STRUCTURES = b'\x93NUMPY\x01\x00' + len(FIELDS).to_bytes(2, 'little') + FIELDS + RECORDS
FILES = (('in Fortran order', FILE, HEADER, bytes([0, 2, 4, 1, 3, 5])),
         ('of structures', STRUCTURES, 10 + len(FIELDS), RECORDS))
FORMATS = ((b'T{b:a:<i:b:}', b'\x00\x09\x00\x00\x00'),
           (b'T{@?:ok:h:n:3x>q:t:}', b'\x01\x00\x09' + bytes(11) + b'\x07\x00'))
LOAD, BUFFER = b"x = np.load('f')", b"x = buffer('f')"
NAMED = named_faults()


def answers_to(cell: bytes, inputs: Iterable[bytes]) -> Told:
    """What each input is answered in turn, and what the cell that loads it finds."""
    lines = [b'insert 0', cell, b'.']
    for words in inputs:
        lines += [b'input f ' + words, b'show 0', b'value 0 x']
    script = b'\n'.join(lines) + b'\n'
    ran = subprocess.run([program()], input=script, capture_output=True, check=True, timeout=240)
    opened, *answers = answers_of(ran.stdout)
    assert opened == b'ok\n'
    return [(answers[at], found(answers[at + 1], answers[at + 2], NAMED))
            for at in range(0, len(answers), 3)]


def told_of_files(files: Iterable[bytes]) -> Told:
    return answers_to(LOAD, (b'npy ' + (file.hex() or '-').encode() for file in files))


def told_of_formats(texts: Iterable[bytes], item: bytes) -> Told:
    shape = b'%d 1 %d 0 %s' % (len(item), len(item), item.hex().encode())
    return answers_to(BUFFER, (b'buffer %s %s' % (text, shape) for text in texts))


def fronts(whole: bytes, least: int = 0) -> List[bytes]:
    return [whole[:length] for length in range(least, len(whole) + 1)]


@functools.lru_cache(maxsize=None)
def changed_files(file: bytes) -> List[Tuple[int, bytes, bytes, Optional[Found]]]:
    """Each changed byte's offset, the file, and what it is answered."""
    files = list(changed(file))
    told = told_of_files(it for _, it in files)
    assert len(told) == len(files)
    return [(at, it, *answers) for (at, it), answers in zip(files, told)]


@functools.lru_cache(maxsize=None)
def changed_formats(text: bytes, item: bytes) -> List[Tuple[bytes, bytes, Optional[Found]]]:
    """A newline would end the line of the format, so there is none."""
    texts = [it for _, it in changed(text) if b'\n' not in it]
    told = told_of_formats(texts, item)
    assert len(told) == len(texts)
    return [(it, *answers) for it, answers in zip(texts, told)]


def summary(found_ones: Iterable[Optional[Found]]) -> str:
    counts = Counter(it.fault or 'a value' for it in found_ones if it)
    return ', '.join(f'{count} {name}' for name, count in sorted(counts.items()))


class Files(unittest.TestCase):
    def test_every_front(self) -> None:
        for name, file, header, elements in FILES:
            told = told_of_files(fronts(file))
            self.assertEqual(told[-1], (b'ok\n', Found('', (), elements)))
            for length, (answer, it) in enumerate(told[:-1]):
                self.assertEqual((answer, front_fault(length, header, it)), (b'ok\n', ''), length)
            counts = summary(it for _, it in told)
            tell(f'every front of a file {name}: {len(told)} files: {counts}')

    def test_every_changed_byte(self) -> None:
        for name, file, header, _ in FILES:
            told = changed_files(file)
            for at, other, answer, it in told:
                wrong = file_fault(at, other, header, it)
                self.assertEqual((answer, wrong), (b'ok\n', ''), (at, other, it))
            counts = summary(it for *_, it in told)
            tell(f'every changed byte of a file {name}: {len(told)} files: {counts}')

    @needs_numpy
    def test_numpy_reads_the_same_of_every_changed_byte(self) -> None:
        for name, file, _, _ in FILES:
            told = [(it, what) for _, it, _, what in changed_files(file) if what]
            for other, what in told:
                self.assertEqual(file_difference(other, what), '', other)
            values = sum(not what.fault for _, what in told)
            tell(f'NumPy reads the same files {name}: {values} of {len(told)}')


class Formats(unittest.TestCase):
    def judge(self, told: List[Tuple[bytes, bytes, Optional[Found]]], name: str) -> None:
        right = [it for text, _, it in told if is_word(text)]
        for text, answer, it in told:
            self.assertEqual(answer, b'ok\n' if is_word(text) else b'bad command\n', text)
            self.assertFalse(is_word(text) and format_fault(text, it), (text, it))
        others = len(told) - len(right)
        tell(f'{name}: {len(told)} formats, {others} are no word: {summary(right)}')

    def test_every_front(self) -> None:
        for text, item in FORMATS:
            told = told_of_formats(fronts(text, 1), item)
            self.assertEqual(told[-1], (b'ok\n', Found('', (), item)))
            self.judge([(front, *it) for front, it in zip(fronts(text, 1), told)],
                       f'every front of {text.decode()}')

    def test_every_changed_byte(self) -> None:
        for text, item in FORMATS:
            self.judge(changed_formats(text, item), f'every changed byte of {text.decode()}')

    @needs_numpy
    def test_numpy_reads_the_same_of_every_changed_byte(self) -> None:
        for text, item in FORMATS:
            told = [(it, what) for it, _, what in changed_formats(text, item)
                    if is_word(it) and what]
            for other, what in told:
                self.assertEqual(format_difference(other, item, what), '', other)
            values = sum(not what.fault for _, what in told)
            tell(f'NumPy reads the same formats of {text.decode()}: {values} of {len(told)}')


if __name__ == '__main__':
    unittest.main()
