"""No crate makes an error of the allocator by itself: want of memory is only what the library was refused."""
from __future__ import annotations

import re
import unittest
from pathlib import Path
from typing import Iterator, NamedTuple

CRATES = Path(__file__).resolve().parents[1] / 'crates'

# Blocks of 2^63 bytes or more, which no allocator gives, are refused without asking one.
MADE = {'nd_block/src/block.rt': 1, 'nd_block/src/filling.rt': 1}
# The kind of an error that a file gave is compared with want of memory; none is made.
COMPARED = {'nd_desk/src/carry.rt': 1}

# What a word is no value in: an import, a type, a call of `from`, and an arm that takes an error apart.
NO_VALUE = (
    re.compile(r'^\s*(?:pub\s+)?(?:ghost\s+)?use\b.*'),
    re.compile(r'(?:->|(?<!:):)\s+(?:AllocError|AllocFailed)\b'),
    re.compile(r'\bFrom<(?:AllocError|AllocFailed<\w+>)>'),
    re.compile(r'\bAllocError::from\b'),
    re.compile(r'\bimpl\b[^{]*\bfor AllocError\b'),
    re.compile(r',\s*(?:std::alloc::)?AllocError\s*>'),
    re.compile(r'\bErr\((?:AllocError|(?:io::)?ErrorKind::OutOfMemory)\)\s*=>'),
    re.compile(r'\b(?:io::)?ErrorKind::OutOfMemory\s*=>'),
)
# Under another name an error would be passed over.
RENAMED = re.compile(r'\b(?:AllocError|AllocFailed|OutOfMemory)\s+as\b')
VALUE = re.compile(r'\bAllocError\b|\bAllocFailed\b|\bErrorKind::OutOfMemory\b|\bFromHexError::OutOfMemory\b')


class Place(NamedTuple):
    """A line that makes an error of the allocator."""
    file: str
    line: int
    text: str


def code_of(line: str) -> str:
    """A line without its comment, and without what makes no value."""
    code = line.split('//', 1)[0]
    for form in NO_VALUE:
        code = form.sub(' ', code)
    return code


def places_in(file: str, text: str) -> Iterator[Place]:
    """The lines of a file that make an error of the allocator."""
    for number, line in enumerate(text.splitlines(), 1):
        if VALUE.search(code_of(line)) or RENAMED.search(line.split('//', 1)[0]):
            yield Place(file, number, line.strip())


def sources() -> Iterator[Path]:
    """All files of code."""
    yield from sorted(CRATES.glob('*/src/**/*.rt'))


class OutOfMemory(unittest.TestCase):
    def test_no_crate_makes_an_error_of_the_allocator(self) -> None:
        found: dict[str, list[Place]] = {}
        for path in sources():
            file = str(path.relative_to(CRATES))
            for place in places_in(file, path.read_text()):
                found.setdefault(file, []).append(place)
        counts = {file: len(places) for file, places in found.items()}
        self.assertEqual(counts, {**MADE, **COMPARED}, found)

    def test_each_form_of_a_made_error_is_found(self) -> None:
        for line in ('return Err(AllocError);', 'Err(_) => Err(AllocError),', 'let e = AllocError;', 'Err(AllocError.into())',
                     'Err(std::alloc::AllocError)', 'drop(AllocFailed { value });', 'Err(io::ErrorKind::OutOfMemory.into())',
                     'Err(FromHexError::OutOfMemory)', 'use std::alloc::{AllocError as Refused, Global};'):
            with self.subTest(line):
                self.assertEqual(len(list(places_in('made', line))), 1)

    def test_errors_that_are_handed_on_are_none(self) -> None:
        for line in ('use std::alloc::{AllocError, Global};', 'fn f(alloc: Global) -> Result<(), AllocError>',
                     ') -> Result<Result<Vec<Line>, ParseFault>, AllocError>', 'impl From<AllocError> for Stop {',
                     'impl<T: Drop> From<AllocFailed<T>> for Stop {', 'fn from(refused: AllocError) -> Stop {',
                     'fn from(failed: AllocFailed<T>) -> Stop {', 'Err(AllocError) => push_text(out),',
                     'Err(memory) => Err(AllocError::from(memory).into()),', 'impl From<OutOfMemory> for AllocError {',
                     'fn from(memory: OutOfMemory) -> AllocError {', 'io::ErrorKind::OutOfMemory => ProgramFault::MemoryWanted,',
                     '    refused: AllocError,', '// AllocError'):
            with self.subTest(line):
                self.assertEqual(list(places_in('handed', line)), [])


if __name__ == '__main__':
    unittest.main()
