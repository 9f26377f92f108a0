"""What is wrong with the answers about an input of which a byte was changed, or the end cut off."""
from __future__ import annotations

import math
import re
from dataclasses import dataclass, field
from pathlib import Path
from typing import Dict, Iterator, Optional, Tuple

from setting import TOP

NAMED = re.compile(r'(?m)^\| `((Npy|Format|View)\.\w+)([A-Z ]*)` \|')
SHOWN = re.compile(rb'text 0\n(?:ok|refused 1 (\S+)((?: \d+)*))\nend\n\Z')
VALUE = re.compile(rb'array ((.+) (\d+) (\S+)) ((?:[0-9a-f]{2})+|-)\n\Z')
UNBOUND = b'refused NoName x\n'


@dataclass(frozen=True)
class Found:
    """What the cell that loads an input was answered: a fault with its numbers, or the elements of its array."""
    fault: str
    numbers: Tuple[int, ...]
    elements: bytes
    layout: str = field(default='', compare=False)      # format, size of an item, shape


def named_faults(page: Path = TOP / 'docs' / 'SCRIPT.md') -> Dict[str, int]:
    """The faults of files, formats and views that the documents name, with how many numbers each has."""
    return {name: len(words.split()) for name, _, words in NAMED.findall(page.read_text(encoding='utf-8'))}


def array_found(value: bytes) -> Optional[Found]:
    """The array of an answer; None where it has other than as many elements as its shape says."""
    array = VALUE.match(value)
    if not array:
        return None
    layout, _, size, shape, digits = (it.decode() for it in array.groups())
    lengths = map(int, shape.split(',')) if shape != '()' else ()
    elements = b'' if digits == '-' else bytes.fromhex(digits)
    is_whole = len(elements) == int(size) * math.prod(lengths)
    return Found('', (), elements, layout) if is_whole else None


def found(shown: bytes, value: bytes, named: Dict[str, int]) -> Optional[Found]:
    """A value or a named fault; None where it is neither."""
    told = SHOWN.match(shown)
    if not told:
        return None
    if told.group(1):
        fault, numbers = told.group(1).decode(), tuple(map(int, told.group(2).split()))
        is_named = named.get(fault) == len(numbers) and value == UNBOUND
        return Found(fault, numbers, b'') if is_named else None
    return array_found(value)


def changed(data: bytes) -> Iterator[Tuple[int, bytes]]:
    """Each text in which one byte is another, with the byte's offset."""
    for at, old in enumerate(data):
        for byte in range(256):
            if byte != old:
                yield at, data[:at] + bytes([byte]) + data[at + 1:]


def has_fields(told: Found) -> bool:
    return told.layout.startswith('T{')


def file_fault(at: int, file: bytes, header: int, told: Optional[Found]) -> str:
    """What is wrong with what a file was found to be, whose byte at `at` was changed. Its header ends at `header`."""
    if told is None:
        return 'no value and no named fault'
    if at < 6 and told.fault != 'Npy.BadMagic':
        return 'the first six bytes were changed'
    if at in (6, 7) and told.fault in ('', 'Npy.BadMagic'):
        return 'the version was changed'
    length = int.from_bytes(file[8:10], 'little')
    if at in (8, 9) and length > len(file) - 10 and told.fault != 'Npy.Truncated':
        return 'the header is longer than the file'
    if told.fault == 'Npy.BadHeader' and at >= 10 and not at - 10 <= told.numbers[0] <= header - 10:
        return 'the header is right up to the changed byte'
    if told.fault:
        return 'a byte of an element was changed' if at >= header else ''
    if at >= header and not has_fields(told) and sorted(told.elements) != sorted(file[header:]):
        return 'other elements than those of the file'
    # The newline that ends the header may be left out of it, and is then an element. Booleans are 0 and 1.
    if not set(told.elements) <= set(file[header - 1:]) | {0, 1}:
        return 'elements that are not in the file'
    return ''


def front_fault(length: int, header: int, told: Optional[Found]) -> str:
    """What is wrong with what a file was found to be, of which only the first bytes are there."""
    wanted = 'Npy.BadMagic' if length < 6 else 'Npy.Truncated'
    return '' if told and told.fault == wanted else f'the first {length} bytes alone are {wanted}'


def format_fault(text: bytes, told: Optional[Found]) -> str:
    if told is None:
        return 'no value and no named fault'
    if any(number > len(text) for number in told.numbers):
        return 'the fault stands behind the format'
    return ''


def is_word(text: bytes) -> bool:
    """Whether a line may have this text as a word."""
    try:
        return ' ' not in text.decode('utf-8') and bool(text)
    except UnicodeDecodeError:
        return False
