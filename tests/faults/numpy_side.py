"""Array: what NumPy makes of a file or of a buffer, beside what the notebook makes of it."""
from __future__ import annotations

import io
import unittest
import warnings
from dataclasses import dataclass
from typing import Any, Optional, Tuple

from broken import Found

try:
    import numpy
    from numpy.core._internal import _dtype_from_pep3118 as dtype_of_format
except ImportError:
    numpy = None

needs_numpy = unittest.skipUnless(numpy, 'NumPy is not installed: apt-get install python3-numpy')
# A file that NumPy reads may have these faults: docs/SCRIPT.md says what is smaller than NumPy's.
SMALLER_FILES = ('Npy.BadHeader', 'Npy.BadKeys', 'Npy.BadDescr', 'Npy.TooLarge')


@dataclass(frozen=True)
class Array:
    """Fields have a name, a kind and an offset. Where there are none, the name of one is empty."""
    fields: Tuple[Tuple[str, str, int], ...]
    item_size: int
    shape: Tuple[int, ...]
    elements: bytes


def fields_of(dtype: Any) -> Tuple[Tuple[str, str, int], ...]:
    if dtype.names is None:
        return (('', str(dtype), 0),)
    return tuple((name, str(dtype.fields[name][0]), dtype.fields[name][1]) for name in dtype.names)


def put(to: Any, part: Any) -> None:
    """Copies elements. A Boolean is 1 where its byte is not 0."""
    to[...] = part.view(numpy.uint8) != 0 if part.dtype.kind == 'b' else part


def array_of(array: Any) -> Array:
    """Elements in C order, with pad bytes of 0."""
    plain = numpy.zeros(array.shape, array.dtype)
    if array.dtype.names is None:
        put(plain, array)
    for name in array.dtype.names or ():
        put(plain[name], array[name])
    return Array(fields_of(array.dtype), array.dtype.itemsize, array.shape, plain.tobytes())


def array_of_file(file: bytes) -> Optional[Array]:
    """Nothing where NumPy refuses the file."""
    with warnings.catch_warnings():
        warnings.simplefilter('ignore')
        try:
            return array_of(numpy.lib.format.read_array(io.BytesIO(file), allow_pickle=False))
        except Exception:   # A malformed header comes to errors of many kinds.
            return None


def dtype_of(text: str, item_size: int) -> Any:
    """The type of a format. Nothing where NumPy refuses it, has objects, or needs more bytes."""
    try:
        dtype = dtype_of_format(text)
    except Exception:       # A malformed format comes to errors of many kinds.
        return None
    if dtype.hasobject or (dtype.names is None and dtype.itemsize != item_size):
        return None
    if dtype.names is None:
        return dtype
    fields = [dtype.fields[name] for name in dtype.names]
    parts = {'names': dtype.names, 'formats': [it[0] for it in fields],
             'offsets': [it[1] for it in fields], 'itemsize': item_size}
    try:
        return numpy.dtype(parts)
    except ValueError:
        return None


def array_of_item(text: str, item: bytes) -> Optional[Array]:
    """An array of one item, which has a format."""
    dtype = dtype_of(text, len(item))
    return array_of(numpy.frombuffer(item, dtype)) if dtype is not None else None


def array_told(told: Found) -> Optional[Array]:
    """The array of an answer, whose format NumPy reads."""
    text, size, shape = told.layout.rsplit(' ', 2)
    dtype = dtype_of(text, int(size))
    lengths = tuple(map(int, shape.split(','))) if shape != '()' else ()
    return Array(fields_of(dtype), int(size), lengths, told.elements) if dtype is not None else None


def file_difference(file: bytes, told: Found) -> str:
    """What NumPy reads otherwise; nothing where the notebook reads the same, or takes less."""
    array = array_of_file(file)
    if not told.fault:
        return '' if array == array_told(told) else f'NumPy reads {array}, and not {told}'
    may_refuse = array is None or told.fault in SMALLER_FILES
    return '' if may_refuse else f'{told.fault}, and NumPy reads {array}'


def format_difference(text: bytes, item: bytes, told: Found) -> str:
    array = array_of_item(text.decode(), item)
    if not told.fault:
        return '' if array == array_told(told) else f'NumPy reads {array}, and not {told}'
    is_too_large = told.fault in ('Format.LargerThanItem', 'Format.BadItemSize')
    return f'{told.fault}, and NumPy reads {array}' if is_too_large and array else ''
