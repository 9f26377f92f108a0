"""Small pictures of values, however large these are. A picture is drawn of samples that the program has taken."""
from __future__ import annotations

import base64
import math
import struct
import zlib
from html import escape
from typing import Any, Callable, NamedTuple, Sequence, Union

from .engine import Notebook, Part, Refused, index_word
from .probe import Probe, behind_cell, known
from .values import Known, Type, Value, lengths

SIDE = 256              # samples along each side of an image
POINTS = 160            # along a line
WHOLE = 1 << 22         # elements of which the lowest, the highest and the count are worked out over all
ROWS = 6                # of a table
LINES = 4               # columns of a matrix that is a bundle of lines
MOST = 24               # names of a cell that are shown
AMBER = (245, 159, 0)


class Figure(NamedTuple):
    """A name, what it is, and a picture of it."""
    name: str
    kind: str           # 'int16', 'structure'
    shape: str          # '480 × 640'
    note: str           # '0 … 255'
    picture: str        # HTML; of a number or a few its text, in <code>


# What is asked of an array: an index of it, () for all of it, or an expression.
Sample = Union[tuple[Part, ...], str]


class Plan(NamedTuple):
    """How a picture of an array is made: the drawing, the samples that are drawn, what is told beside it of all its
    elements, and what the samples leave out."""
    draw: str
    drawn: tuple[Sample, ...]
    ends: tuple[str, ...] = ()
    note: str = ''

    @property
    def samples(self) -> tuple[Sample, ...]:
        return self.drawn + self.ends


def step(length: int, most: int = SIDE) -> int:
    return max(1, -(-length // most))


def every(length: int, most: int = SIDE) -> slice:
    """So many of the positions along an axis that they are not more than `most`."""
    return slice(None, None, step(length, most))


def expression(name: str, sample: Sample) -> str:
    """A sample as a cell asks for it."""
    if isinstance(sample, str):
        return sample
    return f'{name}[{index_word(sample)}]' if sample else name


def plan(name: str, type_: Type, shape: tuple[int, ...]) -> Plan:
    """What is to be saved for the picture of an array."""
    axes, size = len(shape), math.prod(shape)
    if not size:
        return Plan('nothing', ())
    if not axes or axes == 1 and shape[0] <= 8 and not type_.is_structure:
        return Plan('number', ((),))
    if type_.is_structure:
        return Plan('table', ((0,) * (axes - 1) + (slice(ROWS),),))
    ends = (f'{name}.sum()',) if type_.is_mask else (f'{name}.min()', f'{name}.max()')
    ends = ends if size <= WHOLE else ()
    is_bundle = axes == 2 and 1 <= shape[1] <= LINES and shape[0] >= 4 * shape[1]
    if (axes == 1 or is_bundle) and not type_.is_mask:
        return plan_lines(name, shape, ends)
    if type_.is_mask and axes <= 2 and ends:
        return plan_mask(name, shape, is_bundle, ends)
    if axes == 1:
        return Plan('image', ((every(shape[0]),),), ends)
    if axes == 3 and shape[2] in (3, 4) and type_.kind == 'uint8':
        return Plan('colour', ((every(shape[0]), every(shape[1])),), ends)
    first = (0,) * (axes - 2)
    return Plan('image', (first + (every(shape[-2]), every(shape[-1])),), ends,
                f'of [{"0, " * len(first)}:, :]' if first else '')


def plan_lines(name: str, shape: tuple[int, ...], ends: tuple[str, ...]) -> Plan:
    """One line for each column: itself, or the lowest and the highest of parts."""
    part = step(shape[0], POINTS)
    if part == 1:
        return Plan('lines', ((),), ends)
    if not ends:
        return Plan('lines', ((every(shape[0], POINTS),),), note=f'every {part:,}th')
    whole, wide = shape[0] // part * part, ''.join(f', {length}' for length in shape[1:])
    parts = f'{name}[:{whole}].reshape(-1, {part}{wide})'
    return Plan('lines', (f'{parts}.min(axis=1)', f'{parts}.max(axis=1)'), ends)


def plan_mask(name: str, shape: tuple[int, ...], is_bundle: bool, ends: tuple[str, ...]) -> Plan:
    """The mask itself, or how many are true in each part of it."""
    rows, columns = (1,) * (2 - len(shape)) + shape
    flat = f'{name}.reshape(1, {columns})' if len(shape) == 1 else f'{name}.T' if is_bundle else name
    rows, columns = (columns, rows) if is_bundle else (rows, columns)
    tall, wide = step(rows), step(columns)
    if tall == wide == 1:
        return Plan('image', (flat if is_bundle else (),), ends)
    parts = (f'{flat}[:{rows // tall * tall}, :{columns // wide * wide}]'
             f'.reshape({rows // tall}, {tall}, {columns // wide}, {wide})')
    return Plan('shares', (f'{parts}.sum(axis=3).sum(axis=1)',), ends)


def figures(notebook: Notebook, at: int, names: Sequence[str]) -> list[Figure]:
    """The pictures of these names, as they are after cell `at`. The notebook stays as it was."""
    bound = set(notebook.names(at))
    wanted = [name for name in names if name in bound]
    if not wanted:
        return []
    made, probe = [], behind_cell(notebook, at)
    found = known(probe, wanted[:MOST])
    plans = {name: plan(name, what.type, what.shape) for name, what in found.items() if what.is_array}
    had = samples(probe, plans)
    for name, what in found.items():
        if what.is_array:
            own = [had[name, at] for at in range(len(plans[name].samples)) if (name, at) in had]
            made.append(of_array(name, what, plans[name], own))
        else:
            made.append(of_number(name, what, probe.value(name).tolist() if what.kind == 'row' else what.number))
    if len(wanted) > MOST:
        made.append(Figure(f'and {len(wanted) - MOST:,} more names', '', '', '', ''))
    return made


def samples(probe: Probe, plans: dict[str, Plan]) -> dict[tuple[str, int], Value]:
    """The samples of names that could be had, by their places in the plans: parts of arrays by their indexes, where the
    program has the word, and all others by a cell that saves them and is tried."""
    had: dict[tuple[str, int], Value] = {}
    saved: list[tuple[str, int]] = []
    lines = []
    for name, plan_ in plans.items():
        for at, sample in enumerate(plan_.samples):
            if isinstance(sample, str) or 'part' not in probe.notebook.words:
                lines.append(f"np.save('{len(saved)}', {expression(name, sample)})")
                saved.append((name, at))
                continue
            try:
                had[name, at] = probe.part(name, sample) if sample else probe.value(name)
            except Refused:                     # for want of memory
                pass
    given = probe.run(lines).files if lines else {}
    had.update((saved[int(file)], Value.of_npy(data)) for file, data in given.items())
    return had


def of_number(name: str, what: Known, number: Any) -> Figure:
    text = str(bool(number)) if what.kind_name == 'bool' else str(number)
    kind = 'Python ' + what.kind if what.type is None else what.kind_name
    return Figure(name, kind, '', '', f'<code>{escape(text)}</code>')


def of_array(name: str, what: Known, plan_: Plan, samples: list[Value]) -> Figure:
    """The figure of an array, as far as its samples could be had."""
    note, picture, ends, size = plan_.note, '', [], math.prod(what.shape)
    if len(samples) == len(plan_.samples) and samples:
        drawn = len(plan_.drawn)
        ends = [end.elements()[0] for end in samples[drawn:]]
        picture = DRAWINGS[plan_.draw](samples[:drawn], what.shape)
    if len(ends) == 2:
        note = f'{ends[0]:,} … {ends[1]:,}' + (f', {note}' if note else '')
    elif ends:
        note = f'{ends[0]:,} of {size:,} true' + (f', {note}' if note else '')
    return Figure(name, what.type.kind, lengths(what.shape) or 'no axes', note if size else 'empty', picture)


# Drawings.

def word(number: int, kind: str) -> str:
    return str(bool(number)) if kind == 'bool' else str(number)


def draw_number(samples: list[Value], _shape: Sequence[int]) -> str:
    sample = samples[0]
    numbers = sample.rows() if sample.type.is_structure else sample.elements()
    texts = [word(number, sample.type.kind) for number in numbers]
    return f'<code>{escape("[" + "  ".join(texts) + "]" if sample.shape else texts[0])}</code>'


def draw_table(samples: list[Value], shape: Sequence[int]) -> str:
    sample = samples[0]
    head = ''.join(f'<th>{escape(field.name)}<small>{field.kind}</small></th>' for field in sample.type.fields)
    columns = [[word(number, field.kind) for number in sample.elements(field)] for field in sample.type.fields]
    rows = ''.join('<tr>' + ''.join(f'<td>{text}</td>' for text in row) + '</tr>' for row in zip(*columns))
    more = math.prod(shape) - len(columns[0])
    rest = f'<small>and {more:,} more</small>' if more > 0 else ''
    return f'<div class="table"><table><thead><tr>{head}</tr></thead><tbody>{rows}</tbody></table>{rest}</div>'


def chunk(name: bytes, data: bytes) -> bytes:
    return struct.pack('>I', len(data)) + name + data + struct.pack('>I', zlib.crc32(name + data))


def png(width: int, height: int, samples: bytes, colour: int, extra: bytes = b'') -> bytes:
    """A PNG file of bytes, one behind another: grey (0), colour (2, 6) or in a palette (3)."""
    wide = len(samples) // height
    lines = b''.join(b'\0' + samples[row * wide:(row + 1) * wide] for row in range(height))
    head = struct.pack('>IIBBBBB', width, height, 8, colour, 0, 0, 0)
    return (b'\x89PNG\r\n\x1a\n' + chunk(b'IHDR', head) + extra + chunk(b'IDAT', zlib.compress(lines, 6))
            + chunk(b'IEND', b''))


def shown(file: bytes, width: int, height: int, name: str) -> str:
    """An image that is scaled up by a whole number, or lies in its own size."""
    scale = max(1, min(24, 240 // max(width, height)))
    tall = height * (scale if height > LINES or height * 4 > width else max(scale, 48 // height))
    data = base64.b64encode(file).decode()
    return f'<img class="{name}" alt="" width="{width * scale}" height="{tall}" src="data:image/png;base64,{data}">'


def draw_image(samples: list[Value], _shape: Sequence[int]) -> str:
    sample = samples[0]
    height, width = (1,) * (2 - len(sample.shape)) + sample.shape
    if sample.type.is_mask:
        return mask(width, height, bytes(255 * bool(byte) for byte in sample.data))
    numbers = sample.elements()
    low, high = min(numbers), max(numbers)
    if sample.type.kind == 'uint8' and high > 127:
        return shown(png(width, height, sample.data, 0), width, height, 'grey')
    wide = max(1, high - low)
    return shown(png(width, height, bytes((n - low) * 255 // wide for n in numbers), 0), width, height, 'grey')


def mask(width: int, height: int, shares: bytes) -> str:
    """Amber, as dense as the share of true elements; a single one can still be seen."""
    palette = chunk(b'PLTE', bytes(AMBER * 256)) + chunk(b'tRNS', bytes(n and 130 + n * 125 // 255 for n in range(256)))
    return shown(png(width, height, shares, 3, palette), width, height, 'mask')


def draw_shares(samples: list[Value], shape: Sequence[int]) -> str:
    height, width = samples[0].shape
    most = max(1, math.prod(shape) // (width * height))
    return mask(width, height, bytes(min(255, -(-n * 255 // most)) for n in samples[0].elements()))


def draw_colour(samples: list[Value], _shape: Sequence[int]) -> str:
    height, width, parts = samples[0].shape
    return shown(png(width, height, samples[0].data, 2 if parts == 3 else 6), width, height, 'colour')


def draw_lines(samples: list[Value], _shape: Sequence[int]) -> str:
    lows, highs = samples[0], samples[-1]
    count = lows.shape[1] if len(lows.shape) == 2 else 1
    low, high = lows.elements(), highs.elements()
    least, most = min(low), max(high)
    length = len(low) // count

    def place(at: int, number: int) -> str:
        return f'{at * 236 / max(1, length - 1) + 2:.1f},{(most - number) * 56 / max(1, most - least) + 4:.1f}'
    drawn = ''
    for line in range(count):
        top = [place(at, number) for at, number in enumerate(high[line::count])]
        bottom = [place(at, number) for at, number in enumerate(low[line::count])]
        if top != bottom:
            drawn += f'<polygon class="l{line}" points="{" ".join(top + bottom[::-1])}"/>'
        drawn += f'<polyline class="l{line}" points="{" ".join(top)}"/>'
    return f'<svg class="lines" width="240" height="64" viewBox="0 0 240 64" aria-hidden="true">{drawn}</svg>'


DRAWINGS: dict[str, Callable[[list[Value], Sequence[int]], str]] = {
    'number': draw_number, 'table': draw_table, 'image': draw_image, 'colour': draw_colour, 'lines': draw_lines,
    'shares': draw_shares}
