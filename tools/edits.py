"""edits: the notebooks that `tools/bench edits` measures: an edit of one cell of many, beside inserting all of them."""
from __future__ import annotations

import time
from collections.abc import Callable, Iterator
from dataclasses import dataclass

from driver import Program

IMAGES = 50
LARGE = 1 << 24
READERS, SUMS = 50, 50
MOST_CELLS = 10_000
# Edits of the middle cell of which the mean and the most are told.
MANY = 20
# Edits of cells all over a notebook, of which as many are made as take these seconds: more than a snapshot lets wait.
SPREAD, SPREAD_SECONDS = 100, 3


@dataclass
class Shape:
    """A notebook: its cells, the text of cell k with another value v, and the elements of its input with one. Where
    `is_fixed`, it has a size of its own, whatever count of cells is asked for."""

    name: str
    cells: list[str]
    other: Callable[[int, int], str]
    input: Callable[[int], list[int]] | None = None
    is_fixed: bool = False


def shapes(count: int) -> Iterator[Shape]:
    """The notebooks of `count` cells, and those that have a size of their own."""
    def source(v: int) -> str:
        return f"v0 = np.arange(4) + {v}"

    rest = range(1, count)
    yield Shape("chain", ["v0 = np.arange(4)", *(f"v{k} = v{k - 1} + 1" for k in rest)],
                lambda k, v: f"v{k} = v{k - 1} + {v}" if k else source(v))
    yield Shape("star", ["v0 = np.arange(4)", *(f"v{k} = v0 + {k}" for k in rest)],
                lambda k, v: f"v{k} = v0 + {v}" if k else source(v))
    yield Shape("independent", [f"v{k} = np.arange(4)" for k in range(count)],
                lambda k, v: f"v{k} = np.arange(4) + {v}")
    zeros = f"a = np.zeros({count}, dtype='int64')"
    yield Shape("in place",
                [f"{zeros}\nb = a[:]", *(f"a[{k}] = {k}" if k % 2 else f"b[{k}] += {k}" for k in rest)],
                lambda k, v: f"a[{k}] = {v + count}" if k else f"{zeros} + {v}\nb = a[:]")
    yield Shape("rebound", ["t = np.arange(4)", *(["t = t + 1"] * (count - 1))],
                lambda k, v: f"t = t + {v}" if k else f"t = np.arange(4) + {v}")
    yield Shape("prints", [f"print({k})" for k in range(count)], lambda k, v: f"print({k + v})")
    yield Shape("images", [image_cell(k, 1) for k in range(max(count, 2 * IMAGES))], image_cell)
    yield Shape("large", [f"x = np.arange({LARGE})", *(f"y{k} = x[{k}]" for k in range(READERS))],
                lambda k, v: f"y{k - 1} = x[{k + v}]" if k else f"x = np.arange({LARGE}) + {v}", is_fixed=True)
    yield Shape("large sums", [f"x = np.arange({LARGE})", *(f"s{k} = x.sum() + {k}" for k in range(SUMS))],
                lambda k, v: f"s{k - 1} = x.sum() + {k + v}" if k else f"x = np.arange({LARGE}) + {v}", is_fixed=True)
    yield Shape("many names", [cell_of_names(k, 0) for k in range(10)], cell_of_names, is_fixed=True)
    yield Shape("input", ["d = np.load('d')" if k == 50 else f"v{k} = np.arange(4) + {k}" for k in range(100)],
                lambda k, v: f"d = np.load('d') + {v}" if k == 50 else f"v{k} = np.arange(4) + {v}",
                lambda v: [v, v + 1, v + 2], is_fixed=True)


def image_cell(k: int, v: int) -> str:
    """A cell of an image pipeline: the images, a view of each, and steps that write through views and read others."""
    image, other = k % IMAGES, (k * 7 + 3) % IMAGES
    if k < IMAGES:
        return f"i{image} = np.zeros((16, 16), dtype='int64') + {v}"
    if k < 2 * IMAGES:
        return f"w{image} = i{image}[{v % 4}:15, 1:15]"
    steps = (f"w{image}[{k % 8}] += {v}", f"w{image}[:, {k % 8}] = i{other}[{k % 8}, 0] + {v}",
             f"s{k} = w{image}.sum() + {v}", f"i{image}[0] = i{other}[1] * {v}")
    return steps[k // IMAGES % len(steps)]


def cell_of_names(k: int, v: int) -> str:
    """A cell that binds 800 arrays."""
    return "\n".join(f"n{k}_{i} = np.arange({i % 50 + 3}) + {i + v}" for i in range(800))


def npy(numbers: list[int]) -> bytes:
    """An NPY file of version 1.0 of numbers of eight bytes."""
    header = f"{{'descr': '<i8', 'fortran_order': False, 'shape': ({len(numbers)},), }}"
    header = header.ljust(117) + "\n"
    return b"\x93NUMPY\x01\x00" + len(header).to_bytes(2, "little") + header.encode() + b"".join(
        it.to_bytes(8, "little", signed=True) for it in numbers)


@dataclass
class Cost:
    """What a kind of edit took: processor seconds, the least, the mean and the most of its turns."""

    what: str
    seconds: float
    mean: float
    most: float


@dataclass
class Costs:
    """A notebook's cells, the seconds of inserting them, the bytes of each, the edits, and the most bytes at a time."""

    shape: str
    cells: int
    whole: float
    bytes_each: int
    edits: list[Cost]
    peak: int


def measure(path: str, shape: Shape, turns: int) -> Costs:
    """Inserts the cells of a notebook, and edits the last, the middle and the first of them in several ways."""
    program, cells, count = Program(path), shape.cells, len(shape.cells)

    def set_input(v: int) -> float:
        seconds, answer = program.command(f"input d npy {npy(shape.input(v)).hex()}\n")
        return checked(seconds, answer)

    def checked(seconds: float, answer: str) -> float:
        if answer != "ok":
            raise ValueError(f"{shape.name}: an edit is answered {answer}")
        return seconds

    def cost(what: str, call: Callable[[int], float], count: int = turns) -> Cost:
        values = [call(turn) for turn in range(count)]
        return Cost(what, min(values), sum(values) / count, max(values))

    def edited(k: int, text: str) -> float:
        """Seconds of an edit, behind which the cell is put back."""
        seconds = checked(*program.edit(k, text))
        checked(*program.edit(k, cells[k]))
        return seconds

    def changed(k: int, turn: int) -> float:
        """Seconds of another value, of which each turn gives one that was not there before."""
        return checked(*program.edit(k, shape.other(k, 5 + turn)))

    def spread() -> Cost:
        """Seconds of other values in cells all over the notebook, but for its first tenth."""
        values, front, begun = [], count // 10, time.monotonic()
        while len(values) < SPREAD and (len(values) < 2 or time.monotonic() - begun < SPREAD_SECONDS):
            values.append(changed(front + (len(values) * 6_007 + 13) % (count - front), len(values)))
        return Cost("other values all over", min(values), sum(values) / len(values), max(values))

    def removed(k: int) -> float:
        seconds = checked(*program.remove(k))
        checked(*program.insert(k, cells[k]))
        return seconds

    def moved(k: int, to: int) -> float:
        seconds = checked(*program.move(k, to))
        checked(*program.move(to, k))
        return seconds

    def inserted(k: int, text: str) -> float:
        """Seconds of an insertion. A notebook that is full gives up its last cell meanwhile."""
        is_full = count == MOST_CELLS
        if is_full:
            checked(*program.remove(count - 1))
        seconds = checked(*program.insert(k, text))
        checked(*program.remove(k))
        if is_full:
            checked(*program.insert(count - 1, cells[count - 1]))
        return seconds

    try:
        if shape.input:
            set_input(0)
        alone = program.memory()[0]
        whole = program.load(cells)
        each = (program.memory()[0] - alone) // count
        edits = []
        for place, k, many in (("last", count - 1, MANY), ("middle", count // 2, MANY), ("first", 0, turns)):
            edits.append(cost(f"another value in the {place} cell", lambda turn: changed(k, turn), many))
            checked(*program.edit(k, cells[k]))
            edits.append(cost(f"blanks in the {place} cell", lambda turn: edited(k, cells[k] + " " * (turn + 1))))
            edits.append(cost(f"the {place} cell is removed", lambda turn: removed(k)))
        edits.append(spread())
        edits.append(cost("the middle cell moves one place down", lambda turn: moved(count // 2, count // 2 + 1)))
        edits.append(cost("the last cell moves to place 1", lambda turn: moved(count - 1, 1)))
        edits.append(cost("a new name in the middle", lambda turn: inserted(count // 2, f"zz{turn} = np.arange(3)")))
        if shape.input:
            edits.append(cost("the input is replaced", lambda turn: set_input(turn + 1)))
        return Costs(shape.name, count, whole, each, edits, program.memory()[1])
    finally:
        program.close()
