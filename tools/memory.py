"""memory: the scripts that `tools/bench memory` measures: the most memory that notebooks take, each within a bound."""
from __future__ import annotations

import dataclasses
import resource
import tempfile
import threading
from collections.abc import Callable, Iterator
from dataclasses import dataclass
from pathlib import Path

from driver import Program

MB = 1_000_000
LARGE = 1 << 24
READERS = 50
# What a case may take where it says nothing else.
BOUND = 2_000 * MB
# A case that takes longer by the clock is ended, so that it holds up no report.
MOST_SECONDS = 120


@dataclass
class Case:
    """A notebook that is set up, and what is done to it then; `size` has the bytes of the arrays that it binds."""

    name: str
    cells: list[str]
    then: Callable[[Program], None] = lambda program: None
    size: int = 0
    bound: int = BOUND
    words: tuple[str, ...] = ()


@dataclass
class Peak:
    """A case: processor seconds, the most bytes at a time, and the bytes of its arrays. With `is_late` it was ended
    after `MOST_SECONDS`, and the peak is that until then. With `is_more` it passed the
    bound that `peak` has, and was ended."""

    case: str
    seconds: float
    peak: int
    size: int = 0
    is_more: bool = False
    is_late: bool = False

    @property
    def ratio(self) -> float | None:
        return self.peak / self.size if self.size and not self.is_more else None


class TooMuch(Exception):
    """An edit was refused for want of memory."""


def must(answer: tuple[float, str]) -> None:
    if answer[1] == "refused OutOfMemory":
        raise TooMuch
    if answer[1] != "ok":
        raise ValueError(f"an edit is answered {answer[1]}")


def must_show(program: Program, at: int, end: str) -> None:
    """The cell's last line but one is `ok`, or the refusal that is wanted."""
    found = program.show(at)[-2]
    if found != end:
        raise ValueError(f"cell {at} is answered {found}, and not {end}")


def edited(at: int, text: str) -> Callable[[Program], None]:
    return lambda program: must(program.edit(at, text))


def shown(at: int, end: str) -> Callable[[Program], None]:
    return lambda program: must_show(program, at, end)


def asked(line: str) -> Callable[[Program], None]:
    """A question whose answer is one line."""
    return lambda program: program.skip_line(line)


def many_edits(at: int, texts: list[str]) -> Callable[[Program], None]:
    def run(program: Program) -> None:
        for text in texts:
            must(program.edit(at, text))
    return run


def writes(count: int) -> Case:
    """Cells that write one element each, from the one before, and an edit of the cell in the middle."""
    text = "x[{}] += x[{}] + {}".format
    step = 16_000
    cells = [f"x = np.arange({LARGE})", *(text(at * step, (at - 1) * step, 1) for at in range(1, count + 1))]
    half = count // 2
    return Case(f"{count:,} cells `x[i*16000] += x[(i-1)*16000] + 1`, and an edit in the middle", cells,
                edited(half, text(half * step, (half - 1) * step, 2)), LARGE * 8)


def readers(elements: int) -> Iterator[Case]:
    size = elements * 8
    make = f"x = np.arange({elements})"
    yield Case("a cell prints the array and is refused", [f"print(np.arange({elements}))"],
               shown(0, "refused 1 Stmt.TextTooLong"), size)
    yield Case("another cell uses the whole array and is refused", [make, "x[0] = x"],
               shown(1, "refused 1 Ufunc.ShapeMismatch"), size)
    yield Case(f"{READERS} cells `y = x[i]`, and an edit of the last", [make, *(f"y{at} = x[{at}]" for at in range(READERS))],
               edited(READERS, f"y{READERS - 1} = x[99]"), size)
    ends = [f"print(x[{at}], x[-{at}])" for at in range(1, 1_001)]
    yield Case("1,000 cells `print(x[i], x[-i])`", [make, *ends], size=size)
    yield Case("100 of them, and an edit of the array", [make, *ends[:100]], edited(0, make + " + 1"), size)
    chosen = [[at * at * 7_919 * cell % elements for at in range(10)] for cell in range(1, 1_001)]
    yield Case("1,000 cells `print(x[[..]])` of ten scattered elements", [make, *(f"print(x[{at}])" for at in chosen)], size=size)
    yield Case("`value` of the array", [make], asked("value x"), size)
    yield Case("`saved` of the array", [f"np.save('x', np.arange({elements}))"], asked("saved 0 x"), size)


def bytes_read(cells: int, edits: int) -> Case:
    """Cells that read a byte each of one array, which is edited so that another of these bytes is 1."""
    make = "x = np.zeros(8000000, dtype=np.uint8)"
    texts = [f"{make}\nx[{at}] = 1" for at in range(1, edits + 1)]
    return Case(f"{cells:,} cells `y = x[i]` on 8 MB, and {edits} edits of the array",
                [make, *(f"y{at} = x[{at}]" for at in range(1, cells + 1))], many_edits(0, texts), 8_000_000)


def life_in_place() -> Iterator[Case]:
    """Generations on 512 by 512 with dead edges, a cell each, that write one array and bind nothing."""
    around = " + ".join(f"g[{a}:{a + 510}, {b}:{b + 510}]" for a in range(3) for b in range(3) if (a, b) != (1, 1))
    step = f"g[1:-1, 1:-1] = ({around} | g[1:-1, 1:-1]) == 3"
    first = "k = np.arange(512 * 512).reshape(512, 512)\ng = (k * k % 7 < {}).astype('uint8')\ndel k"
    cells = [first.format(2), *[step] * 200]
    size = 512 * 512
    yield Case("life in place, 200 generations on 512 by 512, a cell each", cells, size=size)
    yield Case("the same, and an edit of the first picture", cells, edited(0, first.format(3)), size)
    yield Case("the same, and an edit of generation 100", cells, edited(100, step + "\ng[0] = 0"), size)


def life() -> Iterator[Case]:
    """Generations on a torus of 512 by 512, a cell each, that write two arrays and bind a third."""
    around = " + ".join(f"p[{a}:{a + 512}, {b}:{b + 512}]" for a in range(3) for b in range(3) if (a, b) != (1, 1))
    step = (f"p[1:-1, 1:-1] = g\np[0] = p[-2]\np[-1] = p[1]\np[:, 0] = p[:, -2]\np[:, -1] = p[:, 1]\nn = {around}\n"
            "g[:] = (n == 3) | (g & (n == 2))")
    first = ("k = np.arange(512 * 512).reshape(512, 512)\ng = k * k % 7 < {}\np = np.zeros((514, 514), dtype='uint8')")
    cells = [first.format(2), *[step] * 200]
    size = 512 * 512 * 8 + 512 * 512 + 514 * 514
    yield Case("life, 200 generations on 512 by 512, a cell each", cells, size=size)
    yield Case("the same, and an edit of the first picture", cells, edited(0, first.format(3)), size)
    yield Case("the same, and an edit of generation 100", cells, edited(100, step + "\ng[0] = False"), size)


def table() -> Case:
    fields = "[('sensor', '<u2'), ('ok', np.bool_), ('pad', np.uint8), ('count', '<i4'), ('time', '<i8'), ('sum', '<i8')]"
    make = f"t = np.zeros(1000000, dtype={fields})\nt['sensor'] = np.arange(1000000) % 50"
    fix = "t['count'][t['sensor'] == {0}] += {0} + {1}"
    cells = [make, *(fix.format(at, 1) for at in range(40))]
    return Case("a table of 24 MB, a field of which is fixed in 40 cells, and an edit of the 20th", cells,
                edited(20, fix.format(19, 2)), 24_000_000)


def cases(elements: int = LARGE) -> Iterator[Case]:
    """All cases but that of an input. Arrays of `elements` numbers of eight bytes have a text that is too long."""
    yield from readers(elements)
    for count in (10, 100, 1_000):
        yield dataclasses.replace(writes(count), bound=4_000 * MB)
    yield bytes_read(1_000, 100)
    yield Case("80 lines `y = (y + 3 // np.maximum(y, 1)) // 2` on 8 MB, in one cell",
               ["y = np.arange(1048576)\n" + "y = (y + 3 // np.maximum(y, 1)) // 2\n" * 80], size=8 << 20)
    yield from life_in_place()
    yield from life()
    yield table()
    for count in (1_000, 10_000):
        yield Case(f"{count:,} cells `v = np.arange(3)`", [f"v{at} = np.arange(3)" for at in range(count)])


def input_case(path: Path) -> Case:
    """A file of 60 MiB, of numbers of four bytes, which a cell loads."""
    size = 60 << 20
    header = f"{{'descr': '<i4', 'fortran_order': False, 'shape': ({(size - 128) // 4},), }}".ljust(117) + "\n"
    path.write_bytes(b"\x93NUMPY\x01\x00" + len(header).to_bytes(2, "little") + header.encode() + bytes(size - 128))
    return Case("an input file of 60 MiB, and a cell that loads it", ["d = np.load('d')", "print(d.sum())"],
                shown(1, "ok"), size, words=(f"d={path}",))


def run_case(path: str, case: Case) -> Peak:
    program, until_then = Program(path, *case.words), []

    def end_late() -> None:
        until_then.append(program.memory()[1])
        program.process.kill()

    timer = threading.Timer(MOST_SECONDS, end_late)
    timer.start()
    try:
        # The bound is of addresses, which a notebook has some more of than of memory.
        resource.prlimit(program.process.pid, resource.RLIMIT_AS, (case.bound, case.bound))
        before = program.clock()
        for at, text in enumerate(case.cells):
            must(program.insert(at, text))
        case.then(program)
        return Peak(case.name, program.clock() - before, program.memory()[1], case.size)
    except (TooMuch, EOFError, BrokenPipeError):
        if until_then:
            return Peak(case.name, MOST_SECONDS, until_then[0], case.size, is_late=True)
        return Peak(case.name, 0.0, case.bound, case.size, is_more=True)
    finally:
        timer.cancel()
        program.end()


def least(path: str, case: Case, turns: int) -> Peak:
    """The least time and the least peak of some runs; one where the first takes over five seconds."""
    found = [run_case(path, case)]
    while len(found) < turns and not found[0].is_more and found[0].seconds < 5:
        found.append(run_case(path, case))
    return dataclasses.replace(min(found, key=lambda it: it.peak), seconds=min(it.seconds for it in found))


def measure(path: str, turns: int, elements: int = LARGE) -> Iterator[Peak]:
    for case in cases(elements):
        yield least(path, case, turns)
    with tempfile.TemporaryDirectory() as folder:
        yield least(path, input_case(Path(folder) / "d.npy"), turns)
