"""allocator: what `tools/bench allocator` measures: the time and the memory of some notebooks, by the settings of the
C library's allocator (`GLIBC_TUNABLES`) that the program is started with."""
from __future__ import annotations

from dataclasses import dataclass

from driver import Program, tunables
from statements import second

STATEMENTS = ("o = x + x", "o = (x + y) * 2 - x", "o = x.copy()")
SIZES = (1_000_000, 10_000_000)
# Elements of an array, and how many arrays are made, edited three times each, and removed but for one.
ARRAYS = ((1 << 22, 4), (1 << 24, 4), (10_000_000, 12))
MIB = 1 << 20
PREFIX = "glibc.malloc."


def setting(**values: int) -> str:
    return ":".join([f"{PREFIX}hugetlb=1", *(f"{PREFIX}{name}={value}" for name, value in values.items())])


def settings() -> list[str]:
    """The setting that the program has, the library's own, and three others."""
    return [tunables(), setting(), setting(mmap_threshold=8 * MIB),
            setting(mmap_threshold=96 * MIB, trim_threshold=128 * MIB),
            setting(mmap_max=0, trim_threshold=512 * MIB, top_pad=64 * MIB)]


@dataclass
class Kept:
    """Resident bytes of arrays: at most, while all of them are there, and once all but one are removed."""

    most: int
    all: int
    one: int


def times(path: str, size: int, allocator: str, turns: int) -> list[float]:
    """Processor seconds of each statement on arrays of `size` numbers of eight bytes."""
    program, found = Program(path, allocator=allocator), []
    program.insert(0, f"x = np.arange({size})\ny = np.arange({size}) * 7 % 1000003 + 1")
    for text in STATEMENTS:
        taken = []
        for turn in range(turns):
            taken.append(program.insert(1, text + " " * turn)[0])
            program.remove(1)
        found.append(second(taken))
    program.close()
    return found


def kept(path: str, elements: int, count: int, allocator: str) -> Kept:
    program = Program(path, allocator=allocator)
    for at in range(count):
        program.insert(at, f"a{at} = np.arange({elements})")
    for turn in range(3 * count):
        program.edit(turn % count, f"a{turn % count} = np.arange({elements}) + {turn}")
    resident, most = program.memory()
    for at in range(count - 1, 0, -1):
        program.remove(at)
    one = program.memory()[0]
    program.close()
    return Kept(most, resident, one)
