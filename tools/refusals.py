"""refusals: programs whose allocations are refused, and whose reads and writes fail, by the library of `refusals.c`.

It is for programs that ask the C library for memory, as those of this repository do, on Linux with a C compiler, `cc`.
A checking build (`rt try`) has an allocator of its own, of which nothing is counted.
"""
from __future__ import annotations

import os
import re
import shutil
import subprocess
from dataclasses import dataclass
from typing import Optional, Sequence

SOURCE = os.path.join(os.path.dirname(os.path.realpath(__file__)), "refusals.c")
TOLD = re.compile(rb"allocations=(\d+) reads=(\d+) writes=(\d+) changes=(\d+)\n\Z")


class NoCompiler(Exception):
    """There is no C compiler."""


@dataclass(frozen=True)
class Faults:
    """What happens to a program. Allocations, reads and writes are counted from 1; 0 is none."""

    allocation: int = 0         # the first that is refused
    allocations: int = 1        # how many are refused from that one on
    read_bytes: int = 0         # the most bytes of a read
    failed_read: int = 0
    read_error: int = 0
    write_bytes: int = 0        # the most bytes of a write
    failed_write: int = 0
    write_error: int = 0        # 0: the write takes nothing
    failed_change: int = 0      # of the writes to files, their syncs and renames
    change_error: int = 0
    is_endless: bool = False    # each read gives one newline

    def environment(self, shim: str) -> dict[str, str]:
        numbers = {
            "REFUSED_ALLOCATION": self.allocation, "REFUSED_ALLOCATIONS": self.allocations,
            "READ_BYTES": self.read_bytes, "FAILED_READ": self.failed_read, "READ_ERROR": self.read_error,
            "WRITE_BYTES": self.write_bytes, "FAILED_WRITE": self.failed_write, "WRITE_ERROR": self.write_error,
            "FAILED_CHANGE": self.failed_change, "CHANGE_ERROR": self.change_error,
            "ENDLESS_READ": int(self.is_endless), "TELL": 1}
        return {"LD_PRELOAD": shim, **{name: str(number) for name, number in numbers.items() if number}}


NO_FAULTS = Faults()


@dataclass(frozen=True)
class Ran:
    """What a program wrote, how it ended (None: not in time), and what was counted."""

    output: bytes
    status: Optional[int]
    errors: bytes
    allocations: int
    reads: int
    writes: int
    changes: int


def build(folder: str) -> str:
    """The library, compiled into a folder."""
    if not shutil.which("cc"):
        raise NoCompiler("cc, a C compiler, is missing: Debian has it in the packages gcc and libc6-dev")
    shim = os.path.join(folder, "refusals.so")
    subprocess.run(["cc", "-O2", "-Wall", "-Wextra", "-Werror", "-shared", "-fPIC", "-o", shim, SOURCE, "-ldl"],
                   check=True)
    return shim


def run(command: Sequence[str], given: bytes, shim: str, faults: Faults = NO_FAULTS, seconds: float = 60) -> Ran:
    """Runs a program to its end, or for the most seconds."""
    environment = faults.environment(shim)
    try:
        done = subprocess.run(command, env=environment, capture_output=True, input=given, timeout=seconds, check=False)
    except subprocess.TimeoutExpired:
        return Ran(b"", None, b"", 0, 0, 0, 0)
    told = TOLD.search(done.stderr)
    counts = [int(number) for number in told.groups()] if told else [0] * 4
    return Ran(done.stdout, done.returncode, TOLD.sub(b"", done.stderr), *counts)
