"""setting: the program that is tested, the library that lets it fail, and how much is to be tried."""
from __future__ import annotations

import atexit
import functools
import os
import random
import sys
import tempfile
import unittest
from concurrent.futures import ProcessPoolExecutor
from pathlib import Path

TOP = Path(__file__).resolve().parents[2]
sys.path[:0] = [str(TOP / 'python'), str(TOP / 'tools')]
sys.dont_write_bytecode = True

import refusals     # noqa: E402

# `tests/run --all` and `tests/run --seed N` set these.
IS_ALL = os.environ.get('NDNOTE_ALL') == 'true'
SEED = int(os.environ.get('NDNOTE_SEED') or random.randrange(1 << 32))


def program() -> str:
    """The path of the built program, or that of the one that $NDNOTE_PROGRAM names."""
    path = os.path.abspath(os.environ.get('NDNOTE_PROGRAM') or TOP / 'crates/ndnote/out/ndnote')
    if not os.path.isfile(path):
        raise FileNotFoundError(f'{path}: the program is not built; NDNOTE_PROGRAM may name another')
    return path


@functools.lru_cache(maxsize=None)
def shim() -> str:
    """The path of the library, built once. A machine without a C compiler skips the test, and says so."""
    room = tempfile.TemporaryDirectory(prefix='ndnote-faults-')
    atexit.register(room.cleanup)
    try:
        return refusals.build(room.name)
    except refusals.NoCompiler as lacks:
        raise unittest.SkipTest(str(lacks)) from lacks


def workers() -> ProcessPoolExecutor:
    """A process for each processor that this one may use."""
    return ProcessPoolExecutor(len(os.sched_getaffinity(0)))


def tell(line: str) -> None:
    """Says what was tried, in the output of the test command."""
    print(f'faults: {line}', file=sys.stderr, flush=True)
