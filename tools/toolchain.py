"""toolchain: what the tools beside it share: the crates, their libraries built once, and checks of a crate over kept
work.

The crates and the words of each command are those of `rt`, which must be on the path. A library that is built here has
its statements alone, with a stamp of its own, so `rt` takes none of them for its own and builds its own anew. Work
that is kept is trusted as `rattle check --incremental` trusts it: what counts as proved is said by `rt ci` alone.
"""
from __future__ import annotations

import contextlib
import functools
import hashlib
import importlib.machinery
import importlib.util
import os
import shutil
import subprocess
import sys
import time
from concurrent.futures import Future, ThreadPoolExecutor
from dataclasses import dataclass

ROOT = os.path.dirname(os.path.dirname(os.path.realpath(__file__)))
PARTS = ("src", "specs", "proofs")
# The first letters of the stamp of a library that has its statements alone.
MARK = "dev"


def loaded(name: str, path: str):
    """The module that a file holds, whatever its name ends in. No bytecode is written beside it."""
    sys.dont_write_bytecode = True
    loader = importlib.machinery.SourceFileLoader(name, path)
    module = importlib.util.module_from_spec(importlib.util.spec_from_loader(name, loader))
    sys.modules[name] = module
    loader.exec_module(module)
    return module


@functools.lru_cache(maxsize=None)
def rtlib():
    """The library of `rt`, which knows the crates."""
    path = shutil.which("rt")
    if not path:
        sys.exit("rt is not on the path")
    return loaded("rt", path).rtlib


def crate_names(root: str = ROOT) -> list[str]:
    """The names of the crates in the order of crates.txt, for what needs no toolchain."""
    with open(f"{root}/crates.txt", encoding="utf-8") as file:
        lines = [line.partition("#")[0] for line in file]
    return [line.partition(":")[0].split()[0] for line in lines if line.strip()]


def crates(root: str = ROOT) -> dict:
    """The crates by name, each behind the libraries that it uses."""
    return {crate.name: crate for crate in rtlib().crates_below(root)}


@functools.lru_cache(maxsize=None)
def stamp(crate) -> str:
    """A sum of the sources of a crate and of all libraries below it. `rt` sums anew on each path to a library."""
    total = hashlib.sha256()
    for path in rtlib().files_of(crate.folder):
        with open(path, "rb") as file:
            total.update(repr((path.replace(crate.folder, ""), file.read())).encode())
    total.update(repr([(library.name, stamp(library)) for library in crate.deps]).encode())
    return total.hexdigest()


def is_built(crate) -> bool:
    path = f"{crate.folder}/out/rlib/stamp"
    return os.path.isdir(crate.rlib) and rtlib().text_of(path) == MARK + stamp(crate)


@contextlib.contextmanager
def locked(crate):
    """Keeps other runs of `rt` out of the crate's folder."""
    held = rtlib().lock([crate])
    try:
        yield
    finally:
        for it in held:
            os.close(it)


def build_one(crate, below: list[Future]) -> bool:
    """Builds a library, once those that it uses are built. What the prover said is told where it refused."""
    if not all(it.result() for it in below):
        return False
    with locked(crate):
        if is_built(crate):
            return True
        folder, start = os.path.dirname(crate.rlib), time.monotonic()
        shutil.rmtree(folder, ignore_errors=True)
        os.makedirs(folder)
        words = crate.words(["--jobs", "1"], keeps=False)
        ran = run([rtlib().RATTLE, "build", *words, "--statements", "-o", crate.rlib], crate.folder)
        if ran.status == 0:
            with open(f"{folder}/stamp", "w", encoding="utf-8") as file:
                file.write(MARK + stamp(crate))
        told = "built" if ran.status == 0 else "not built:\n" + "\n".join(ran.lines[-40:])
        print(f"{crate.name}: {told} ({time.monotonic() - start:.0f} s)", file=sys.stderr, flush=True)
        return ran.status == 0


def build_below(wanted: list, lanes: int = 1) -> bool:
    """Builds the libraries below these crates, `lanes` at a time; whether all are built."""
    libraries = list(dict.fromkeys(library for crate in wanted for library in crate.below()))
    libraries.sort(key=lambda crate: len(crate.below()))
    made: dict[str, Future] = {}
    with ThreadPoolExecutor(lanes) as pool:
        # A library stands in the queue behind those that it waits for.
        for crate in libraries:
            made[crate.name] = pool.submit(build_one, crate, [made[it.name] for it in crate.deps])
    return all(it.result() for it in made.values())


@dataclass
class Ran:
    """What a command said, line by line, and its exit status, which is negative where a signal ended it."""

    lines: list[str]
    status: int


def run(words: list[str], folder: str, seconds: int | None = None) -> Ran:
    """Runs a command, which ends by a signal once it has used these processor seconds."""
    bound = ["sh", "-c", 'ulimit -t "$0"; exec "$@"', str(seconds)] if seconds else []
    streams = {"stdin": subprocess.DEVNULL, "stdout": subprocess.PIPE, "stderr": subprocess.STDOUT}
    ran = subprocess.run([*bound, *words], cwd=folder, text=True, errors="replace", check=False, **streams)
    return Ran(ran.stdout.split("\n"), ran.returncode)


def check_words(crate, kept: str, only: tuple[str, ...] = ()) -> list[str]:
    """The command that checks a crate over a folder of kept work, or some of its functions."""
    flags = [word for name in only for word in ("--only", name)]
    return [rtlib().RATTLE, "check", *crate.words(["--jobs", "1", *flags], keeps=False), "--incremental", kept]


def copy_linked(source: str, target: str) -> None:
    """Copies a folder by links, which is safe of what is kept: the prover replaces its files and writes into none."""
    def link(old: str, new: str) -> None:
        try:
            os.link(old, new)
        except OSError:
            shutil.copy2(old, new)

    shutil.copytree(source, target, copy_function=link)
