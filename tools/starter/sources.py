"""The sources that the program is built from: which files they are, their sum, and whether they are as they were."""
import hashlib
import os
import shutil
import subprocess
import time
from pathlib import Path
from typing import Dict, Iterator, List, Optional, Tuple

PROGRAM = 'ndnote'
# The parts of a crate that a proof is of, and those that a preview is of.
PROVED = ('src', 'specs', 'proofs')
PREVIEWED = ('src',)
# A file that changed within this many seconds may change again without another time.
SETTLED = 2.0
Parts = Tuple[str, ...]


class Unreadable(Exception):
    """The sources cannot be listed or read, and why."""


def below(top: Path) -> Dict[str, List[str]]:
    """Each crate of the repository, and the crates of the repository that its line in crates.txt names."""
    named: Dict[str, List[str]] = {}
    try:
        text = (top / 'crates.txt').read_text(encoding='utf-8')
    except (OSError, UnicodeDecodeError) as error:
        raise Unreadable(f'crates.txt: {error}') from error
    for line in text.split('\n'):
        head, colon, rest = line.partition('#')[0].partition(':')
        if colon and head.split():
            named[head.split()[0]] = rest.split()
    return {crate: [other for other in others if other in named] for crate, others in named.items()}


def crates(top: Path) -> List[str]:
    """The crates that the program stands on, lowest first, and the program itself."""
    named, found = below(top), []

    def visit(crate: str, path: tuple) -> None:
        if crate in path:
            raise Unreadable(f'crates.txt: {crate} stands on itself')
        for other in named[crate]:
            visit(other, (*path, crate)) if other not in found else None
        if crate not in found:
            found.append(crate)

    if PROGRAM not in named:
        raise Unreadable(f'crates.txt: no line for {PROGRAM}')
    visit(PROGRAM, ())
    return found


def places(top: Path, parts: Parts = PROVED) -> List[str]:
    """The files and folders that hold the sources, relative to the top."""
    return ['crates.txt', 'HANDLES', *(f'crates/{crate}/{part}' for crate in crates(top) for part in parts)]


def files(top: Path, parts: Parts = PROVED) -> Iterator[str]:
    """The sources, relative to the top, in order. What an editor keeps beside a file is none."""
    found = []
    for place in places(top, parts):
        if (top / place).is_file():
            found.append(place)
        for folder, folders, names in os.walk(top / place):
            own = [name for name in names if not name.startswith('.') and not name.endswith('~')]
            paths = [os.path.join(folder, name) for name in own]
            for path in [*paths, *(os.path.join(folder, name) for name in folders)]:
                if os.path.islink(path):
                    raise Unreadable(f'{path} is a link: put the file or folder itself there')
            found += [os.path.relpath(path, top) for path in paths]
    return iter(sorted(found))


def sum_of_file(path: Path) -> str:
    with open(path, 'rb') as file:
        found = hashlib.sha256()
        for part in iter(lambda: file.read(1 << 20), b''):
            found.update(part)
    return found.hexdigest()


def sum_of(top: Path, parts: Parts = PROVED) -> str:
    """The SHA-256 of what `sha256sum` prints for the sources in order of their paths."""
    whole = hashlib.sha256()
    try:
        for name in files(top, parts):
            whole.update(f'{sum_of_file(top / name)}  {name}\n'.encode())
    except OSError as error:
        raise Unreadable(str(error)) from error
    return whole.hexdigest()


class Kept:
    """A file that tells which program is of the present sources. It holds while a walk over the names, sizes and times
    of sources and program gives what it gave. Line 1 is the program, line 2 the places to walk, the rest the walk."""

    def __init__(self, top: Path, file: Path) -> None:
        self.top, self.file = top, file

    def walk(self, where: List[str]) -> Optional[bytes]:
        """What find tells of these places, or None where there is no such find."""
        words = ['find', *where, '!', '-type', 'd', '-printf', '%p %i %s %T@ %C@\\n']
        if not shutil.which('find'):
            return None
        ran = subprocess.run(words, cwd=self.top, stdout=subprocess.PIPE, stderr=subprocess.DEVNULL, check=False)
        return ran.stdout or None

    def keep(self, program: Path, parts: Parts, sources: str, extra: List[str]) -> bool:
        """Keeps that the program is of the sources of this sum, unless one of them changed meanwhile or just now."""
        where = [str(program), *extra, *places(self.top, parts)]
        before, began = self.walk(where), time.time()
        if before is None or sum_of(self.top, parts) != sources or self.walk(where) != before:
            return False
        lines = before.decode(errors='surrogateescape').splitlines()
        changed = [float(line.rsplit(' ', 1)[1]) for line in lines if not line.startswith(f'{program} ')]
        newest = max(changed, default=began)
        if newest > began - SETTLED or any(' ' in place for place in where):
            return False
        head = f'{program}\n{" ".join(where)}\n'.encode(errors='surrogateescape')
        return write(self.file, head + before)


def write(path: Path, data: bytes, mode: int = 0o644) -> bool:
    """Puts a file in its place in one step. False where that cannot be done."""
    beside = path.with_name(f'.{path.name}.{os.getpid()}')
    try:
        path.parent.mkdir(parents=True, exist_ok=True)
        with open(os.open(beside, os.O_WRONLY | os.O_CREAT | os.O_TRUNC, mode), 'wb') as file:
            file.write(data)
        os.replace(beside, path)
    except OSError:
        try:
            beside.unlink()
        except OSError:
            pass
        return False
    return True
