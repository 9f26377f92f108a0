"""`handed_over`: what the program is given for an input: the path of a file that it reads itself, or its bytes."""
from __future__ import annotations

import hashlib
from pathlib import Path
from typing import Any, NamedTuple, Optional, Union

from . import files
from .engine import Notebook
from .values import Layout

Stamp = Optional[tuple[int, int, int]]


class Look(NamedTuple):
    """How the files of an input look from outside: its own, and of a buffer that of its layout."""
    file: Stamp
    layout: Stamp
    is_buffer: bool


class Given(NamedTuple):
    """What is handed over for an input, behind what tells its bytes from others."""
    mark: Any
    data: Union[Path, bytes]
    layout: Optional[Layout]


def stamp(path: Path) -> Stamp:
    """How a file looks from outside, or None where it is not there."""
    try:
        stat = path.stat()
    except OSError:
        return None
    return stat.st_size, stat.st_mtime_ns, stat.st_ino


def layout_path(path: Path) -> Path:
    """The file that says how the elements of a buffer lie in another one."""
    return path.with_name(path.name + '.json')


def look_at(path: Path, is_buffer: bool) -> Look:
    return Look(stamp(path), stamp(layout_path(path)) if is_buffer else None, is_buffer)


def layout_of(path: Path) -> Layout:
    """The layout that stands beside a file; an OSError says what is wrong with it."""
    layout = layout_path(path)
    if not layout.exists():
        raise OSError(f'its layout is not there: {layout.name}')
    try:
        return Layout.of_json(files.read_input(layout).decode())
    except (OSError, ValueError, RecursionError) as error:
        raise OSError(f'its layout {layout.name} is wrong: {error}') from None


def handed_over(notebook: Notebook, path: Path, look: Look) -> Given:
    """What is given for the file at a path. One that the program reads itself is told from others by its look, and is
    not read here: where the bytes are the same no cell runs. Else the bytes tell, by their digest."""
    files.check_input(path)
    layout = layout_of(path) if look.is_buffer else None
    if notebook.said('raw' if layout else 'file', path):
        return Given((look.file, layout), path, layout)
    data = files.read_input(path)
    return Given(hashlib.sha256(data + repr(layout).encode()).digest(), data, layout)
