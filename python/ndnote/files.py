"""Files: inputs that are read, and bytes that are put in the place of others."""
from __future__ import annotations

import os
import tempfile
from pathlib import Path
from typing import Union

LARGEST = 1 << 26       # bytes of an input

PathLike = Union[str, 'os.PathLike[str]']


def check_input(path: Path) -> None:
    """Raises an OSError where a file can be no input."""
    if not path.is_file():
        raise OSError('no regular file')
    if path.stat().st_size > LARGEST:
        raise OSError('more than 64 MiB')


def read_input(path: Path) -> bytes:
    """The bytes of an input."""
    check_input(path)
    return path.read_bytes()


def replace_file(path: PathLike, data: bytes) -> None:
    """Puts bytes into a file in one step. Whoever reads it sees the old ones or the new ones, also on a full disk.
    An OSError names this file."""
    try:
        put(path, data)
    except OSError as error:
        raise OSError(error.errno, error.strerror, str(path)) from None


def put(path: PathLike, data: bytes) -> None:
    """Writes a file beside another one, and puts it in the other's place."""
    target = Path(os.path.realpath(path))
    handle, other = tempfile.mkstemp(dir=target.parent, prefix='.ndnote-')
    try:
        with os.fdopen(handle, 'wb') as file:
            file.write(data)
        os.chmod(other, target.stat().st_mode & 0o777 if target.exists() else 0o644)
        os.replace(other, target)
    except BaseException:
        os.unlink(other)
        raise
