"""streamed: the program over a script that is given piece by piece, so that a long one is never held whole."""
from __future__ import annotations

import contextlib
import subprocess
import tempfile
from typing import Iterable

from setting import program


def streamed(pieces: Iterable[bytes]) -> 'subprocess.CompletedProcess[bytes]':
    """The program may end before it has read all pieces."""
    with tempfile.TemporaryFile() as answers, tempfile.TemporaryFile() as messages:
        process = subprocess.Popen([program()], stdin=subprocess.PIPE, stdout=answers, stderr=messages)
        with contextlib.suppress(BrokenPipeError):
            for piece in pieces:
                process.stdin.write(piece)
        with contextlib.suppress(BrokenPipeError):
            process.stdin.close()
        status = process.wait(120)
        answers.seek(0), messages.seek(0)
        return subprocess.CompletedProcess([program()], status, answers.read(), messages.read())
