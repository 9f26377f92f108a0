"""The program as it is built without any proof, kept until a source changes."""
import os
import shutil
import subprocess
import tempfile
import time
from pathlib import Path
from typing import Optional

import sources

LONGEST = 3600.0
PATH = 'dist/.unpacked/preview-ndnote'


class NotBuilt(Exception):
    """No program could be built, and why."""


def program_that_reads(pipe: Path, room: Path) -> Optional[bytes]:
    """The bytes of the program that has the pipe open: the first file of the room that its process has mapped. The
    executable of that process may be a loader."""
    for process in Path('/proc').glob('[0-9]*'):
        try:
            if not any(os.readlink(end) == str(pipe) for end in (process / 'fd').iterdir()):
                continue
            for line in (process / 'maps').read_text().splitlines():
                path = line.partition('/')[2]
                if f'/{path}'.startswith(f'{room}/'):
                    return Path(f'/{path}').read_bytes()
        except OSError:
            continue
    return None


def waited_for(pipe: Path, room: Path) -> Optional[bytes]:
    """The bytes of the program that is just opening the pipe: it has that open a little after it can be written to."""
    for _ in range(200):
        program = program_that_reads(pipe, room)
        if program:
            return program
        time.sleep(0.05)
    return None


def reader_of(pipe: Path) -> Optional[int]:
    """An end of the pipe to write to, once a process reads it."""
    try:
        return os.open(pipe, os.O_WRONLY | os.O_NONBLOCK)
    except OSError:
        return None


def build(top: Path) -> Path:
    """Builds the preview. `rt try` drops it when it has ended, so it is given a script that waits, and is copied while
    it waits."""
    if not shutil.which('rt'):
        raise NotBuilt('a preview is built by the Rattle toolchain: there is no `rt` on the PATH')
    path = top / PATH
    with tempfile.TemporaryDirectory(prefix='ndnote-preview-') as folder, open(f'{folder}/said', 'w+b') as said:
        room = Path(folder).resolve()
        pipe = room / 'script'
        os.mkfifo(pipe)
        words = ['rt', 'try', '--', '--script', str(pipe)]
        began, end, program = time.monotonic(), None, None
        ran = subprocess.Popen(words, cwd=top / 'crates' / sources.PROGRAM, stdin=subprocess.DEVNULL, stdout=said,
                               stderr=said, env={**os.environ, 'TMPDIR': str(room)})
        try:
            while ran.poll() is None and end is None and time.monotonic() < began + LONGEST:
                time.sleep(0.05)
                end = reader_of(pipe)
            if end is not None:
                program = waited_for(pipe, room)
                os.close(end)
            ran.wait(60)
        finally:
            if ran.poll() is None:
                ran.terminate()
                ran.wait()
        if program is None:
            said.seek(0)
            raise NotBuilt(said.read().decode(errors='replace').strip() or 'rt try gave no program')
    if not sources.write(path, program, 0o755):
        raise NotBuilt(f'{PATH} cannot be written')
    return path
