"""`Opened`: a book that is open in a session, whose commands to the program are listened to."""
from __future__ import annotations

import re
import sys
import tempfile
import unittest
from pathlib import Path
from typing import Optional

from ndnote import Notebook, book
from ndnote.session import Session, Shown, opened

SLOW = 's = np.arange(2000000)\n' + 's = s ** 3 % 1001\n' * 900
SLOW_IN_PLACE = 's = np.arange(16777216)\n' + 's *= 3\n' * 900
# A program that ends where a line of a cell has the word BOOM.
WRAPPER = '''#!{0}
import os, subprocess, sys
inner = subprocess.Popen(['{1}', *sys.argv[1:]], stdin=subprocess.PIPE)
for line in sys.stdin.buffer:
    if b'BOOM' in line:
        inner.kill()
        os._exit(7)
    inner.stdin.write(line)
    inner.stdin.flush()
inner.stdin.close()
sys.exit(inner.wait())
'''


def npy(source: str) -> bytes:
    """The bytes of an NPY file."""
    with Notebook() as notebook:
        notebook.insert(0, f"np.save('f', {source})")
        return notebook.saved(0, 'f')


def links_of(session: Session, shown: Shown) -> Optional[tuple[list, list[str]]]:
    """What a cell reads from: places, names and whether through memory; inputs."""
    if shown.links is None:
        return None
    cells = [(session.order.index(number), sorted(names), is_memory) for number, names, is_memory in shown.links.cells]
    return cells, sorted(shown.links.inputs)


def wrapper(path: Path, program: str) -> str:
    """Writes the program that may be ended by a cell."""
    path.write_text(WRAPPER.format(sys.executable, program))
    path.chmod(0o755)
    return str(path)


class Opened(unittest.TestCase):
    def setUp(self) -> None:
        folder = tempfile.TemporaryDirectory()
        self.addCleanup(folder.cleanup)
        self.folder = Path(folder.name)

    def open(self, text: str) -> Session:
        self.path = self.folder / 'book.py'
        self.path.write_text(text)
        session = opened(self.path)
        self.addCleanup(session.close)
        self.sent: list[str] = []       # the first line of each command
        self.asked: list[int] = []      # the cells that were asked what they show
        session.sync()
        self.process = session.notebook.process
        write = session.notebook._write

        def listen(parts):
            self.sent += [part.split(b'\n')[0].decode() for part in parts[:1]]
            self.asked += [int(at) for part in parts for at in re.findall(rb'^show ([0-9]+)\n', part)]
            write(parts)
        session.notebook._write = listen
        return session

    def change(self, session: Session, old: str, new: str) -> tuple[int, list[str]]:
        """How many outputs changed, and the commands that were sent for it but questions."""
        return self.write(session, self.path.read_text().replace(old, new))

    def write(self, session: Session, text: str) -> tuple[int, list[str]]:
        """The same, of another text of the book."""
        self.sent.clear()
        self.asked.clear()
        self.path.write_text(text)
        session.set_cells(book.parse(text))
        count = session.sync()
        return count, [word for word in self.sent if not word.startswith(('show', 'ran', 'words'))]

    def texts(self, session: Session) -> list[str]:
        return [shown.result.text for shown in session.codes()]
