"""`WithoutWords`, `WithAllWords`: tests of the front end over a program that has less, or more, than the real one."""
from __future__ import annotations

import os
import subprocess
from pathlib import Path
from unittest import mock

from ndnote import Notebook, process

FAKE = Path(__file__).resolve().parent / 'fake_desk.py'
NEW_WORDS = {'begin', 'part', 'ran', 'raw', 'reads'}


def words_of(path: str) -> set[str]:
    """The words that a program says to have."""
    told = subprocess.run([path, '--desk'], input=b'words\n', stdout=subprocess.PIPE, timeout=60).stdout.decode()
    return set(told.split()[1:])


def has_all_words(path: str) -> bool:
    return NEW_WORDS <= words_of(path)


class WithoutWords:
    """Tests over a program that says to have no words, and does not tell which cell runs."""

    def setUp(self) -> None:
        for patched in (mock.patch.object(Notebook, 'words', frozenset()),
                        mock.patch.object(process.Process, 'running', None)):
            patched.start()
            self.addCleanup(patched.stop)
        super().setUp()


class WithAllWords:
    """Tests over a program that has all words: the real one, or one that stands for it where it lacks some."""

    def setUp(self) -> None:
        real = process.program()
        if not has_all_words(real):
            for patched in (mock.patch.dict(os.environ, NDNOTE_PROGRAM=str(FAKE), NDNOTE_REAL=real),
                            mock.patch.object(process.Process, 'process', property(real_process))):
                patched.start()
                self.addCleanup(patched.stop)
        super().setUp()


def real_process(fake: process.Process) -> int:
    """The number of the process that a stand-in asks: its memory is bounded, and it is looked at."""
    own = fake._process.pid
    tasks = Path(f'/proc/{own}/task')
    children = ' '.join((task / 'children').read_text() for task in tasks.iterdir()).split() if tasks.is_dir() else []
    return int(children[0]) if children else own
