"""Notebook: a script with all questions about its cells, run beside itself with some of its commands left out."""
from __future__ import annotations

import re
from dataclasses import dataclass
from pathlib import Path
from typing import Dict, List, Sequence, Tuple

from commands import commands_of
from judging import Commands, Fault, Script
from steered import NONE, Steered

FOLDER = Path(__file__).resolve().parent / 'notebooks'
BOUND = re.compile(rb'^([a-z]\w*) = ', re.MULTILINE)
INSERTED = re.compile(rb'^insert ', re.MULTILINE)
SAVED = re.compile(rb"np\.save\('([^']+)'")


def questions_of(commands: Commands) -> bytes:
    """Everything that a script may ask about the cells that these commands can make."""
    script = b''.join(commands)
    cells = len(INSERTED.findall(script))
    names, saves = sorted(set(BOUND.findall(script))), sorted(set(SAVED.findall(script)))
    lines: List[bytes] = [b'count']
    for at in range(cells):
        lines += [b'%s %d' % (word, at) for word in (b'source', b'show', b'names')]
        lines += [b'value %d %s' % (at, it) for it in names] + [b'saved %d %s' % (at, it) for it in saves]
    return b'\n'.join(lines) + b'\n'


@dataclass(frozen=True)
class Told:
    """What a script is answered, and what all questions are answered behind it."""
    answers: Tuple[bytes, ...]
    allocations: Tuple[int, ...]
    state: bytes


class Notebook:
    """A script, with all questions at its end, and what it is answered without some of its commands.

    The answers are those of a program in which nothing is refused.
    """

    def __init__(self, path: Path, program: str, shim: str, words: Sequence[str] = ()) -> None:
        self.name = path.stem
        commands = tuple(commands_of(path.read_bytes()))
        self.questions = questions_of(commands)
        self.commands = commands + tuple(commands_of(self.questions))
        self.script = Script(self.commands, lambda commands: self.told(commands).answers)
        self.blank = Steered(program, shim, words)
        self.known: Dict[Commands, Told] = {}

    def told(self, commands: Commands) -> Told:
        if commands not in self.known:
            self.blank.fork()
            steps = [self.blank.step(command, NONE) for command in commands]
            state = self.blank.step(self.questions, NONE)
            ended = next((it for it in (*steps, state) if it.status is not None), None)
            if ended:
                raise Fault(f'{self.name} ends with {ended.status}: {ended.errors!r}')
            self.blank.leave()
            self.known[commands] = Told(tuple(it.output for it in steps), tuple(it.allocations for it in steps),
                                        state.output)
        return self.known[commands]

    def close(self) -> None:
        self.blank.close()


def notebooks() -> List[Path]:
    return sorted(FOLDER.glob('*.ndn'))
