"""judged: whether a run with refusals is answered by the script's answers, or by those without the refused commands."""
from __future__ import annotations

from dataclasses import dataclass
from typing import Callable, FrozenSet, Sequence, Tuple

WANT = b'refused OutOfMemory\n'
NO_EDIT = (b'show ', b'source ', b'names ', b'value ', b'saved ', b'count', b'words', b'try ', b'type ', b'part ',
           b'save ', b'ran', b'reads ')
# What takes memory and is no edit.
ASKING = (b'names ', b'value ', b'try ', b'type ', b'part ', b'save ', b'reads ')
# Refusals that are found behind allocations: of a file, and of the index of a part.
LATE = (b'refused Unread ', b'refused Unwritten ', b'refused Index.', b'refused Stmt.')
Commands = Tuple[bytes, ...]
# The answers of a script in which nothing is refused for want of memory.
Answers = Callable[[Commands], Sequence[bytes]]


class Fault(Exception):
    """What is wrong with the answers of a run."""


def is_edit(command: bytes) -> bool:
    return not command.startswith(NO_EDIT)


def may_want(command: bytes, wanted: bytes) -> bool:
    """Whether a command that would be answered so may be answered with want of memory in place of it."""
    if wanted.startswith(LATE):
        return True
    if is_edit(command):
        return wanted == b'ok\n'
    return command.startswith(ASKING) and not wanted.startswith((b'refused ', b'bad command'))


@dataclass(frozen=True)
class Script:
    """Commands, with the answers that they have where nothing is refused."""
    commands: Commands
    answers: Answers

    def without(self, refused: FrozenSet[int]) -> Commands:
        return tuple(it for at, it in enumerate(self.commands) if at not in refused)

    def answer(self, at: int, refused: FrozenSet[int]) -> bytes:
        """The answer of a command that is not refused, where some of those before it were."""
        return self.answers(self.without(refused))[at - sum(number < at for number in refused)]

    def judged(self, output: bytes, has_ended: bool, wants_memory: bool = True) -> FrozenSet[int]:
        """The edits that were refused for want of memory. A run that has ended wrote the first bytes of its answers."""
        refused, at = set(), 0
        for number, command in enumerate(self.commands):
            wanted = self.answer(number, frozenset(refused))
            may_refuse = wants_memory and may_want(command, wanted)
            if may_refuse and output.startswith(WANT, at):
                refused |= {number} if is_edit(command) else set()
                at += len(WANT)
            elif output.startswith(wanted, at):
                at += len(wanted)
            elif has_ended and (wanted.startswith(output[at:]) or may_refuse and WANT.startswith(output[at:])):
                return frozenset(refused)
            else:
                raise Fault(f'{command!r} is answered {output[at:at + 200]!r} in place of {wanted[:200]!r}')
        if at < len(output):
            raise Fault(f'more than the answers: {output[at:][:200]!r}')
        return frozenset(refused)
