"""Trials: a command of a notebook, some of whose allocations are refused, and all that is asked and given after it."""
from __future__ import annotations

import os
import random
from collections import Counter
from pathlib import Path
from typing import Dict, Iterator, List, Optional, Sequence, Tuple

from judging import WANT, Fault, may_want
from notebook import Notebook
from steered import KEEP, NONE, Steered, Step

LASTING = 1 << 40       # refusals that do not end
BURST = 7
MEMORY = b'memory'
# How often each end of a trial came.
Counts = Dict[str, int]


def ended_in_want(step: Step, what: str) -> None:
    """The program may end for want of memory: with status 1, and with a message that says so."""
    if step.status is None or not os.WIFEXITED(step.status) or os.WEXITSTATUS(step.status) != 1:
        raise Fault(f'{what}: wait gives {step.status}: {step.errors!r}')
    if MEMORY not in step.errors:
        raise Fault(f'{what}: it ended and said {step.errors!r}')


class Trials:
    """The trials of a notebook. The program stands before the command that is tried, and each trial is a fork of it."""

    def __init__(self, notebook: Notebook, program: Steered) -> None:
        self.notebook = notebook
        self.whole = notebook.told(notebook.commands)
        self.program = program
        self.at = 0
        self.counts: Counts = Counter()

    def go_on(self) -> None:
        step = self.program.step(self.notebook.commands[self.at], NONE)
        self.same(step, self.whole.answers[self.at], 'without a refusal')
        self.at += 1

    def same(self, step: Step, wanted: bytes, what: str) -> None:
        if step.status is not None:
            raise Fault(f'{what}: it ended, and wait gives {step.status}: {step.errors!r}')
        if step.output != wanted:
            raise Fault(f'{what}: answered {step.output[:2000]!r} in place of {wanted[:2000]!r}')

    def of_command(self, first: int, count: int) -> str:
        """Allocations of the command alone are refused: nothing has changed, and it succeeds when it is given again."""
        command, wanted = self.notebook.commands[self.at], self.whole.answers[self.at]
        what = f'{self.notebook.name}, {command!r}, {count} allocations from {first} on refused'
        step = self.program.step(command, first, count)
        if step.status is not None:
            ended_in_want(step, what)
            if not wanted.startswith(step.output) and not (may_want(command, wanted) and WANT.startswith(step.output)):
                raise Fault(f'{what}: it wrote {step.output!r} and ended')
            return 'ended'
        if not 1 <= step.refused <= count:
            raise Fault(f'{what}: {step.refused} were refused')
        is_refused = step.output == WANT and may_want(command, wanted)
        if is_refused:
            before = self.notebook.told(self.notebook.commands[:self.at]).state
            self.same(self.program.step(self.notebook.questions, NONE), before, f'{what}, all questions')
            step = self.program.step(command)
        self.same(step, wanted, f'{what}, and given again' if is_refused else what)
        self.rest_is_as_ever(what)
        return 'refused' if is_refused else 'answered'

    def rest_is_as_ever(self, what: str) -> None:
        """The questions and the commands behind a command that was carried out are answered as without a refusal."""
        after = self.notebook.told(self.notebook.commands[:self.at + 1]).state
        self.same(self.program.step(self.notebook.questions, NONE), after, f'{what}, all questions at the end')
        self.same(self.program.step(b''.join(self.notebook.commands[self.at + 1:])),
                  b''.join(self.whole.answers[self.at + 1:]), f'{what}, the commands behind it')
        self.program.leave()

    def from_command_on(self, first: int, count: int) -> str:
        """Allocations are refused, also of the commands behind it: the answers lack the refused commands alone."""
        what = f'{self.notebook.name}, {self.notebook.commands[self.at]!r}, {count} refused from allocation {first} on'
        step = self.program.step(self.notebook.commands[self.at], first, count)
        output = step.output
        if step.status is None:
            step = self.program.step(b''.join(self.notebook.commands[self.at + 1:]), KEEP)
            output += step.output
        told = b''.join(self.whole.answers[:self.at]) + output
        try:
            refused = self.notebook.script.judged(told, step.status is not None)
        except Fault as fault:
            raise Fault(f'{what}: {fault}') from fault
        if step.status is not None:
            ended_in_want(step, what)
            return 'ended'
        state = self.notebook.told(self.notebook.script.without(refused)).state
        self.same(self.program.step(self.notebook.questions, NONE), state, f'{what}, all questions at the end')
        self.program.leave()
        return 'refused' if refused else 'answered'


def chosen(count: int, most: int, draw: random.Random) -> List[int]:
    """All numbers from 1 to the count, or the first, the last and some between, at most `most`."""
    if count <= most:
        return list(range(1, count + 1))
    return sorted({1, count, *draw.sample(range(2, count), most - 2)})


def try_commands(trials: Trials, most: int, draw: random.Random) -> Iterator[str]:
    """Tries each command with up to `most` of its allocations. Gives how each trial ended."""
    ways = [(trials.of_command, 1), (trials.of_command, BURST), (trials.from_command_on, BURST),
            (trials.from_command_on, LASTING)]
    for allocations in trials.whole.allocations:
        trials.counts['allocations'] += allocations
        for way, count in ways:
            for first in chosen(allocations, most, draw):
                trials.program.fork()
                yield way(first, count)
        trials.go_on()


def try_notebook(path: Path, program: str, shim: str, most: int, seed: int,
                 words: Sequence[str] = ()) -> Tuple[Counts, Optional[str]]:
    """How the trials of a notebook ended, and the first fault. The words are those of the command line."""
    notebook, steered = Notebook(path, program, shim, words), Steered(program, shim, words)
    trials, fault = Trials(notebook, steered), None
    try:
        for end in try_commands(trials, most, random.Random(f'{seed} {path.stem}')):
            trials.counts['trials'] += 1
            trials.counts[end] += 1
    except Fault as found:
        fault = str(found)
    steered.close(), notebook.close()
    return trials.counts, fault
