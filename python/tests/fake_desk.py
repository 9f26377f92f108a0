#!/usr/bin/env python3
"""`Fake`: a program that has all words for front ends. It answers those that the real program lacks by asking the real
one, in the simplest way; all other lines it hands on. $NDNOTE_REAL names the real program.

What ran in an edit it finds by fresh runs of the cells before and after: new cells and texts, cells that load a name or
an input that is another, and cells that show something else. What a cell read it finds in the texts: fake_reads.py.
"""
from __future__ import annotations

import ast
import ctypes
import io
import os
import re
import signal
import subprocess
import sys
import time
from dataclasses import dataclass, field
from typing import BinaryIO, NamedTuple, NoReturn, Optional

from fake_reads import CellText, reads_of

WORDS = {'begin', 'end', 'part', 'ran', 'raw', 'reads'}
WITH_TEXT = re.compile(rb'(insert|edit|try) (0|[1-9][0-9]{0,18})\n')
OTHER_EDIT = re.compile(rb'(?:move (\d+) (\d+)|remove (\d+)|(input) (\S+) .*|(drop) (\S+)|(rule) \w+)\n')
NUMBER = rb'(?:0|-?[1-9]\d*)'
AXIS = rb'(?:%b|%b?:%b?(?::%b?)?)' % ((NUMBER,) * 4)
PART = re.compile(rb'part (\d+) (\S+) (%b(?:,%b)*)\n' % (AXIS, AXIS))
READS = re.compile(rb'reads (0|[1-9]\d{0,18})\n')
FILE = re.compile(rb'input (\S+) file (.+)\n')
RAW = re.compile(rb'input (\S+) raw (\S+) (\S+ \S+ \S+ \S+ \S+)\n')
LOADS = re.compile(rb'''(?:np\.load|buffer)\(['"]([^'"]*)''')
CAUSES = {'FileNotFoundError': 'NotFound', 'PermissionError': 'PermissionDenied', 'IsADirectoryError': 'IsADirectory',
          'NotADirectoryError': 'NotADirectory'}
PDEATHSIG = 1           # of prctl: the signal that a process gets when its parent ends


class Cell(NamedTuple):
    label: int
    text: bytes         # with the line that ends it


@dataclass
class State:
    """The cells, the inputs and the rule."""
    cells: list[Cell] = field(default_factory=list)
    inputs: dict[bytes, bytes] = field(default_factory=dict)     # names to the lines that set them
    rule: bytes = b'rule python\n'

    def copy(self) -> 'State':
        return State(list(self.cells), dict(self.inputs), self.rule)

    def lines(self) -> list[bytes]:
        """The commands that make it from nothing."""
        return [self.rule, *self.inputs.values(),
                *(b'insert %d\n%b' % (at, cell.text) for at, cell in enumerate(self.cells))]


def names_loaded(text: bytes) -> list[bytes]:
    try:
        tree = ast.parse(text.decode('utf-8', 'replace').rsplit('.\n', 1)[0])
    except (SyntaxError, ValueError):
        return []
    return sorted({node.id.encode() for node in ast.walk(tree)
                   if isinstance(node, ast.Name) and isinstance(node.ctx, ast.Load)})


def answer_in(answers: BinaryIO, command: bytes) -> bytes:
    """The whole answer to a command that has one, at the front of what is left of the answers."""
    answer = line = answers.readline()
    word, _, rest = line.rstrip(b'\n').partition(b' ')
    if word == b'source':
        answer += answers.read(int(rest) + 1)
    elif word == b'names':
        answer += b''.join(answers.readline() for _ in range(int(rest)))
    elif word == b'text':
        answer += answers.read(int(rest))
        while line not in (b'end\n', b''):
            line = answers.readline()
            answer += line
            if line.startswith(b'save ') and command.startswith(b'try '):
                answer += answers.read(int(line.split()[2]) + 1)
    return answer


class Real:
    """A process of the real program."""

    def __init__(self, words: list[str]) -> None:
        self.process = subprocess.Popen(words, stdin=subprocess.PIPE, stdout=subprocess.PIPE,
                                        preexec_fn=lambda: ctypes.CDLL(None).prctl(PDEATHSIG, signal.SIGKILL))

    def ask(self, command: bytes) -> bytes:
        try:
            self.process.stdin.write(command)
            self.process.stdin.flush()
        except BrokenPipeError:
            self.end()
        return answer_in(self.process.stdout, command) or self.end()

    def end(self) -> NoReturn:
        """Ends as the real program has."""
        status = self.process.wait()
        if status < 0:
            os.kill(os.getpid(), -status)
        os._exit(status)

    def close(self) -> None:
        self.process.kill()
        self.process.wait()


class Fake:
    def __init__(self, path: str, words: list[str], tells_progress: bool) -> None:
        self.command = [path, *words]
        self.path = path
        self.real = Real(self.command)
        self.has = set(self.real.ask(b'words\n').decode().split()[1:])
        self.before, self.now = State(), State()
        self.found = self.now, {}       # a state, and what its cells show and find
        self.labels = 0
        self.tells_progress = tells_progress
        self.together: Optional[list[bytes]] = None     # the edits behind `begin`

    def serve(self, line: bytes, script: BinaryIO) -> None:
        """Answers a line, and all that come behind it."""
        while line:
            if WITH_TEXT.fullmatch(line):
                while not line.endswith(b'\n.\n') and (more := script.readline()):
                    line += more
            answer = self.answer(line)
            sys.stdout.buffer.write(answer)
            sys.stdout.flush()
            line = script.readline()
        self.real.process.stdin.close()
        sys.stdout.buffer.write(self.real.process.stdout.read())
        sys.stdout.flush()
        sys.exit(self.real.process.wait())

    def answer(self, line: bytes) -> bytes:
        """The answer to a command, with all its lines; of what has none, nothing."""
        if re.fullmatch(rb'(#.*)?\n?', line):
            return b''
        is_edit = line.startswith((b'insert ', b'edit ')) and b'\n.\n' in line or OTHER_EDIT.fullmatch(line)
        if self.together is not None and line != b'end\n':
            if not is_edit:
                return b'bad command\n'
            self.together.append(line)
            return b''
        if line == b'begin\n':
            self.together = []
            return b''
        if line == b'end\n' and self.together is not None:
            return self.end_together()
        if is_edit:
            return self.edit(line)
        if line == b'words\n':
            return b'words %b\n' % ' '.join(sorted(self.has | WORDS)).encode()
        if line == b'ran\n':
            return self.ran()
        if READS.fullmatch(line) and 'reads' not in self.has:
            return self.reads(int(line.split()[1]))
        if PART.fullmatch(line) and 'part' not in self.has:
            return self.part(*PART.fullmatch(line).groups())
        return self.real.ask(line)

    # Edits.

    def edit(self, line: bytes) -> bytes:
        """Does one edit."""
        before = self.now.copy()
        answer = self.do(line, self.places_behind([line]))
        if answer == b'ok\n':
            self.before = before
        return answer

    def end_together(self) -> bytes:
        """Does the edits behind `begin`, or none of them."""
        lines, self.together = self.together, None
        before, places = self.now.copy(), self.places_behind(lines)
        for at, line in enumerate(lines):
            answer = self.do(line, places)
            if answer != b'ok\n':
                self.real.close()
                self.real, self.now = Real([self.path]), before
                for command in before.lines():
                    self.real.ask(command)
                is_memory = answer == b'refused OutOfMemory\n'
                return answer if is_memory else answer.replace(b'refused ', b'refused %d ' % at)
        self.before = before
        return b'ok\n'

    def places_behind(self, lines: list[bytes]) -> dict[int, int]:
        """The places that cells have behind edits, by labels."""
        state, labels = self.now.copy(), self.labels
        for line in lines:
            labels = change(state, line, labels)
        return {cell.label: at for at, cell in enumerate(state.cells)}

    def do(self, line: bytes, places: dict[int, int]) -> bytes:
        """Hands an edit on, and notes it where it was done."""
        state = self.now.copy()
        noted, refusal = with_bytes(line)
        labels = change(state, noted, self.labels)
        is_old = RAW.fullmatch(line) and 'raw' not in self.has
        place = None
        if match := WITH_TEXT.match(line):
            at = int(match.group(2))
            place = places.get(state.cells[at].label) if at < len(state.cells) else None
        self.tell(b'run %d\n', place)
        began = time.perf_counter()
        answer = is_old and refusal or self.real.ask(noted if is_old else line)
        if answer == b'ok\n':
            self.tell(b'done %d %d\n', place, int((time.perf_counter() - began) * 1e6))
            self.now, self.labels = state, labels
        return answer

    def tell(self, form: bytes, *numbers: Optional[int]) -> None:
        if self.tells_progress and numbers[0] is not None:
            os.write(2, form % numbers)

    # Questions.

    def ran(self) -> bytes:
        """Which cells ran in the last edit."""
        old, new = (self.found[1] if state == self.found[0] else shown_by(self.path, state)
                    for state in (self.before, self.now))
        self.found = self.now.copy(), new
        places = stale_places(self.before, self.now, old, new)
        return b'ran %b\n' % b' '.join(b'%d' % number for number in (len(places), *places))

    def reads(self, at: int) -> bytes:
        """What a cell read, by the texts of the cells down to it, and the lines on which these were refused."""
        count = len(self.now.cells)
        if at >= count:
            return b'refused NoCell %d %d\n' % (at, count)
        cells = []
        for place, cell in enumerate(self.now.cells[:at + 1]):
            refused = re.search(rb'^refused (\d+) ', self.real.ask(b'show %d\n' % place), re.M)
            cells.append(CellText(cell.text.decode('utf-8').removesuffix('.\n'), int(refused[1]) if refused else 0))
        return reads_of(cells).encode()

    def part(self, at: bytes, name: bytes, index: bytes) -> bytes:
        """What a cell behind AT gives by the index; it is put there, and taken out again."""
        known = self.real.ask(b'type %b %b\n' % (at, name))
        if known.startswith((b'refused ', b'bad ')):
            return known
        behind = int(at) + 1
        self.real.ask(b'insert %d\n%b__ = %b[%b]\n.\n' % (behind, name, name, index))
        refused = re.search(rb'\nrefused 1 (.*\n)', b'\n' + self.real.ask(b'show %d\n' % behind))
        answer = b'refused ' + refused[1] if refused else self.real.ask(b'value %d %b__\n' % (behind, name))
        self.real.ask(b'remove %d\n' % behind)
        return answer


def with_bytes(line: bytes) -> tuple[bytes, bytes]:
    """An edit with the bytes of its file in place of the path, and the refusal where there are none."""
    raw, file = RAW.fullmatch(line), FILE.fullmatch(line)
    if not raw and not file:
        return line, b''
    name, path, *layout = (raw or file).groups()
    if not re.fullmatch(rb'[A-Za-z0-9_.-]{1,64}', name):
        return line, b'refused BadInputName\n'
    try:
        with open(path, 'rb') as opened:
            digits = opened.read().hex().encode() or b'-'
    except OSError as error:
        return line, b'refused Unread %b\n' % CAUSES.get(type(error).__name__, 'Failed').encode()
    return b'input %b %b %b\n' % (name, b'buffer ' + layout[0] if raw else b'npy', digits), b''


def change(state: State, line: bytes, labels: int) -> int:
    """Does an edit to the cells, inputs and rule, if it can be done; gives the next label."""
    count, word = len(state.cells), line.split()[0]
    if match := WITH_TEXT.match(line):
        at, text = int(match.group(2)), line[match.end():]
        if word == b'insert' and at <= count:
            state.cells.insert(at, Cell(labels, text))
            return labels + 1
        if word == b'edit' and at < count:
            state.cells[at] = Cell(state.cells[at].label, text)
    elif word == b'move' and max(map(int, line.split()[1:])) < count:
        origin, to = map(int, line.split()[1:])
        state.cells.insert(to, state.cells.pop(origin))
    elif word == b'remove' and int(line.split()[1]) < count:
        del state.cells[int(line.split()[1])]
    elif word == b'input':
        state.inputs[line.split()[1]] = line
    elif word == b'drop':
        state.inputs.pop(line.split()[1], None)
    elif word == b'rule':
        state.rule = line
    return labels


def shown_by(path: str, state: State) -> dict[int, list[bytes]]:
    """Of each cell what it shows in a fresh run, and what it finds: values of the names that it loads, and inputs."""
    commands, asked = state.lines(), []
    for at, (_, text) in enumerate(state.cells):
        asked.append([b'show %d\n' % at, *(b'value %d %b\n' % (at - 1, name) for name in names_loaded(text) if at)])
    commands += [command for questions in asked for command in questions]
    done = subprocess.run([path], input=b''.join(commands), stdout=subprocess.PIPE, check=True)
    answers = io.BytesIO(done.stdout)
    for command in state.lines():
        answer_in(answers, command)
    found = {}
    for (label, text), questions in zip(state.cells, asked):
        found[label] = [answer_in(answers, question) for question in questions]
        if len(questions) == 1:
            found[label] += [b'refused NoName %b\n' % name for name in names_loaded(text)]
        found[label] += [state.inputs.get(name, b'') for name in LOADS.findall(text)]
    return found


def stale_places(before: State, now: State, old: dict[int, list[bytes]], new: dict[int, list[bytes]]) -> list[int]:
    """The places of the cells that the last edit made stale."""
    texts = dict(before.cells)
    return [at for at, (label, text) in enumerate(now.cells)
            if texts.get(label) != text or old[label] != new[label]
            or before.rule != now.rule and b'\nrefused ' in b'\n' + new[label][0]]


if __name__ == '__main__':
    given = [word for word in sys.argv[1:] if word != '--progress']
    if first := sys.stdin.buffer.readline():
        Fake(os.environ['NDNOTE_REAL'], given, len(given) < len(sys.argv) - 1).serve(first, sys.stdin.buffer)
