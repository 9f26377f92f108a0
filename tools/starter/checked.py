"""`./ndnote check`: runs a script, passes its answers on, and tells which lines were bad and what was refused."""
import os
import re
import subprocess
import sys
import threading
from pathlib import Path
from typing import IO, List, NamedTuple, Optional

REFUSED = 4
MOST_SHOWN = 20
NEWEST_NUMBER = 2**64 - 1


class Command(NamedTuple):
    """A command of a script: the number of its first line, from 1, its words, its bytes, and whether it ended."""
    line: int
    words: List[bytes]
    text: bytes
    is_whole: bool


class Answer(NamedTuple):
    """An answer: its first line, the refusal of the cell that it shows, and its bytes."""
    head: bytes
    refusal: Optional[bytes]
    text: bytes


def opens_source(line: bytes) -> bool:
    found = re.fullmatch(rb'(?:insert|edit) (0|[1-9][0-9]{0,19})', line)
    return found is not None and int(found[1]) <= NEWEST_NUMBER


def commands_of(script: bytes) -> List[Command]:
    """The commands that a script gives, each with the lines of its source. Comments and empty lines have no answer."""
    lines, found, at = re.findall(rb'[^\n]*\n|[^\n]+', script), [], 0
    while at < len(lines):
        first, line = at, lines[at].rstrip(b'\n')
        at += 1
        is_whole = True
        if opens_source(line):
            while at < len(lines) and lines[at].rstrip(b'\n') != b'.':
                at += 1
            is_whole = at < len(lines)
            at += 1
        if line and not line.startswith(b'#'):
            found.append(Command(first + 1, line.split(b' '), b''.join(lines[first:at]), is_whole))
    return found


def answer_of(answers: IO[bytes]) -> Optional[Answer]:
    """The next answer, or None where the program gives no more."""
    head = answers.readline()
    text, refusal = head, None
    word, _, count = head.rstrip(b'\n').partition(b' ')
    if word == b'text':
        text += answers.read(int(count))
        line = b''
        while line != b'end\n':
            line = answers.readline()
            if not line:
                break
            refusal = line[8:].rstrip(b'\n') if line.startswith(b'refused ') else refusal
            text += line
    elif word == b'source':
        text += answers.read(int(count) + 1)
    elif word == b'names':
        text += b''.join(answers.readline() for _ in range(int(count)))
    return Answer(head.rstrip(b'\n'), refusal, text) if head.endswith(b'\n') else None


class Check:
    """A script that is run beside a list of the script's lines at which the present cells begin."""

    def __init__(self, name: str) -> None:
        self.name = name
        self.cells: List[int] = []
        self.found: List[str] = []

    def tell(self, line: int, why: str) -> None:
        told = f'{self.name}:{line}: {why}'
        if told not in self.found:
            self.found.append(told)

    def tell_cell(self, place: int, refusal: bytes) -> None:
        line, _, fault = refusal.decode(errors='replace').partition(' ')
        if place < len(self.cells):
            self.tell(self.cells[place] + int(line), f'the cell is refused here: {fault}')

    def follow(self, command: Command, answer: Answer) -> None:
        """Takes an answer over: what it tells, and which cells there are now."""
        word = command.words[0]
        places = [int(it) for it in command.words[1:] if it.isdigit()]
        if answer.head == b'bad command':
            self.tell(command.line, 'bad command' if command.is_whole else 'the script ends inside this cell')
        elif answer.head.startswith(b'refused '):
            self.tell(command.line, answer.head.decode(errors='replace'))
        elif word == b'insert':
            self.cells.insert(places[0], command.line)
        elif word == b'edit':
            self.cells[places[0]] = command.line
        elif word == b'remove':
            del self.cells[places[0]]
        elif word == b'move':
            self.cells.insert(places[1], self.cells.pop(places[0]))
        elif word == b'show' and answer.refusal:
            self.tell_cell(places[0], answer.refusal)


def marks(name: str, script: bytes) -> List[str]:
    """What of its bytes makes a script fail, whatever its commands are."""
    found = []
    if script.startswith(b'\xef\xbb\xbf'):
        found.append(f'{name}:1: the script begins with a byte order mark, which belongs to no command')
    if b'\r' in script:
        line = script[:script.index(b'\r')].count(b'\n') + 1
        found.append(f'{name}:{line}: a carriage return: lines of a script end with a newline alone')
    return found


def tell_all(name: str, found: List[str]) -> None:
    for told in found[:MOST_SHOWN]:
        print(told, file=sys.stderr)
    if len(found) > MOST_SHOWN:
        print(f'{name}: and {len(found) - MOST_SHOWN} more', file=sys.stderr)


def send(parts: List[bytes], to: IO[bytes]) -> threading.Thread:
    """Writes from a thread of its own, so that long answers cannot block both sides."""
    def write() -> None:
        try:
            for part in parts:
                to.write(part)
            to.flush()
        except (BrokenPipeError, ValueError):
            pass                        # the reader finds the end of the answers

    thread = threading.Thread(target=write, daemon=True)
    thread.start()
    return thread


def run(program: Path, name: str, script: bytes, inputs: List[str]) -> int:
    """Runs the script. The status is the program's, or 4 where that is 0 and something was bad or refused."""
    check, commands = Check(name), commands_of(script)
    whole = [it for it in commands if it.is_whole]
    process = subprocess.Popen([str(program), *inputs], stdin=subprocess.PIPE, stdout=subprocess.PIPE)
    given, answers = process.stdin, process.stdout
    assert given and answers

    def follow(part: List[Command]) -> bool:
        thread = send([it.text.removesuffix(b'\n') + b'\n' for it in part], given)
        for command in part:
            answer = answer_of(answers)
            if answer is None:
                return False
            sys.stdout.buffer.write(answer.text)
            check.follow(command, answer)
        sys.stdout.buffer.flush()
        thread.join()
        return True

    if follow(whole):
        # Each cell is asked before a source that never ends is sent, which would take the questions in.
        thread = send([b'show %d\n' % place for place in range(len(check.cells))], given)
        for place in range(len(check.cells)):
            answer = answer_of(answers)
            if answer and answer.refusal:
                check.tell_cell(place, answer.refusal)
        thread.join()
        last = [it for it in commands if not it.is_whole]
        send([it.text for it in last], given).join()
        try:
            given.close()
        except BrokenPipeError:
            pass
        for command in last:
            answer = answer_of(answers)
            if answer:
                sys.stdout.buffer.write(answer.text)
                check.follow(command, answer)
        sys.stdout.buffer.flush()
    sys.stdout.buffer.write(answers.read())
    sys.stdout.buffer.flush()
    status = process.wait()
    found = marks(name, script) + check.found
    tell_all(name, found)
    return status if status > 0 else 128 - status if status < 0 else REFUSED if found else 0


def main(program: Path, words: List[str]) -> int:
    if not words or any('=' not in word for word in words[1:]):
        print('ndnote: check SCRIPT [NAME=PATH..]', file=sys.stderr)
        return 2
    try:
        script = sys.stdin.buffer.read() if words[0] == '-' else Path(words[0]).read_bytes()
    except OSError as error:
        print(f'ndnote: script {words[0]}: {error.strerror}', file=sys.stderr)
        return 1
    try:
        return run(program, words[0], script, words[1:])
    except BrokenPipeError:
        os.dup2(os.open(os.devnull, os.O_WRONLY), sys.stdout.fileno())
        return 1
