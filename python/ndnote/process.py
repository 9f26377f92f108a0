"""`Process`: the program as a process, its pipes, and what it says on standard error. It knows of no notebooks."""
from __future__ import annotations

import os
import re
import resource
import subprocess
import threading
from pathlib import Path
from typing import IO, Callable, Iterable, Optional, TypeVar

Answer = TypeVar('Answer')
# How the program's allocator takes and keeps memory, unless the environment says so itself. `./ndnote` reads it too.
TUNABLES = Path(__file__).with_name('tunables').read_text('ascii').strip()
PROGRESS = re.compile(rb'(run|done) ([0-9]{1,9})(?: [0-9]+)?\n')
MOST_SAID = 1000        # bytes of messages that are kept
PATIENCE = 1.0          # seconds that a message may take behind the end of the process


class Died(Exception):
    """The process ended, or was ended, before it had answered."""

    def __init__(self, how: str, said: str = '') -> None:
        super().__init__(how + (f': {said}' if said else ''))
        self.how = how
        self.said = said

    def placed(self, place: str) -> 'Died':
        """The same, with where it was."""
        return Died(f'{self.how} in {place}', self.said)


def program() -> str:
    """The path of the program: $NDNOTE_PROGRAM, or what the checkout around this package has built."""
    told = os.environ.get('NDNOTE_PROGRAM')
    path = Path(told) if told else Path(__file__).resolve().parents[2] / 'crates/ndnote/out/ndnote'
    if not path.is_file():
        raise FileNotFoundError(f'{path}: the program is not built; NDNOTE_PROGRAM may name another')
    return str(path)


class Said:
    """What a process says on standard error: the cell that runs, and the first messages."""

    def __init__(self, pipe: IO[bytes]) -> None:
        self.running: Optional[int] = None      # the place of the cell that runs now
        self.messages = b''
        self._thread = threading.Thread(target=self._read, args=(pipe,), daemon=True)
        self._thread.start()

    def _read(self, pipe: IO[bytes]) -> None:
        with pipe:
            while line := pipe.readline(MOST_SAID):
                if match := PROGRESS.fullmatch(line):
                    self.running = int(match.group(2)) if match.group(1) == b'run' else None
                else:
                    self.messages += line[:MOST_SAID - len(self.messages)]

    def end(self) -> str:
        """The messages, once the process has ended."""
        self._thread.join(PATIENCE)
        return self.messages.decode('utf-8', 'replace').strip()


class Process:
    """The program, which is sent lines and bytes and sends such back."""

    def __init__(self, path: Optional[str] = None, memory: Optional[int] = None, progress: bool = False) -> None:
        words = [path or program(), '--desk', *(['--progress'] if progress else [])]
        self._process = subprocess.Popen(words, stdin=subprocess.PIPE, stdout=subprocess.PIPE, stderr=subprocess.PIPE,
                                         env={'GLIBC_TUNABLES': TUNABLES, **os.environ})
        self._said = Said(self._process.stderr)
        if memory:
            resource.prlimit(self.process, resource.RLIMIT_AS, (memory, memory))

    def close(self) -> None:
        self._process.kill()
        self._process.wait()
        self._said.end()
        for pipe in (self._process.stdin, self._process.stdout):
            try:
                pipe.close()
            except BrokenPipeError:
                pass

    @property
    def process(self) -> int:
        """The number of the process."""
        return self._process.pid

    @property
    def running(self) -> Optional[int]:
        """The place of the cell that runs now, where the program was asked to tell it."""
        return self._said.running

    def kill(self) -> None:
        """Ends the process, from any thread: whoever waits for an answer gets Died."""
        self._process.kill()

    def starve(self) -> bool:
        """Refuses the program any more memory, from any thread and on Linux alone; tells whether that could be done.
        An edit that takes memory is then refused for want of it, and the notebook is as it was."""
        return self._bound_memory(lambda most: (1, most))

    def feed(self) -> bool:
        """Ends `starve`."""
        return self._bound_memory(lambda most: (most, most))

    def _bound_memory(self, limits: Callable[[int], tuple[int, int]]) -> bool:
        try:
            _, most = resource.prlimit(self.process, resource.RLIMIT_AS)
            resource.prlimit(self.process, resource.RLIMIT_AS, limits(most))
            return True
        except (AttributeError, OSError):
            return False

    def is_over(self) -> bool:
        return self._process.poll() is not None

    def death(self) -> Died:
        """How the process ended."""
        status = self._process.wait()
        how = f'ended by signal {-status}' if status < 0 else f'ended with status {status}'
        return Died(how, self._said.end())

    # What is sent, and what is read. A thread of its own writes a batch, so that long answers cannot block both sides.

    def _write(self, parts: Iterable[bytes]) -> None:
        try:
            for part in parts:
                self._process.stdin.write(part)
            self._process.stdin.flush()
        except (BrokenPipeError, ValueError):
            pass                                # the reader finds the end of the answers

    def _line(self) -> str:
        line = self._process.stdout.readline()
        if not line.endswith(b'\n'):
            raise self.death()
        return line[:-1].decode()

    def _bytes(self, count: int) -> bytes:
        data = self._process.stdout.read(count)
        if len(data) < count:
            raise self.death()
        return data

    def _ask_all(self, commands: Iterable[bytes], read: Callable[[], Answer]) -> list[Answer]:
        """The answers to many commands, sent without waiting for each."""
        sent = list(commands)
        writer = threading.Thread(target=self._write, args=(sent,))
        writer.start()
        try:
            return [read() for _ in sent]
        finally:
            writer.join()
