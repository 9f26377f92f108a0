"""driver: one process of the program, driven by its script protocol, with its own processor clock."""
from __future__ import annotations

import os
import subprocess
import threading
import time


ROOT = os.path.dirname(os.path.dirname(os.path.realpath(__file__)))


def tunables() -> str:
    """How the allocator takes and keeps memory where `ndnote` starts the program."""
    with open(f"{ROOT}/python/ndnote/tunables", encoding="ascii") as file:
        return file.read().strip()


class Program:
    """A running program: commands are sent, and their answers read line by line."""

    def __init__(self, path: str, *words: str, allocator: str = ""):
        given = {"GLIBC_TUNABLES": allocator} if allocator else {}
        environment = {"GLIBC_TUNABLES": tunables(), **os.environ, **given}
        pipes = {"stdin": subprocess.PIPE, "stdout": subprocess.PIPE, "bufsize": 0}
        self.process = subprocess.Popen([path, *words], env=environment, **pipes)
        self.rest = b""

    def send(self, data: bytes) -> None:
        view = memoryview(data)
        while len(view):
            view = view[os.write(self.process.stdin.fileno(), view):]

    def line(self) -> str:
        while b"\n" not in self.rest:
            more = os.read(self.process.stdout.fileno(), 1 << 20)
            if not more:
                raise EOFError(f"the program ended: {self.rest[-200:]!r}")
            self.rest += more
        line, _, self.rest = self.rest.partition(b"\n")
        return line.decode()

    def skip_line(self, question: str) -> int:
        """Asks for an answer of one line, which is not kept; gives its length."""
        self.send(question.encode() + b"\n")
        length = 0
        while True:
            part = os.read(self.process.stdout.fileno(), 1 << 20)
            if not part:
                raise EOFError("the program ended")
            length += len(part)
            if part.endswith(b"\n"):
                return length

    def clock(self) -> float:
        """Processor seconds of the program so far."""
        return time.clock_gettime((~self.process.pid << 3) | 2)

    def command(self, text: str) -> tuple[float, str]:
        """Processor seconds of a command whose answer is one line, and the answer."""
        before = self.clock()
        self.send(text.encode())
        answer = self.line()
        return self.clock() - before, answer

    def insert(self, at: int, text: str) -> tuple[float, str]:
        return self.command(f"insert {at}\n{text}\n.\n")

    def edit(self, at: int, text: str) -> tuple[float, str]:
        return self.command(f"edit {at}\n{text}\n.\n")

    def remove(self, at: int) -> tuple[float, str]:
        return self.command(f"remove {at}\n")

    def move(self, at: int, to: int) -> tuple[float, str]:
        return self.command(f"move {at} {to}\n")

    def show(self, at: int) -> list[str]:
        self.send(f"show {at}\n".encode())
        lines: list[str] = []
        while not lines or lines[-1] != "end" and not lines[-1].startswith("refused NoCell"):
            lines.append(self.line())
        return lines

    def answers(self, script: str, count: int) -> tuple[float, list[str]]:
        """Processor seconds of a script that has `count` lines of answers, and these."""
        before = self.clock()
        # The program may wait for a reader of its answers before it reads on.
        writer = threading.Thread(target=self.send, args=(script.encode(),))
        writer.start()
        found = [self.line() for _ in range(count)]
        writer.join()
        return self.clock() - before, found

    def load(self, cells: list[str]) -> float:
        """Inserts all cells at the end; processor seconds."""
        script = "".join(f"insert {at}\n{text}\n.\n" for at, text in enumerate(cells))
        seconds, answers = self.answers(script, len(cells))
        wrong = next(((at, it) for at, it in enumerate(answers) if it != "ok"), None)
        if wrong:
            raise ValueError(f"cell {wrong[0]} is answered {wrong[1]}: {cells[wrong[0]]}")
        return seconds

    def memory(self) -> tuple[int, int]:
        """Resident bytes, now and at most."""
        found = {}
        with open(f"/proc/{self.process.pid}/status", encoding="utf-8") as lines:
            for line in lines:
                if line.startswith(("VmRSS", "VmHWM")):
                    found[line.split(":")[0]] = int(line.split()[1]) * 1024
        return found["VmRSS"], found["VmHWM"]

    def end(self) -> None:
        """Ends the process, whatever it does."""
        self.process.kill()
        self.process.stdin.close()
        self.process.stdout.close()
        self.process.wait()

    def close(self) -> None:
        self.process.stdin.close()
        self.process.stdout.read()
        self.process.stdout.close()
        self.process.wait()
