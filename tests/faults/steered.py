"""Steered: the program, steered at each of its reads by the library of tools/refusals.c, and forked there."""
from __future__ import annotations

import os
import select
import struct
import subprocess
import tempfile
from dataclasses import dataclass
from typing import List, Optional, Sequence

RUN, FORK, LEAVE, END = 1, 2, 3, 4
ORDER = struct.Struct('=qqq')
REPORT = struct.Struct('=qqqq')
PIECE = 4096        # bytes that a pipe takes at once, and less than the program reads at once
NONE, KEEP = 0, -1  # no refusals; those that are set already


@dataclass(frozen=True)
class Step:
    """What a part of a script was answered, the allocations that it made, and how the program ended if it did."""
    output: bytes
    allocations: int
    refused: int
    status: Optional[int] = None    # as wait gives it
    errors: bytes = b''


class Steered:
    """A running program. Where it is forked, all steps up to `leave` are those of the fork."""

    def __init__(self, program: str, shim: str, words: Sequence[str] = ()) -> None:
        self.script_from, self.script_to = os.pipe()
        orders, self.orders = os.pipe()
        self.reports, reports = os.pipe()
        self.answers, self.messages = tempfile.TemporaryFile(), tempfile.TemporaryFile()
        self.read = self.told = self.sent = 0
        self.outside: List[int] = []
        environment = {'LD_PRELOAD': shim, 'STEER_FROM': str(orders), 'STEER_TO': str(reports)}
        self.process = subprocess.Popen([program, *words], stdin=self.script_from, stdout=self.answers,
                                        stderr=self.messages, env=environment, pass_fds=(orders, reports))
        os.close(orders), os.close(reports)
        self.await_report()

    def await_report(self) -> 'tuple[int, int, int, int]':
        data = os.read(self.reports, REPORT.size)
        if len(data) == REPORT.size:
            return REPORT.unpack(data)
        return 1, self.process.wait(), 0, 0

    def output(self) -> bytes:
        """What was written since the last call."""
        data = os.pread(self.answers.fileno(), 1 << 30, self.read)
        self.read += len(data)
        return data

    def errors(self) -> bytes:
        data = os.pread(self.messages.fileno(), 1 << 20, self.told)
        self.told += len(data)
        return data

    def step(self, script: bytes, first: int = KEEP, count: int = 1) -> Step:
        """Carries out a part of a script. Of its allocations `count` are refused from the one of number `first` on."""
        output, seen, refused = b'', 0, 0
        for at in range(0, len(script), PIECE):
            piece = script[at:at + PIECE]
            os.write(self.orders, ORDER.pack(RUN, first, count))
            os.write(self.script_to, piece)
            self.sent += len(piece)
            has_ended, value, seen, refused = self.await_report()
            while not has_ended and value < self.sent:
                os.write(self.orders, ORDER.pack(RUN, KEEP, 0))
                has_ended, value, seen, refused = self.await_report()
            output += self.output()
            if has_ended:
                return self.ended(output, value)
            first = KEEP
        return Step(output, seen, refused)

    def ended(self, output: bytes, status: int) -> Step:
        while select.select([self.script_from], [], [], 0)[0]:
            os.read(self.script_from, PIECE)
        self.sent = self.outside.pop() if self.outside else 0
        return Step(output, 0, 0, status, self.errors())

    def end(self) -> Step:
        """Lets the script end."""
        os.write(self.orders, ORDER.pack(END, KEEP, 0))
        _, value, _, _ = self.await_report()
        return self.ended(self.output(), value)

    def fork(self) -> None:
        self.outside.append(self.sent)
        os.write(self.orders, ORDER.pack(FORK, KEEP, 0))
        self.await_report()

    def leave(self) -> None:
        """Ends the fork, whatever it holds. The program goes on where it was forked."""
        os.write(self.orders, ORDER.pack(LEAVE, KEEP, 0))
        self.await_report()
        self.sent = self.outside.pop()

    def close(self) -> None:
        os.close(self.orders), os.close(self.script_to), os.close(self.script_from)
        self.process.wait()
        os.close(self.reports)
        self.answers.close(), self.messages.close()
