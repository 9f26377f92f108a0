"""opening: what `tools/bench opening` measures: how long `./ndnote live` takes from its start until its page has what each
cell of a book shows. The book reads a file of 64 MB, the most that an input has."""
from __future__ import annotations

import http.client
import json
import os
import resource
import subprocess
import tempfile
import time
from array import array
from collections.abc import Iterator
from contextlib import contextmanager
from dataclasses import dataclass
from pathlib import Path
from urllib.parse import urlsplit

BYTES = 1 << 26
HEADER = 128
COUNT = (BYTES - HEADER) // 8
SUM = COUNT * (COUNT - 1) // 2
CELLS = ("x = np.load('x.npy')", "print(x.sum())", "y = x[::1000]", "print(y.max())")
# The number that the page shows of the second cell.
SHOWN = str(SUM)


@dataclass
class Opening:
    """Seconds by the clock until the page is there, and until it has all answers; and processor seconds of both programs,
    until they have ended."""

    page: float
    answers: float
    processor: float


def npy() -> bytes:
    """A file of `BYTES` bytes, with the numbers from 0 on."""
    words = f"{{'descr': '<i8', 'fortran_order': False, 'shape': ({COUNT},), }}"
    return b"\x93NUMPY\x01\x00v\x00" + words.ljust(HEADER - 11).encode() + b"\n" + array("q", range(COUNT)).tobytes()


@contextmanager
def book() -> Iterator[Path]:
    with tempfile.TemporaryDirectory() as folder:
        path = Path(folder) / "book.py"
        path.write_text("".join(f"# %%\n{cell}\n\n" for cell in CELLS), encoding="utf-8")
        path.with_name("x.npy").write_bytes(npy())
        yield path


def asked(host: str, path: str) -> http.client.HTTPResponse:
    connection = http.client.HTTPConnection(host, timeout=60)
    connection.request("GET", path)
    answer = connection.getresponse()
    if answer.status != http.client.OK:
        raise OSError(f"{path} is answered {answer.status}")
    return answer


def wait_for_answers(events: http.client.HTTPResponse) -> None:
    """Reads news until all cells have run and the second shows the sum."""
    shown: dict[str, str] = {}
    for line in events.fp:
        if line.startswith(b"data: "):
            news = json.loads(line[len(b"data: "):])
            shown.update((cell, told["out"]) for cell, told in news["cells"].items() if told["out"])
            if news["state"]["word"] == "ready" and any(SHOWN in out for out in shown.values()):
                return
    raise OSError("the news ended before all cells had run")


def processor_seconds() -> float:
    """Of all processes that have ended."""
    used = resource.getrusage(resource.RUSAGE_CHILDREN)
    return used.ru_utime + used.ru_stime


def measured(root: str, path: Path) -> Opening:
    """Opens a book once, as a browser does."""
    used, began = processor_seconds(), time.monotonic()
    words = [f"{root}/ndnote", "live", "--no-browser", str(path)]
    with subprocess.Popen(words, stdout=subprocess.PIPE, text=True) as server:
        try:
            url = urlsplit(server.stdout.readline().strip())
            asked(url.netloc, url.path).read()
            page = time.monotonic() - began
            wait_for_answers(asked(url.netloc, f"{url.path}events?rev=0"))
            answers = time.monotonic() - began
        finally:
            server.terminate()
    return Opening(page, answers, processor_seconds() - used)


def measure(root: str, turns: int) -> Opening:
    """The quickest of several openings, behind one that may unpack the programs."""
    with book() as path:
        measured(root, path)
        return min((measured(root, path) for _ in range(turns)), key=lambda it: it.answers)


if __name__ == "__main__":
    print(measure(os.path.dirname(os.path.dirname(os.path.realpath(__file__))), 5))
