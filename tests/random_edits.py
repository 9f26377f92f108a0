#!/usr/bin/env python3
"""tests/random_edits.py [--desk] [--seconds S] [--seed N]: edited notebooks answer as fresh notebooks of the same cells do.

A trial is a notebook under fifty random edits, refused ones and changes of the rule among them. One trial of eight
begins with 40 to 100 cells, so that edits go past several snapshots, and has twenty edits. In one of four of these the
cells bind up to 150 names, most of which read one array, so that one edit makes more names others than a snapshot notes.
After each edit the program is asked for all: the sources, texts, refusals and saved files of all cells, the names after
each, and the values of seven names. The same questions go to a run of the program that is given the rule, the inputs
and the cells as they are by then, from nothing, and the answers must be the same. With --desk the scripts have words for
front ends, as far as the program has them. By `try` cells are tried before these questions: each must give what it gives
where that run has it inserted, and the questions show that nothing has changed. By `begin` one edit of five is several
edits that are made as one. `ran` must tell the cells that an edit makes stale, as `stale_cells` finds them, and behind a
refused edit what it told before. By `reads` each cell must have read what `stale_cells` finds, of the cells that it finds.

The program is that of NDNOTE_PROGRAM, else the one built in crates/ndnote. Exit status 1: a trial failed; its script is
printed, made short.
"""
import argparse
import os
import random
import subprocess
import sys
import time
from concurrent.futures import ThreadPoolExecutor
from dataclasses import dataclass
from typing import Dict, List, Optional, Tuple

sys.dont_write_bytecode = True
from stale_cells import Pass, Told  # noqa: E402

ROOT = os.path.dirname(os.path.dirname(os.path.abspath(__file__)))
PROGRAM = os.environ.get("NDNOTE_PROGRAM", os.path.join(ROOT, "crates/ndnote/out/ndnote"))
WORDS: List[str] = []   # of its command line
MOST_CELLS = 12
EDITS = 50
LONG_CELLS = (40, 100)
LONG_EDITS = 20
MANY_NAMES = 150
MARK = "bad command"
PARTS = 4               # of the answers behind an edit: its own, runs and reads, tries, all questions
TOGETHER = 5            # one edit of so many is several that are made as one
MOST_TOGETHER = 6
TRIES = 3               # of drawn cells behind an edit

ARRAYS = ["x = np.arange(4)", "y = np.arange(3)", "z = np.arange(6)", "x = np.arange(2)"]
SHARED = ["y = x", "z = y", "x = z", "y = z", "z = x", "x = y", "x = x"]
WRITES = ["x[0] = 7", "y[1] = 8", "z[-1] = -9", "x[-2] = 5", "y[0] = 7", "z[1] = x[0]", "x[1] = y[-1]",
          "y[0] = y[1]", "x[0] = x[0]", "z[0] = 18"]
VIEWS = ["y = x[1:]", "z = x[::-1]", "x = z[:3]", "z = y[::2]", "y[:2] = x[-2:]", "print(x[1:])", "print(z[::-2])"]
AUGMENTED = ["x += 1", "y -= 2", "x[1:] += x[:-1]", "z[::2] *= 3", "x[0] += 5", "y[-1] -= z[0]", "z += z[0]",
             "x += y", "y //= 2", "z[:2] ^= y[-2:]", "a += 1", "b *= a", "b -= x", "x += b"]
PRINTS = ["print(x)", "print(y, z)", "print(x, y, z)", "print(x[0])", "print(z[-1], y[0])", "print(y[1])"]
NUMBERS = ["a = 1", "a = -2", "a = True", "b = a", "a = b", "b = 0", "b = x[1]", "a = y[-1]", "a = x[b]", "x[a] = 4",
           "y[b] = a", "x[0] = b", "print(a, b)", "print(x[a])", "print(b)"]
UNBOUND = ["del x", "del y", "del z", "del a", "del b", "x = y", "z = x", "a = x", "b = a", "x = 3"]
REFUSED = ["x[9] = 1", "y[-7] = 1", "print(x[6])", "print(q)", "w = q", "del q", "a[0] = 1", "x[0, 0] = 1",
           "x[0] = z", "x[0] = 9223372036854775808", "a = 18446744073709551616", "y = x.T",
           "x = np.zeros(3)"]
CHOSEN = ["x[y] = 1", "x[y] += 1", "print(x[y])", "z = x[y]", "x[y] = z", "z[y] -= x", "x[9] += y[9]"]
UNREAD = ["x = 1 +", "y = 1 < 2 < 3", "x = $", "print(x", "frob(x)"]
SILENT = ["", "# a remark", "import numpy as np"]
LOADED = ["x = np.load('f')", "y = np.load('g')", "z = np.load('none')", "x = buffer('b')", "y = buffer('f')"]
LONG = ["x = np.arange(40)", "y = np.arange(40)", "x = np.arange(200)", "y = x", "z = x[8:]", "z = y[::2]"]
ELEMENTS = ["x[5] = 7", "x[5] = 8", "x[5] += 1", "x[6] = x[5]", "x[5:8] += 2", "x[4:6] = x[6:8]", "x[8] = 9", "x[-1] = 5",
            "y[5] = 1", "y[30] = 2", "y[4:7] -= 1", "z[0] = 4", "z[0] += 1", "z[4:6] = x[:2]", "x[::8] += 1"]
FEW = ["print(x[5])", "print(x[4:7])", "print(y[30], y[5])", "print(z[0])", "a = x[6]", "b = y[5]", "print(x[8:10])"]
SAVED = ["np.save('s', x)", "np.save('t', y[0])", "np.save('s', z[1:])", "np.save('t', a)"]
POOLS: Dict[str, List[List[str]]] = {
    "sharing": [ARRAYS, SHARED, WRITES, PRINTS],
    "numbers": [ARRAYS, NUMBERS, NUMBERS, WRITES, PRINTS],
    "unbinding": [ARRAYS, SHARED, UNBOUND, WRITES, PRINTS],
    "refusals": [ARRAYS, ARRAYS, SHARED, WRITES, PRINTS, REFUSED],
    "inputs": [ARRAYS, WRITES, PRINTS, LOADED, SAVED],
    "in place": [ARRAYS, SHARED, VIEWS, AUGMENTED, AUGMENTED, PRINTS],
    "elements": [LONG, ELEMENTS, ELEMENTS, ELEMENTS, FEW, FEW],
    "saves": [ARRAYS, VIEWS, WRITES, SAVED, SAVED],
    "choosing": [ARRAYS, SHARED, CHOSEN, WRITES, PRINTS],
    "all": [ARRAYS, SHARED, WRITES, PRINTS, NUMBERS, UNBOUND, REFUSED, UNREAD, SILENT, LOADED, VIEWS, AUGMENTED, SAVED],
}
OPENING = "x = np.arange(4)\ny = np.arange(3)\nz = x\na = 1\nb = True"
NAMES = ["x", "y", "z", "a", "b", "w", "q"]
SAVES = ["s", "t"]
RULES = ["python", "atomic"]
CHOICES = ["insert"] * 5 + ["change"] * 4 + ["keep"] + ["move"] * 3 + ["remove"] * 2 + ["rule"] * 2
CHOICES += ["input", "drop", "refused"]


@dataclass(frozen=True)
class Input:
    """An input: the words of its line, the elements of the block that it makes, if it makes any, and how many of them
    the array has, where these are not all."""
    kind: str
    words: str
    elements: Optional[Tuple[int, ...]]
    element_kind: str = "int64"
    count: Optional[int] = None


def npy_of(numbers: List[int]) -> bytes:
    """The NPY file of an array of int64 with one axis."""
    text = f"{{'descr': '<i8', 'fortran_order': False, 'shape': ({len(numbers)},), }}"
    header = text.ljust(117).encode() + b"\n"
    data = b"".join(number.to_bytes(8, "little", signed=True) for number in numbers)
    return b"\x93NUMPY\x01\x00" + len(header).to_bytes(2, "little") + header + data


BYTES = [b"", b"no file", b"\x93NUMPY\x01\x00", b"\x01\x02\x03\x04"]
INPUTS = [Input("load", "npy " + (data.hex() or "-"), None) for data in BYTES]
INPUTS += [Input("load", "npy " + npy_of(list(numbers)).hex(), numbers) for numbers in ((1, 2), (1, 3), (4, 5, 6))]
INPUTS += [Input("buffer", f"buffer b 1 2 1 0 {data.hex() or '-'}", tuple(data) or None, "int8", 2)
           for data in (b"", b"\x01\x02\x03\x04", b"\x05\x02", b"\x05\x02\x03")]


@dataclass(frozen=True)
class Edit:
    """An edit: its word, its places or the name of an input or a rule, and the text or input that it brings."""
    word: str
    at: int = 0
    to: int = 0
    text: str = ""
    name: str = ""
    input: Optional[Input] = None
    parts: Tuple["Edit", ...] = ()

    def lines(self) -> List[str]:
        if self.word == "together":
            return ["begin", *(line for part in self.parts for line in part.lines()), "end"]
        if self.word in ("insert", "edit"):
            return [f"{self.word} {self.at}", *(self.text.split("\n") if self.text else []), "."]
        if self.word == "move":
            return [f"move {self.at} {self.to}"]
        if self.word == "remove":
            return [f"remove {self.at}"]
        if self.word == "rule":
            return [f"rule {self.name}"]
        return [f"input {self.name} {self.input.words}" if self.input else f"drop {self.name}"]


@dataclass(frozen=True)
class Cell:
    """A cell: its label, which tells it from the others as long as it stands, and its text."""
    label: int
    text: str


class Book:
    """The cells, the inputs and the rule that edits leave."""

    def __init__(self) -> None:
        self.cells: List[Cell] = []
        self.inputs: Dict[str, Input] = {}
        self.rule = RULES[0]

    def refusal(self, edit: Edit) -> Optional[str]:
        count = len(self.cells)
        if edit.word in ("input", "drop"):
            if "/" in edit.name:
                return "refused BadInputName"
            return f"refused NoInputNamed {edit.name}" if edit.word == "drop" and edit.name not in self.inputs else None
        if edit.word == "rule":
            return None
        most = count if edit.word == "insert" else count - 1
        for at in (edit.at, edit.to if edit.word == "move" else 0):
            if at > most and (at or edit.word != "insert"):
                return f"refused NoCell {at} {count}"
        return None

    def copy(self) -> "Book":
        copy = Book()
        copy.cells, copy.inputs, copy.rule = list(self.cells), dict(self.inputs), self.rule
        return copy

    def make_together(self, parts: Tuple[Edit, ...]) -> str:
        """Makes edits as one, all of them or none, and gives the one answer."""
        draft = self.copy()
        for number, part in enumerate(parts):
            answer = draft.make(part)
            if answer != "ok":
                return answer.replace("refused", f"refused {number}", 1)
        self.cells, self.inputs, self.rule = draft.cells, draft.inputs, draft.rule
        return "ok"

    def make(self, edit: Edit) -> str:
        """Makes an edit, and gives its answer."""
        if edit.word == "together":
            return self.make_together(edit.parts)
        refusal = self.refusal(edit)
        if refusal:
            return refusal
        if edit.word == "insert":
            labels = {cell.label for cell in self.cells}
            label = next(label for label in range(len(labels) + 1) if label not in labels)
            self.cells.insert(edit.at, Cell(label, edit.text))
        elif edit.word == "edit":
            self.cells[edit.at] = Cell(self.cells[edit.at].label, edit.text)
        elif edit.word == "move":
            self.cells.insert(edit.to, self.cells.pop(edit.at))
        elif edit.word == "remove":
            del self.cells[edit.at]
        elif edit.word == "input":
            self.inputs[edit.name] = edit.input
        elif edit.word == "rule":
            self.rule = edit.name
        else:
            del self.inputs[edit.name]
        return "ok"

    def lines(self) -> List[str]:
        """A script that makes these cells and inputs from nothing, under the rule."""
        edits = [Edit("rule", name=self.rule)] if self.rule != RULES[0] else []
        edits += [Edit("input", name=name, input=value) for name, value in self.inputs.items()]
        edits += [Edit("insert", at, text=cell.text) for at, cell in enumerate(self.cells)]
        return [line for edit in edits for line in edit.lines()]

    def questions(self) -> List[str]:
        """Everything that a script may ask of these cells."""
        lines = ["count"]
        for at in range(len(self.cells)):
            lines += [f"source {at}", f"show {at}", f"names {at}"]
            lines += [f"value {at} {name}" for name in NAMES] + [f"saved {at} {name}" for name in SAVES]
        return lines


class Drawer:
    """Draws the edits of a notebook."""

    def __init__(self, seed: int) -> None:
        self.random = random.Random(seed)
        self.pool = self.random.choice(list(POOLS.values()))
        self.most = max(self.random.randint(0, MOST_CELLS), self.random.randint(0, MOST_CELLS))
        self.is_long = self.random.randrange(8) == 0
        self.has_many_names = self.is_long and self.random.randrange(4) == 0
        if self.is_long:
            self.most = self.random.randint(*LONG_CELLS)

    def text_of_many_names(self, book: Book) -> str:
        """A cell that binds the array that most read, or names to elements of it."""
        draw = self.random
        if not book.cells or draw.randrange(30) == 0:
            return f"x = np.arange(4)\nx[0] = {draw.randrange(3)}"
        some = [draw.randrange(MANY_NAMES) for _ in range(draw.randint(1, 12))]
        lines = [f"n{k} = {draw.choice(['x[0]', 'x[0]', 'x[0]', 'x[1]', f'n{k // 2}'])}" for k in some]
        return "\n".join([*lines, *([f"print(n{some[0] // 3}, x[0])"] if draw.randrange(3) == 0 else [])])

    def text(self, book: Book) -> str:
        draw = self.random
        if self.has_many_names:
            return self.text_of_many_names(book)
        if not book.cells or draw.randrange(20) == 0:
            return OPENING
        if draw.randrange(8) == 0:
            return draw.choice(book.cells).text
        if draw.randrange(30) == 0:
            return ""
        return "\n".join(draw.choice(draw.choice(self.pool)) for _ in range(draw.randint(1, 4)))

    def opening(self, book: Book) -> List[Edit]:
        """The insertions, each behind the last cell, with which a long notebook begins."""
        count = len(book.cells)
        return [Edit("insert", count, text=self.text(book))] if self.is_long and count < self.most else []

    def refused(self, count: int) -> Edit:
        behind, inside = count + self.random.randrange(3), self.random.randrange(count) if count else 0
        text, name = "x = np.arange(4)", self.random.choice(["a/b", "none"])
        return self.random.choice([
            Edit("insert", behind + 1, text=text), Edit("edit", behind, text=text), Edit("move", behind, inside),
            Edit("move", inside, behind), Edit("remove", behind), Edit("drop", name=name),
            Edit("input", name="a/b", input=self.random.choice(INPUTS))])

    def edit(self, book: Book) -> Edit:
        """An edit of the present cells and inputs."""
        draw, count = self.random, len(book.cells)
        at = draw.randrange(count) if count else 0
        choice = draw.choice(CHOICES)
        if choice == "insert" and count < self.most:
            return Edit("insert", draw.randint(0, count), text=self.text(book))
        if choice in ("insert", "change"):
            return Edit("edit", at, text=self.text(book))
        if choice == "keep":
            return Edit("edit", at, text=book.cells[at].text if count else "")
        if choice == "move":
            return Edit("move", at, draw.randrange(count) if count else 0)
        if choice == "remove":
            return Edit("remove", at)
        if choice == "refused":
            return self.refused(count)
        if choice == "rule":
            return Edit("rule", name=draw.choice(RULES))
        name = draw.choice(["f", "g", "b"])
        return Edit("input", name=name, input=draw.choice(INPUTS)) if choice == "input" else Edit("drop", name=name)

    def several(self, book: Book) -> Edit:
        """Several edits that are made as one, of which each is one of the cells and inputs that those before it leave."""
        draft, parts = book.copy(), []
        for _ in range(self.random.randrange(MOST_TOGETHER)):
            parts.append(self.edit(draft))
            draft.make(parts[-1])
        return Edit("together", parts=tuple(parts))


def answers(lines: List[str]) -> List[str]:
    """What the program answers to a script, in the parts between its marks. A byte of a file is a character."""
    script = ("\n".join(lines) + "\n").encode("latin-1")
    done = subprocess.run([PROGRAM, *WORDS], input=script, capture_output=True, timeout=120, check=False)
    if done.returncode:
        return [f"exit status {done.returncode}: {done.stderr.decode('latin-1')}"]
    return done.stdout.decode("latin-1").split(MARK + "\n")


@dataclass(frozen=True)
class Has:
    """Which words the program has beside the commands of every script."""
    tries: bool
    ran: bool
    reads: bool
    together: bool


def words_of_program() -> Has:
    words = answers(["words"])[0].split()
    return Has(*(word in words for word in ("try", "ran", "reads", "begin")))


def tried_lines(edit: Edit) -> List[str]:
    """The lines that try the cell of an insertion."""
    return ["try" + edit.lines()[0].removeprefix("insert"), *edit.lines()[1:]]


def inserted_lines(edit: Edit) -> List[str]:
    """A script that inserts a cell, asks what it gives, and takes it out again."""
    return [*edit.lines(), f"show {edit.at}", *(f"saved {edit.at} {name}" for name in SAVES), f"remove {edit.at}"]


def as_tried(answer: str) -> str:
    """The answer to a try, made of those to `inserted_lines`."""
    if not answer.startswith("ok\n"):
        return answer.split("\n")[0] + "\n"
    shown, files = answer.removeprefix("ok\n").split("\nend\n")
    found = dict(zip(SAVES, files.split("\n")))
    lines = []
    for line in shown.split("\n"):
        word, *names = line.split(" ")
        lines.append(line)
        if word == "save":
            lines.append(bytes.fromhex(found[names[0]].split(" ")[1]).decode("latin-1"))
    return "\n".join([*lines, "end", ""])


def is_read(text: str) -> bool:
    return not any(line in UNREAD or line == "a = 18446744073709551616" for line in text.split("\n"))


def first_difference(found: str, wanted: str) -> str:
    for one, other in zip(found.split("\n") + [""], wanted.split("\n") + [""]):
        if one != other:
            return f"answered: {one}\n  a fresh notebook: {other}"
    return f"answered: {found}\n  a fresh notebook: {wanted}"


@dataclass(frozen=True)
class Fault:
    """What is wrong, and with which edit."""
    number: int
    text: str


@dataclass
class Step:
    """What is expected after an edit: its answer, and those of a script that makes the same cells."""
    number: int
    wanted: str
    fresh: List[str]
    cells: List[Cell]
    inputs: Dict[str, Input]
    rule: str


def tries_of(book: Book, number: int, edits: List[Edit]) -> List[Edit]:
    """Cells that are tried behind an edit: texts of the others, at drawn places. The same for the same edits."""
    draw = random.Random(f"{number} {edits[number]}")
    texts = [edit.text for edit in edits if edit.text] or [OPENING]
    lines = [draw.choice(draw.choice(draw.choice(list(POOLS.values())))) for _ in range(2)]
    count = len(book.cells)
    return [Edit("insert", draw.randint(0, count + (draw.randrange(20) == 0)), text=text)
            for text in [*draw.choices(texts, k=TRIES - 1), "\n".join(lines)]]


def steps_of(edits: List[Edit], has: Has, every: bool) -> Tuple[List[str], List[Step]]:
    """A script of the edits with all questions after each of the last fifty, or after the last alone, and what is
    expected there."""
    book, script, steps = Book(), [], []
    for number, edit in enumerate(edits):
        wanted = book.make(edit)
        script += edit.lines()
        if every and number >= len(edits) - EDITS or number == len(edits) - 1:
            tries = tries_of(book, number, edits) if has.tries else []
            tried = [line for it in tries for line in tried_lines(it)]
            told = [*(["ran"] if has.ran else []), *(f"reads {at}" for at in range(len(book.cells)) if has.reads)]
            script += ["mark", *told, "mark", *tried, "mark", *book.questions(), "mark"]
            fresh = [*book.lines(), "mark", *book.questions()]
            for it in tries:
                fresh += ["mark", *inserted_lines(it)]
            steps.append(Step(number, wanted, fresh, list(book.cells), dict(book.inputs), book.rule))
    return script, steps


def wrong_answers(told: List[str], steps: List[Step], every: bool) -> Optional[Fault]:
    """The first edit that is not answered as the book has it, or behind which a fresh notebook answers otherwise."""
    with ThreadPoolExecutor(os.cpu_count()) as pool:
        all_fresh = list(pool.map(lambda step: answers(step.fresh)[1:] or [""], steps))
    for at, step in enumerate(steps):
        fresh, *inserted = all_fresh[at]
        tried = list(map(as_tried, inserted))
        answer, _, tries, found = told[PARTS * at:PARTS * (at + 1)]
        if every and answer.split("\n")[-2:] != [step.wanted, ""]:
            return Fault(step.number, f"edit {step.number} is answered {answer!r} in place of {step.wanted!r}")
        if tries != "".join(tried):
            return Fault(step.number, f"a try after edit {step.number} " + first_difference(tries, "".join(tried)))
        if found != fresh:
            return Fault(step.number, f"after edit {step.number} " + first_difference(found, fresh))
    return None


def told_of(lines: List[str]) -> Told:
    """What the lines behind `reads` tell; the numbers of blocks are left out."""
    told = Told({}, set(), set())
    for word, *words in (line.split(" ") for line in lines):
        cells = [None if it == "-" else int(it) if it.isdigit() else it for it in words]
        if word == "name":
            told.names[words[0]] = cells[1]
        elif word == "input":
            told.inputs.add(words[0])
        else:
            told.arrays.add((cells[0], cells[2]))
    return told


def wrong_reads(lines: List[str], now: Pass) -> Optional[str]:
    """What is wrong with the answers to `reads` of each cell."""
    for at in range(len(now.runs)):
        count = int(lines[0].split(" ")[1])
        found, lines = lines[1:count + 1], lines[count + 1:]
        if len(set(found)) != count or told_of(found) != now.told(at):
            return f"cell {at} is told to have read {found}, and has read {now.told(at)}"
    return None


def wrong_runs(told: List[str], steps: List[Step], has: Has) -> Optional[Fault]:
    """The first edit that ran other cells than those that it made stale, or behind which a cell is told to have read
    what it has not."""
    ran, last = "ran 0", Pass()
    for at, step in enumerate(steps):
        first, *lines = told[PARTS * at + 1].split("\n")
        if step.wanted == "ok":
            last = last.then(step.cells, step.inputs, is_read, step.rule)
            ran = " ".join(map(str, ["ran", len(last.stale), *last.stale]))
        if first != ran and (at or not step.number):
            return Fault(step.number, f"edit {step.number} is told to have run {first!r} in place of {ran!r}")
        wrong = wrong_reads(lines, last) if has.reads and last.runs else None
        if wrong:
            return Fault(step.number, f"after edit {step.number} {wrong}")
        ran = first
    return None


def fault_of(edits: List[Edit], has: Has, every: bool = True) -> Optional[Fault]:
    """What is wrong with the answers to these edits, asked for after each or after the last alone."""
    if not edits:
        return None
    script, steps = steps_of(edits, has, every)
    told = answers(script)
    if len(told) != PARTS * len(steps) + 1:
        return Fault(len(edits) - 1, f"{len(told)} parts of answers, not {PARTS * len(steps) + 1}: {told[-1][-200:]}")
    fault = wrong_answers(told, steps, every)
    return fault or (wrong_runs(told, steps, has) if has.ran and every else None)


def shortened(edits: List[Edit], fault: Fault, has: Has, until: float) -> List[Edit]:
    """Fewer edits whose answers are wrong too."""
    edits = edits[:fault.number + 1]
    every = not fault_of(edits, has, False)
    at = len(edits)
    while at > 0 and time.monotonic() < until:
        at -= 1
        fewer = edits[:at] + edits[at + 1:]
        if fault_of(fewer, has, every):
            edits = fewer
    return edits


def drawn_edits(seed: int, has: Has) -> List[Edit]:
    drawer, book, edits = Drawer(seed), Book(), []
    while first := drawer.opening(book):
        edits += first
        book.make(first[0])
    for _ in range(LONG_EDITS if drawer.is_long else EDITS):
        is_one = not has.together or drawer.random.randrange(TOGETHER)
        edits.append(drawer.edit(book) if is_one else drawer.several(book))
        book.make(edits[-1])
    return edits


def trial(seed: int, has: Has) -> bool:
    """Whether the notebook of a seed is answered as it should be; says what is wrong."""
    edits = drawn_edits(seed, has)
    fault = fault_of(edits, has)
    if not fault:
        return True
    edits = shortened(edits, fault, has, time.monotonic() + 30)
    print(f"seed {seed}: {(fault_of(edits, has) or fault).text}")
    print("\n".join(line for edit in edits for line in edit.lines()))
    return False


def main() -> int:
    parser = argparse.ArgumentParser(description=__doc__.split("\n")[0])
    parser.add_argument("--desk", action="store_true", help="scripts have words for front ends")
    parser.add_argument("--seconds", type=float, default=120)
    parser.add_argument("--seed", type=int, default=random.randrange(1 << 32))
    options = parser.parse_args()
    if not os.access(PROGRAM, os.X_OK):
        sys.exit(f"there is no program at {PROGRAM}")
    WORDS.extend(["--desk"] if options.desk else [])
    found = words_of_program()
    told = [name for name, is_there in (("tries are drawn", found.tries), ("several edits as one", found.together),
                                        ("runs are compared", found.ran), ("reads are compared", found.reads)) if is_there]
    print(", ".join([f"seed {options.seed}", f"{options.seconds:g} seconds", *told]), flush=True)
    until, passed, failed, seed = time.monotonic() + options.seconds, 0, 0, options.seed
    while time.monotonic() < until and failed < 5:
        if trial(seed, found):
            passed += 1
        else:
            failed += 1
        seed += 1
    print(f"{passed} passed, {failed} failed")
    return 1 if failed else 0


if __name__ == "__main__":
    sys.exit(main())
