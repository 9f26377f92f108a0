"""`Sender`: what the program has of a book, how cells are sent to it, and which of them run and ran."""
from __future__ import annotations

from typing import Any, NamedTuple, Optional, Sequence

from .edits import CellEdit, carry_out
from .engine import Notebook


class Doing(NamedTuple):
    """What is not answered yet: a cell and its source, an input and its look, several edits without a number, or a cell
    and None for what is seen of it."""
    number: Any
    what: Any
    edits: Sequence[CellEdit] = ()      # of the cells


class Sender:
    """The cells that one process of the program has. Only one thread sends; any may ask what runs."""

    def __init__(self, memory: Optional[int]) -> None:
        self.memory = memory
        self.tells_runs = False     # whether the program tells which cells ran
        self.ran: set[int] = set()  # the cells that ran since the book was another
        self.begin()

    def begin(self) -> None:
        self.notebook = Notebook(memory=self.memory, progress=True)
        self.order: list[int] = []          # the cells of the program, in order
        self.sent: dict[int, str] = {}      # and their sources
        self.inputs: dict[str, tuple[Any, Any]] = {}    # to the look of the file, and what tells its bytes from others
        self.unasked: set[int] = set()      # the cells that ran and were not asked what they show
        self.current: Optional[Doing] = None

    def close(self) -> None:
        self.notebook.close()

    def send(self, doing: Doing) -> None:
        """Has the program do edits of cells, several as one. Where they are refused nothing has changed."""
        self.current = doing
        self.notebook.apply([edit for _, edit in doing.edits])
        self.current = doing._replace(edits=())
        carry_out(doing.edits, self.order)
        for number, edit in doing.edits:
            if edit[0] == 'remove':
                del self.sent[number]
        self.sent.update((edit.number, edit.source) for edit in doing.edits if edit.source is not None)
        self.note_runs()

    def note_runs(self) -> None:
        """Notes which cells ran in the edit that was done."""
        if self.tells_runs:
            numbers = [self.order[at] for at in self.notebook.ran()]
            self.ran.update(numbers)
            self.unasked.update(numbers)

    def running(self) -> Optional[int]:
        """The cell that runs now, where the program tells it; from any thread."""
        at, order = self.notebook.running, list(self.order)
        current = self.current
        if at is None or not current or current.what is None and not current.edits:
            return None
        try:
            carry_out(current.edits, order)
            return order[at]
        except IndexError:                      # the edits were done meanwhile
            return None

    def culprit(self) -> tuple[Any, Any]:
        """What an end of the process is blamed on: the cell that ran, or where that is not told, what was sent."""
        number, (name, what, edits) = self.running(), self.current or Doing(None, None)
        if number is None:
            return name, None if name is None else what
        brought = [edit.source for edit in edits if edit.number == number and edit.source is not None]
        return number, brought[-1] if brought else self.sent.get(number)
