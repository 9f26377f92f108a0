"""`edits_to`: the edits that lead from the cells of the program to those that it is to have. Cells have numbers."""
from __future__ import annotations

from typing import Iterable, Mapping, NamedTuple, Optional, Sequence

from .engine import Edit


class CellEdit(NamedTuple):
    """An edit, and the cell that it is about."""
    number: int
    edit: Edit

    @property
    def source(self) -> Optional[str]:
        """The text that it brings."""
        return self.edit[2] if self.edit[0] in ('insert', 'edit') else None


def edits_to(wanted: Iterable[tuple[int, str]], order: Sequence[int], sent: Mapping[int, str]) -> list[CellEdit]:
    """The edits, each to be done after those before it, that lead to these cells and sources."""
    wanted, now = list(wanted), list(order)
    present = {number for number, _ in wanted}
    edits = [CellEdit(number, ('remove', at)) for at, number in reversed(list(enumerate(order)))
             if number not in present]
    carry_out(edits, now)
    for at, (number, source) in enumerate(wanted):
        if number not in sent:
            steps = [CellEdit(number, ('insert', at, source))]
        else:
            origin = at if now[at] == number else now.index(number, at)
            steps = [CellEdit(number, ('move', origin, at))] if origin != at else []
            steps += [CellEdit(number, ('edit', at, source))] if sent[number] != source else []
        carry_out(steps, now)
        edits += steps
    return edits


def carry_out(edits: Iterable[CellEdit], order: list[int]) -> None:
    """Does with the numbers of cells what edits do with the cells."""
    for number, (word, at, *rest) in edits:
        if word == 'insert':
            order.insert(at, number)
        elif word == 'move':
            order.insert(rest[0], order.pop(at))
        elif word == 'remove':
            del order[at]


def first_place(edits: Iterable[CellEdit]) -> int:
    """The first place of which the cell may be another behind edits."""
    return min(min(edit[1], edit[2]) if edit[0] == 'move' else edit[1] for _, edit in edits)
