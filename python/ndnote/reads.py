"""`Reads`: what a cell read, as the program tells it, and `Links`: the lines of a page that lead from cells to it."""
from __future__ import annotations

import re
from typing import Any, Iterable, NamedTuple, Optional, Sequence

NUMBER = '0|[1-9][0-9]{0,18}'
COUNT = re.compile(f'reads ({NUMBER})')
NAME = re.compile(rf'name (\S+) (-|{NUMBER})')
INPUT = re.compile(r'input ([A-Za-z0-9_.-]{1,64})')
BLOCK = re.compile(f'block (-|{NUMBER}) ({NUMBER}) (-|{NUMBER})')


class NameRead(NamedTuple):
    """A name that a cell read, and the place of the last cell in front that bound or unbound it."""
    name: str
    cell: Optional[int]


class BlockRead(NamedTuple):
    """Bytes of an array that a cell read: the place of the cell that made the array, its number there, and the place of
    the last cell in front that made it or wrote a byte that was read."""
    maker: Optional[int]
    number: int
    writer: Optional[int]


class Reads(NamedTuple):
    """What a cell read: names, inputs by their names, and blocks of bytes."""
    names: tuple[NameRead, ...] = ()
    inputs: tuple[str, ...] = ()
    blocks: tuple[BlockRead, ...] = ()

    @staticmethod
    def of_lines(lines: Iterable[str]) -> 'Reads':
        """What stands behind the first line of an answer. A ValueError tells a line that is none of it."""
        names: list[NameRead] = []
        inputs: list[str] = []
        blocks: list[BlockRead] = []
        for line in lines:
            if match := NAME.fullmatch(line):
                names.append(NameRead(match.group(1), place(match.group(2))))
            elif match := INPUT.fullmatch(line):
                inputs.append(match.group(1))
            elif match := BLOCK.fullmatch(line):
                maker, number, writer = match.groups()
                blocks.append(BlockRead(place(maker), int(number), place(writer)))
            else:
                raise ValueError(f'{line!r} is no line of what a cell read')
        return Reads(tuple(names), tuple(inputs), tuple(blocks))

    def places(self) -> set[int]:
        """The places of all cells that are told."""
        told = [cell for _, cell in self.names] + [cell for maker, _, writer in self.blocks for cell in (maker, writer)]
        return {cell for cell in told if cell is not None}


def place(word: str) -> Optional[int]:
    """The place that a word tells; a dash tells none."""
    return None if word == '-' else int(word)


def count_of(line: str) -> int:
    """How many lines follow the first line of an answer."""
    match = COUNT.fullmatch(line)
    if not match:
        raise ValueError(f'{line!r} is no answer to what a cell read')
    return int(match.group(1))


class Link(NamedTuple):
    """A cell, by its number, from which another cell reads names, or bytes that it wrote into an array."""
    number: int
    names: tuple[str, ...]
    is_memory: bool         # bytes came from it by another way than by the name that it bound


class Links(NamedTuple):
    """The cells and the inputs that a cell reads from."""
    cells: tuple[Link, ...] = ()
    inputs: tuple[str, ...] = ()

    @staticmethod
    def of_reads(reads: Reads, order: Sequence[int]) -> 'Links':
        """What a cell read, by the numbers of the cells that stand at the places; by places in the order of these."""
        names: dict[int, list[str]] = {}
        for name, cell in reads.names:
            if cell is not None:
                names.setdefault(cell, []).append(name)
        memory = {block.writer for block in reads.blocks if is_through_memory(block, set(names))}
        cells = tuple(Link(order[at], tuple(names.get(at, ())), at in memory) for at in sorted({*names, *memory}))
        return Links(cells, reads.inputs)

    def told(self) -> dict[str, Any]:
        """The links as JSON has them."""
        return {'cells': [[number, list(names), is_memory] for number, names, is_memory in self.cells],
                'inputs': list(self.inputs)}


def is_through_memory(block: BlockRead, binders: set[int]) -> bool:
    """Whether the last writer of a block is another cell than one that bound the name by which it was read."""
    if block.writer is None:
        return False
    is_others = block.writer != block.maker and binders != {block.writer}
    return block.writer not in binders or is_others
