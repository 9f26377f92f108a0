"""`reads_of`: what a cell read, for a program that stands in for one that tells it. It runs nothing: it goes through
the statements of the cells, and takes the bytes of an array as one. So it tells a writer also where the program would
not: one that wrote other bytes of the array than those that were read."""
from __future__ import annotations

import ast
import re
from dataclasses import dataclass, field
from typing import Iterator, NamedTuple, Optional, Sequence

VIEWS = ('T', 'reshape', 'transpose')
BUILT_IN = ('np', 'buffer', 'print', 'abs')
PLACES = (ast.Slice, ast.Constant, ast.UnaryOp)       # an index of these alone gives a view


class CellText(NamedTuple):
    """A cell, and the line on which it was refused; 0 for none."""
    source: str
    refused: int


@dataclass(eq=False)
class Block:
    """An array's bytes: the cell that made them, their number there, and the last cell that made or wrote them."""
    maker: int
    number: int
    writer: int


@dataclass
class Walk:
    """What is bound and made behind the cells so far, and what the cell that is gone through has read."""
    at: int = 0
    names: dict[str, tuple[int, Optional[Block]]] = field(default_factory=dict)
    made: int = 0
    read: dict[str, Optional[int]] = field(default_factory=dict)
    inputs: dict[str, None] = field(default_factory=dict)
    blocks: dict[Block, None] = field(default_factory=dict)
    writers: dict[Block, int] = field(default_factory=dict)     # in front of the cell

    def begin(self, at: int) -> None:
        self.at, self.made = at, 0
        self.read, self.inputs, self.blocks = {}, {}, {}
        self.writers = {block: block.writer for _, block in self.names.values() if block}

    def load(self, name: str) -> Optional[Block]:
        """Reads a name, but not what is bound to it."""
        cell, block = self.names.get(name, (None, None))
        if cell != self.at:
            self.read.setdefault(name, cell)
        return block

    def view(self, node: ast.AST) -> Optional[Block]:
        """The block that an expression is a view of. The names in it are read, and their bytes are not."""
        if isinstance(node, ast.Name):
            return self.load(node.id)
        if isinstance(node, ast.Subscript) and all(isinstance(part, PLACES) for part in parts_of(node.slice)):
            return self.view(node.value)
        function = node.func if isinstance(node, ast.Call) else node
        if isinstance(function, ast.Attribute) and function.attr in VIEWS:
            return self.view(function.value)
        return None

    def read_all(self, node: ast.AST) -> None:
        """Reads all names of an expression, their bytes, and inputs."""
        for part in ast.walk(node):
            if isinstance(part, ast.Name) and part.id not in BUILT_IN:
                block = self.load(part.id)
                if block in self.writers:
                    self.blocks[block] = None
            if isinstance(part, ast.Call) and re.fullmatch(r'np\.load|buffer', ast.unparse(part.func)):
                self.inputs[part.args[0].value] = None

    def value(self, node: ast.AST) -> Optional[Block]:
        """The block of a value that is bound: that of a view, or a new one."""
        block = self.view(node)
        if block:
            return block
        self.read_all(node)
        if isinstance(node, (ast.Constant, ast.Name)):
            return None
        self.made += 1
        return Block(self.at, self.made - 1, self.at)

    def store(self, target: ast.AST, block: Optional[Block]) -> None:
        """Binds a name, or writes through one."""
        if isinstance(target, ast.Name):
            self.names[target.id] = self.at, block
            return
        for part in [target.slice] if isinstance(target, ast.Subscript) else []:
            self.read_all(part)
        written = self.view(target.value)
        if written:
            written.writer = self.at

    def step(self, statement: ast.stmt, is_done: bool) -> None:
        """Carries out a statement; of one that is refused, what it reads."""
        if isinstance(statement, ast.Assign):
            block = self.value(statement.value)
            for target in statement.targets if is_done else []:
                self.store(target, block)
        elif isinstance(statement, ast.AugAssign):
            target = statement.target
            self.read_all(statement.value)
            self.read_all(ast.parse(ast.unparse(target), mode='eval'))
            self.store(ast.Subscript(target, ast.Slice()) if isinstance(target, ast.Name) else target, None)
        elif isinstance(statement, ast.Delete) and is_done:
            self.names.update({target.id: (self.at, None) for target in statement.targets})
        elif isinstance(statement, ast.Expr):
            self.read_all(statement.value)

    def lines(self) -> Iterator[str]:
        for name, cell in self.read.items():
            yield f'name {name} {"-" if cell is None else cell}'
        for name in self.inputs:
            yield f'input {name}'
        for block in self.blocks:
            yield f'block {block.maker} {block.number} {self.writers[block]}'


def parts_of(index: ast.AST) -> Sequence[ast.AST]:
    return index.elts if isinstance(index, ast.Tuple) else [index]


def statements(source: str) -> list[ast.stmt]:
    try:
        return [one for one in ast.parse(source).body if not isinstance(one, (ast.Import, ast.ImportFrom))]
    except (SyntaxError, ValueError):
        return []


def reads_of(cells: Sequence[CellText]) -> str:
    """The answer for the last of these cells, each in the state behind those in front."""
    walk = Walk()
    for at, (source, refused) in enumerate(cells):
        walk.begin(at)
        for statement in statements(source):
            is_done = not refused or statement.end_lineno < refused
            walk.step(statement, is_done)
            if not is_done:
                break
    lines = list(walk.lines())
    return ''.join(f'{line}\n' for line in [f'reads {len(lines)}', *lines])
