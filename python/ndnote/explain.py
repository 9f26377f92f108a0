"""What a refused statement worked on: the program is asked for the types and shapes of the operands. A refused
statement changes nothing and its cell stops there, so the session behind the cell is the one that it was refused in."""
from __future__ import annotations

import ast
import copy
import difflib
from typing import NamedTuple, Optional

from .engine import Notebook, Refusal
from .probe import behind_cell, known

GROUPS = ('View', 'Index', 'Shape', 'Ufunc', 'Reduce')
OTHERS = ('Stmt.NotAnArray', 'Stmt.BadArgument')
MOST = 24               # parts of a statement that are looked at
LONGEST = 60            # characters of a part that are shown


class Operand(NamedTuple):
    """A part of a refused statement, and what it is."""
    text: str
    words: str


def statement_at(source: str, line: int) -> Optional[ast.stmt]:
    """The statement that begins on a line, as Python reads it."""
    try:
        tree = ast.parse(source)
    except (SyntaxError, ValueError, RecursionError, MemoryError):
        return None
    return next((statement for statement in tree.body if statement.lineno == line), None)


def is_numpy(node: ast.AST) -> bool:
    """Whether a node is `np`, or something in it, which is no value."""
    while isinstance(node, ast.Attribute):
        node = node.value
    return isinstance(node, ast.Name) and node.id == 'np'


def is_value(node: ast.AST) -> bool:
    if isinstance(node, ast.Constant):
        return isinstance(node.value, int)
    values = (ast.BinOp, ast.UnaryOp, ast.Compare, ast.Subscript, ast.Call, ast.Attribute, ast.Name)
    return isinstance(node, values) and not is_numpy(node)


def parts(node: ast.AST) -> list[ast.AST]:
    """The values that an expression works on, in the order in which they are evaluated."""
    found: list[ast.AST] = []
    if isinstance(node, ast.BinOp):
        found = [node.left, node.right]
    elif isinstance(node, ast.UnaryOp):
        found = [node.operand]
    elif isinstance(node, ast.Compare):
        found = [node.left, *node.comparators]
    elif isinstance(node, ast.Subscript):
        found = [node.value, *(node.slice.elts if isinstance(node.slice, ast.Tuple) else [node.slice])]
    elif isinstance(node, ast.Call):
        found = [node.func.value] if isinstance(node.func, ast.Attribute) else []
        found += node.args
    elif isinstance(node, ast.Attribute):
        found = [node.value]
    return [part for part in found if is_value(part)]


def roots(statement: ast.stmt) -> list[ast.AST]:
    """The values that a statement itself works on, in the order in which they are evaluated."""
    if isinstance(statement, ast.Assign):
        target = statement.targets[0]
        return [statement.value] + ([target] if isinstance(target, ast.Subscript) else [])
    if isinstance(statement, ast.AugAssign):
        return [statement.target, statement.value]
    return parts(statement.value) if isinstance(statement, ast.Expr) else []


def in_order(nodes: list[ast.AST]) -> list[ast.AST]:
    """Expressions behind all the parts that they work on."""
    found: list[ast.AST] = []
    for node in nodes:
        found += in_order(parts(node)) + [node]
    return found


def span(node: ast.AST) -> tuple:
    """Where a node stands in its source, which tells it from all others."""
    return node.lineno, node.col_offset, node.end_lineno, node.end_col_offset


class Named(ast.NodeTransformer):
    """Puts names in the place of the parts of an expression."""

    def __init__(self, names: dict[tuple, str]) -> None:
        self.names = names

    def visit(self, node: ast.AST) -> ast.AST:
        name = self.names.get(span(node)) if isinstance(node, ast.expr) else None
        return ast.Name(name, ast.Load()) if name else self.generic_visit(node)


def fresh_name(taken: set[str]) -> str:
    """A name that no name in the session begins with."""
    name = 'part'
    while any(other.startswith(name) for other in taken):
        name += '_'
    return name


def operands(notebook: Notebook, at: int, source: str, refusal: Refusal) -> list[Operand]:
    """What the refused operation of cell `at` worked on. Its parts are evaluated one by one until one is refused."""
    word = refusal.fault.split(' ')[0]
    statement = statement_at(source, refusal.line)
    if not statement or word.split('.')[0] not in GROUPS and word not in OTHERS:
        return []
    wanted, front = roots(statement), fresh_name(set(notebook.names(at)))
    nodes = in_order(wanted)[:MOST]
    names: dict[tuple, str] = {}
    lines = []
    for count, node in enumerate(nodes):
        name = f'{front}{count}'
        lines.append(f'{name} = {ast.unparse(Named(names).visit(copy.deepcopy(node)))}')
        names[span(node)] = name
    probe = behind_cell(notebook, at).behind(lines)
    if probe.stopped and probe.stopped.fault != refusal.fault:
        return []
    shown = parts(nodes[probe.stopped.line - 1]) if probe.stopped else wanted
    asked = {names[span(node)]: ast.get_source_segment(source, node) or '' for node in shown if span(node) in names}
    found = known(probe, list(asked))
    return [Operand(shortened(asked[name]), what.words) for name, what in found.items()]


def shortened(text: str) -> str:
    text = ' '.join(text.split())
    return text if len(text) <= LONGEST else text[:LONGEST - 1] + '…'


def alike(notebook: Notebook, at: int, fault: str) -> str:
    """A bound name that is spelled like one that is not."""
    if not fault.startswith('Stmt.NoName '):
        return ''
    close = difflib.get_close_matches(fault.split(' ')[1], notebook.names(at), 1)
    return close[0] if close else ''
