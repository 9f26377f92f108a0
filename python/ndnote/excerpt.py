"""The first and the last rows of arrays whose text is too long for a cell. Each piece is a text that the program made
of a slice; what joins them is the client's, and is marked so."""
from __future__ import annotations

import ast
from typing import NamedTuple

from .engine import Notebook, Refusal
from .explain import fresh_name, shortened, statement_at
from .probe import Probe, behind_cell, known
from .values import Known

ROWS = 3                # at each end
COLUMNS = 8             # at each end
WORDS = 6               # arguments of a print that are looked at
GAP = ' … '


class Excerpt(NamedTuple):
    """What stands in the place of a text that is too long."""
    text: str           # of the expression
    words: str          # 'int64 · 1,000 × 1,000'
    lines: str          # the ends of its text


def excerpts(notebook: Notebook, at: int, source: str, refusal: Refusal) -> list[Excerpt]:
    """The ends of what a refused `print` of cell `at` would have printed."""
    statement = statement_at(source, refusal.line)
    if not isinstance(statement, ast.Expr) or not isinstance(statement.value, ast.Call):
        return []
    front = fresh_name(set(notebook.names(at)))
    words = {f'{front}{count}': word for count, word in enumerate(statement.value.args[:WORDS])}
    probe = behind_cell(notebook, at).behind([f'{name} = {ast.unparse(word)}' for name, word in words.items()])
    found = known(probe, list(words))
    shown = [Excerpt(shortened(ast.get_source_segment(source, words[name]) or ''), what.words, ends(probe, name, what))
             for name, what in found.items()]
    left = len(statement.value.args) - len(shown)
    more = Excerpt(f'{left} more', 'not shown', f'… {left} more arguments left out by ndnote …')
    return shown + [more] if shown and left else shown


def is_behind(source: str, refusal: Refusal) -> bool:
    """Whether a cell has statements behind the refused one, which did not run."""
    try:
        return any(statement.lineno > refusal.line for statement in ast.parse(source).body)
    except (SyntaxError, ValueError, RecursionError, MemoryError):
        return False


def ends(probe: Probe, name: str, what: Known) -> str:
    """The first and the last rows of a value, and of each row its ends."""
    if len(what.shape) <= 2:
        return matrix(probe, name, what.shape)
    front = len(what.shape) - 2
    return '\n\n'.join(f'[{", ".join(places)}]\n' + matrix(probe, f'{name}[{", ".join(places)}]', what.shape[-2:])
                       for places in (['0'] * front, ['-1'] * front))


def matrix(probe: Probe, name: str, shape: tuple[int, ...]) -> str:
    """The ends of an array of up to two axes."""
    is_long = len(shape) == 2 and shape[0] > 2 * ROWS
    rows = f'{name}[{[*range(ROWS), *range(-ROWS, 0)]}]' if is_long else name
    columns = ':, ' if len(shape) == 2 else ''
    lines = printed(probe, rows)
    if shape and shape[-1] > 2 * COLUMNS:
        left, right = (printed(probe, f'{rows}[{columns}{end}]') for end in (f':{COLUMNS}', f'-{COLUMNS}:'))
        lines = [one.rstrip(']') + GAP + other.lstrip(' [') for one, other in zip(left, right)]
    if is_long and len(lines) == 2 * ROWS:
        lines.insert(ROWS, f'   … {shape[0] - 2 * ROWS:,} rows left out by ndnote …')
    return '\n'.join(lines)


def printed(probe: Probe, expression: str) -> list[str]:
    """The lines of the text that the program makes of an expression."""
    return probe.run([f'print({expression})']).text.rstrip('\n').split('\n')
