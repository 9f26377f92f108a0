"""Books: plain `.py` files in percent format, cut into cells, put together again byte for byte, and compared."""
from __future__ import annotations

import ast
import codecs
import difflib
import re
from dataclasses import dataclass, replace
from functools import cached_property, lru_cache
from pathlib import Path
from typing import Iterable, Sequence, TypeVar

from .files import PathLike, replace_file

MARK = re.compile(r'#[ \t]*%%(?!%)[ \t]*(.*)')
TEXT = re.compile(r'\[(markdown|md)\][ \t]*')
INPUT = re.compile(r'''\b(np\s*\.\s*load|buffer)\s*\(\s*(['"])([A-Za-z0-9_.-]{1,64})\2''')
NAME = re.compile('[A-Za-z0-9_.-]{1,64}')     # of an input

Item = TypeVar('Item')


@dataclass(frozen=True)
class Cell:
    """A cell as it stands in its file: the line that marks it ('' before the first mark), and the lines behind it."""
    mark: str
    body: str

    @cached_property
    def head(self) -> str:
        return MARK.match(self.mark).group(1).strip() if self.mark else ''

    @cached_property
    def is_text(self) -> bool:
        return bool(TEXT.match(self.head)) or not self.mark and is_comment(self.body)

    @property
    def title(self) -> str:
        return TEXT.sub('', self.head, count=1)

    @cached_property
    def source(self) -> str:
        """What a person edits: the statements, or the text without its comment signs."""
        body = self.body.replace('\r\n', '\n').rstrip()
        if self.is_text and self.mark:
            return '\n'.join(re.sub(r'^# ?', '', line) for line in body.split('\n'))
        return body

    def with_title(self, title: str) -> 'Cell':
        sort = TEXT.match(self.head)
        words = '# %% ' + (sort.group().strip() + ' ' if sort else '') + ' '.join(title.split())
        return replace(self, mark=words.rstrip() + '\n')

    def with_source(self, source: str) -> 'Cell':
        source = source.rstrip()
        if self.is_text and self.mark:
            source = '\n'.join(('# ' + line).rstrip() for line in source.split('\n'))
        end = self.body[len(self.body.rstrip()):] if self.body.strip() else '\n\n'
        line = '\r\n' if '\r\n' in self.mark + self.body else '\n'
        return replace(self, body=source.replace('\n', line) + (end or line) if source else line)

    def with_blank_line(self) -> 'Cell':
        """The cell with room behind it for another one."""
        if self.body.endswith('\n\n') or not self.body.strip():
            return self
        return replace(self, body=self.body.rstrip() + '\n\n')


def is_comment(text: str) -> bool:
    return all(not line.strip() or line.startswith('#') for line in text.split('\n'))


def parse(text: str) -> list[Cell]:
    """The cells of a file; `written` gives the file again."""
    cells, mark, lines = [], '', []
    for line in re.findall(r'[^\n]*\n|[^\n]+', text):
        if line[0] == '#' and MARK.match(line):
            cells.append(Cell(mark, ''.join(lines)))
            mark, lines = line, []
        else:
            lines.append(line)
    cells.append(Cell(mark, ''.join(lines)))
    return cells if cells[0].body or cells[0].mark else cells[1:]


def written(cells: Iterable[Cell]) -> str:
    """The text of a file with these cells."""
    parts = ['']
    for cell in cells:
        for part in filter(None, (cell.mark, cell.body)):
            if parts[-1] and not parts[-1].endswith('\n'):
                parts.append('\n')
            parts.append(part)
    return ''.join(parts)


def first_lines(cells: Iterable[Cell]) -> list[int]:
    """For each cell the number of the line, from 1, on which its body begins."""
    line, lines = 1, []
    for cell in cells:
        lines.append(line + bool(cell.mark))
        line += cell.mark.count('\n') + cell.body.count('\n')
    return lines


@lru_cache(maxsize=20_000)
def inputs(source: str) -> tuple[tuple[str, bool], ...]:
    """The names of files that a source may read, in order, and whether as buffers: also in comments."""
    return tuple((match.group(3), match.group(1) == 'buffer') for match in INPUT.finditer(source))


def bound(source: str) -> list[str]:
    """The names that a source binds or writes through, in order; none where Python cannot read it."""
    try:
        tree = ast.parse(source)
    except (SyntaxError, ValueError, RecursionError, MemoryError):
        return []
    names: dict[str, bool] = {}
    for statement in tree.body:
        targets = statement.targets if isinstance(statement, ast.Assign) else []
        for target in [statement.target] if isinstance(statement, ast.AugAssign) else targets:
            while isinstance(target, (ast.Subscript, ast.Attribute, ast.Call)):
                target = target.func if isinstance(target, ast.Call) else target.value
            if isinstance(target, ast.Name):
                names.pop(target.id, None)
                names[target.id] = True
    return list(names)


# Two lists of cells, and the edits that lead from one to the other.

def kept(old: Sequence[Item], new: Sequence[Item]) -> dict[int, int]:
    """Places in the new list, each with the place in the old one of the item that stays, moves or is edited."""
    taken: dict[int, int] = {}
    for word, i, i2, j, j2 in difflib.SequenceMatcher(None, old, new, autojunk=False).get_opcodes():
        if word == 'equal' or word == 'replace' and i2 - i == j2 - j:
            taken.update(zip(range(j, j2), range(i, i2)))
    lost: dict[Item, list[int]] = {}
    for i in sorted(set(range(len(old))) - set(taken.values())):
        lost.setdefault(old[i], []).append(i)
    for j, item in enumerate(new):      # what was moved comes first, then what stands beside what is gone
        if j not in taken and lost.get(item):
            taken[j] = lost[item].pop(0)
    left = {i for places in lost.values() for i in places}
    for j in range(len(new)):
        beside = (taken.get(j - 1, -9) if j else -1) + 1
        if j not in taken and beside in left:
            taken[j] = beside
            left.remove(beside)
    return taken


def changes(old: Sequence[Item], new: Sequence[Item]) -> list[tuple]:
    """Edits that lead from one list of sources to another, each to be done after those before it:
    ('remove', at), ('move', origin, to), ('edit', at, source), ('insert', at, source)."""
    head = 0
    while head < min(len(old), len(new)) and old[head] == new[head]:
        head += 1
    tail = 0
    while tail < min(len(old), len(new)) - head and old[-1 - tail] == new[-1 - tail]:
        tail += 1
    before, after = old[head:len(old) - tail], new[head:len(new) - tail]
    taken = kept(before, after)
    now, edits = list(range(len(before))), []
    for i in sorted(set(now) - set(taken.values()), reverse=True):
        edits.append(('remove', head + i))
        now.remove(i)
    for j, item in enumerate(after):
        if j not in taken:
            now.insert(j, -1)
            edits.append(('insert', head + j, item))
            continue
        origin = now.index(taken[j], j)
        if origin != j:
            now.insert(j, now.pop(origin))
            edits.append(('move', head + origin, head + j))
        if before[taken[j]] != item:
            edits.append(('edit', head + j, item))
    return edits


# Files.

def read(path: PathLike) -> str:
    """The text of a book, without a byte order mark. Line ends stay as they are."""
    return Path(path).read_bytes().removeprefix(codecs.BOM_UTF8).decode('utf-8')


def write(path: PathLike, text: str) -> None:
    """Puts a text into the file of a book. A byte order mark stays where there was one."""
    with open(path, 'rb') as file:
        mark = file.read(3)
    replace_file(path, (mark if mark == codecs.BOM_UTF8 else b'') + text.encode('utf-8', 'replace'))
