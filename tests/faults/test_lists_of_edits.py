"""Lists of edits among the rows, as scripts: some allocations of each are refused, drawn anew in each run."""
from __future__ import annotations

import random
import re
import tempfile
import unittest
from pathlib import Path
from typing import Dict, Iterator, List, Tuple

from setting import IS_ALL, SEED, TOP
from trying import MOST, Trying

ROWS = TOP / 'crates/test_scripts/data/edits.rows'
LISTS = 24              # lists that are drawn
MOST_OF_COMMAND = 2     # allocations that are tried of each of their commands
TITLE = '= edits: '
WORDS = {'insert': 'insert', 'change': 'edit'}
ESCAPE = re.compile(r'\\(?:u\{([0-9A-Fa-f]+)\}|\{([0-9]+):([^}]*)\}|(.))')
LETTERS = {'n': '\n', 'r': '\r', 't': '\t', '\\': '\\'}


def unescape(line: str) -> str:
    """A line of a row, with what its escapes stand for."""
    def stands_for(found: 're.Match[str]') -> str:
        number, count, piece, letter = found.groups()
        if number:
            return chr(int(number, 16))
        return int(count) * unescape(piece) if count else LETTERS[letter]
    return ESCAPE.sub(stands_for, line)


def command_of(line: str) -> str:
    """The command of a script that makes the edit of a line."""
    word, *rest = unescape(line).split(' ', 2)
    if word not in WORDS:
        return unescape(line) + '\n'
    return f'{WORDS[word]} {rest[0]}\n{rest[1] if rest[1:] else ""}\n.\n'


def lists_of(rows: str) -> Iterator[Tuple[str, str]]:
    """The title of each list of edits, with its script."""
    for row in ('\n' + rows).split('\n' + TITLE)[1:]:
        title, *lines = row.split('\n= ')[0].strip('\n').split('\n')
        yield title, ''.join(map(command_of, lines))


class OfLists(Trying):
    """Of each edit of the lists, and of all questions behind them."""

    def drawn(self) -> Dict[str, str]:
        lists = dict(lists_of(ROWS.read_text(encoding='utf-8')))
        if IS_ALL:
            return lists
        titles = random.Random(SEED).sample(sorted(lists), LISTS)
        return {title: lists[title] for title in titles}

    def test_drawn_allocations_of_lists_of_edits(self) -> None:
        with tempfile.TemporaryDirectory(prefix='ndnote-faults-') as room:
            paths: List[Path] = []
            for number, (title, script) in enumerate(sorted(self.drawn().items())):
                paths.append(Path(room) / f'{number}_{re.sub("[^a-z]+", "_", title.lower())[:60]}.ndn')
                paths[-1].write_text(script, encoding='utf-8')
            self.try_notebooks(f'lists of edits, drawn allocations, seed {SEED}', paths, MOST if IS_ALL else MOST_OF_COMMAND)


if __name__ == '__main__':
    unittest.main()
