"""The notebooks whose allocations are refused have every form of a statement and every command."""
from __future__ import annotations

import io
import re
import tokenize
import unittest
from typing import Dict, Iterator, List, Set

from setting import TOP, tell
from commands import commands_of
from notebook import notebooks, questions_of

DOCS = TOP / 'docs'
LEFT_OUT = '\n## Left out'
CODE = re.compile(r'`([^`]+)`')
REFUSED = re.compile(r'[A-Z]\w+\.[A-Z]\w+')
# Words that are a form by themselves; other bare names are those of variables.
WORDS = {'print', 'del', 'import', 'abs', 'buffer', 'None', 'True', 'axis', 'keepdims', 'dtype'}
KINDS = {'KIND'}
COLUMNS = 4
SHOWN_REFUSED = ('del x', "np.load('f')")       # forms whose example is a refusal


def cells_of_row(line: str) -> List[str]:
    """The columns of a row of a table."""
    return [it.strip().replace('\\|', '|') for it in re.split(r'(?<!\\)\|', line)[1:-1]]


def code_of(page: str) -> Iterator[str]:
    """Forms and examples of the rows that are carried out; operators of a form with `op=`."""
    for line in page.split('\n'):
        row = cells_of_row(line) if line.startswith('|') else []
        if len(row) == COLUMNS and not REFUSED.search(row[2]):
            told = row if 'op=' in row[0] else row[:2]
            found = [code for column in told for code in CODE.findall(column)]
            yield from (code for code in found if not code.startswith('input '))


def words_of(code: str) -> Set[str]:
    """Operators, functions, methods and keywords of some lines of code."""
    found, last = set(), ''
    for token in tokenize.generate_tokens(io.StringIO(code).readline):
        if token.type == tokenize.OP and token.string != '.':
            found.add(token.string)
        elif token.type == tokenize.NAME and last == '.' and token.string not in KINDS:
            found.add('.' + token.string)
        elif token.type == tokenize.NAME and token.string in WORDS:
            found.add(token.string)
        last = token.string
    return found


def sources() -> Iterator[str]:
    """The cells of the notebooks, and the texts that edits give them."""
    for path in notebooks():
        for command in commands_of(path.read_bytes()):
            if command.startswith((b'insert ', b'edit ')):
                yield b'\n'.join(command.split(b'\n')[1:-2]).decode() + '\n'


def commands_of_page(page: str) -> Set[str]:
    """The first word of each command in the tables of edits and questions."""
    rows = [cells_of_row(line) for line in page.split('\n') if line.startswith('|')]
    found: Set[str] = set()
    for at, row in enumerate(rows):
        if row[0] == 'Command':
            for told in rows[at + 2:]:
                if not told[0].startswith('`'):
                    break
                found |= {code.split()[0] for code in CODE.findall(told[0]) if code != '.'}
    return found


class Forms(unittest.TestCase):
    def test_every_form_of_a_statement(self) -> None:
        page = (DOCS / 'LANGUAGE.md').read_text(encoding='utf-8').split(LEFT_OUT)[0]
        wanted: Dict[str, str] = {}
        for code in (*code_of(page), *SHOWN_REFUSED):
            wanted.update({word: code for word in words_of(code) if word not in wanted})
        has = set().union(*map(words_of, sources()))
        self.assertEqual({word: code for word, code in wanted.items() if word not in has}, {})
        self.assertGreater(len(wanted), 0)
        tell(f'forms of statements: {len(wanted)} words, in {len(notebooks())} notebooks')

    def test_every_command(self) -> None:
        wanted = commands_of_page((DOCS / 'SCRIPT.md').read_text(encoding='utf-8'))
        given = [commands_of(path.read_bytes()) for path in notebooks()]
        asked = [commands_of(questions_of(tuple(commands))) for commands in given]
        has = {command.split()[0].decode() for commands in given + asked for command in commands}
        self.assertEqual(wanted - has, set())
        self.assertGreater(len(wanted), 0)


if __name__ == '__main__':
    unittest.main()
