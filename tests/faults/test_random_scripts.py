"""Scripts of random bytes and of random lines: each command is answered in a form that it can have, and none crashes."""
from __future__ import annotations

import random
import re
import subprocess
import unittest
from collections import Counter
from concurrent.futures import ThreadPoolExecutor
from typing import List

from setting import IS_ALL, SEED, program, tell
from broken import array_found
from commands import answers_of, commands_of

SCRIPTS = 2_000             # of bytes, and of lines
TIMES_OF_ALL = 10           # with --all
FORM = re.compile(rb"""(?sx)
    ok\n | bad\ command\n | count\ \d+\n | source\ \d+\n.*\n | names\ \d+\n.* | saved\ (?:-|[0-9a-f]+)\n
    | refused\ (?:NoCell\ \d+\ \d+|TooManyCells|CellTooLong|BadInputName|InputTooLarge)\n
    | refused\ (?:NoInputNamed|NoName|NoSave)\ [^\n]*\n
    | int\ -?\d+\n | bool\ (?:True|False)\n | scalar\ \w+\ -?\d+\n
    | array\ .+\ \d+\ (?:\(\)|[\d,]+)\ (?:-|[0-9a-f]+)\n | row\ .+\ \d+\ (?:-|[0-9a-f]+)\n
    | text\ \d+\n.*(?:ok|refused\ \d+\ \w+\.\w+[^\n]*)\n(?:save\ \S+\ \d+\n)*end\n""")

NUMBERS = ['0', '1', '2', '3', '9', '-1', '01', '18446744073709551615', '18446744073709551616', '', 'x']
NAMES = ['x', 'y', 'f', 'a/b', 'é', '.', '-', 'n' * 65]
HEX = ['-', '00', '0', '0g', '93AB', '934e554d505901000000', 'ff' * 40]
TOKENS = ['x', 'y', 'n', '=', '+=', '+', '-', '**', '//', '<', '[', ']', '(', ')', ',', ':', '...', 'None', 'True', '0',
          '1', '7', '-1', '18446744073709551616', 'np.arange', 'np.zeros', 'np.array', 'np.load', 'np.save', 'buffer',
          'print', 'del', '.T', '.sum', '.reshape', 'dtype=np.uint8', 'axis=0', "'f'", "'a", '#', 'if', '$', ' ', '\t']
STATEMENTS = ['x = np.arange(6)', 'y = x[1:4]', 'y += 10', 'x[[0, 0, 9]] = 1', 'print(x)', "np.save('f', x)", 'del x',
              "x = np.load('f')", "y = buffer('f')", 'x = x.reshape(2, 3)', 'n = x.sum()', 'y = x > n', 'x[y] *= 2',
              "x = np.zeros(2, dtype=[('a', '|i1'), ('b', '<i4')])", "x['b'] = n", 'import numpy as np', '']
OPENING = ['insert 0', 'x = np.arange(6)', 'y = x > 2', "np.save('f', x)", '.']
FORMATS = ['b', '>h', '<q', 'T{b:a:<i:b:}', 'T{', 'z', '@l', '2x']
LISTS = ['()', '0', '3', '2,3', '3,', '4294967296', '0,0', '-2', '-9223372036854775808']


def random_bytes(draw: random.Random) -> bytes:
    return draw.randbytes(draw.randrange(600))


class Lines:
    """Draws the lines of a script."""

    def __init__(self, draw: random.Random) -> None:
        self.draw = draw

    def at(self) -> str:
        return self.draw.choice(['0', '0', '0', '1', '1', '2'] if self.draw.randrange(8) else NUMBERS)

    def source_line(self) -> str:
        if self.draw.randrange(6):
            return self.draw.choice(STATEMENTS)
        return ' '.join(self.draw.choice(TOKENS) for _ in range(self.draw.randrange(9)))

    def edit(self) -> List[str]:
        """A cell, whose end may lack."""
        lines = [self.source_line() for _ in range(self.draw.randrange(5))]
        end = ['.'] if self.draw.randrange(12) else []
        return [f'{self.draw.choice(["insert", "insert", "edit"])} {self.at()}', *lines, *end]

    def input(self) -> str:
        pick = self.draw.choice
        if self.draw.randrange(2):
            return f'input {pick(NAMES)} npy {pick(HEX)}'
        words = [pick(FORMATS), pick(NUMBERS), pick(LISTS), pick(LISTS), pick(NUMBERS), pick(HEX)]
        return f'input {pick(NAMES)} buffer {" ".join(words)}'

    def one(self) -> List[str]:
        pick = self.draw.choice
        return pick([
            self.edit, self.edit, self.edit, lambda: [self.input()], lambda: [f'move {self.at()} {self.at()}'],
            lambda: [f'{pick(["remove", "show", "show", "source", "names"])} {self.at()}'],
            lambda: [f'{pick(["value", "value", "saved"])} {self.at()} {pick(["x", "y", "n", "f", "a/b"])}'],
            lambda: [pick(['count', 'drop f', 'drop x', '', '# a remark', 'frob', 'show  0', 'count '])],
            lambda: [f'rule {pick(["python", "atomic", "atomic", "other"])}'],
            lambda: [self.source_line()]])()

    def script(self) -> bytes:
        lines = self.draw.choice([[], OPENING])
        lines = lines + [line for _ in range(self.draw.randrange(40)) for line in self.one()]
        script = bytearray('\n'.join(lines).encode() + self.draw.choice([b'', b'\n']))
        for _ in range(self.draw.choice([0, 0, 0, 1, 5])):
            if script:
                script[self.draw.randrange(len(script))] = self.draw.randrange(256)
        return bytes(script)


def has_form(answer: bytes) -> bool:
    is_array = answer.startswith(b'array ')
    return bool(FORM.fullmatch(answer)) and (not is_array or array_found(answer) is not None)


def fault_of(script: bytes, status: int, output: bytes, errors: bytes) -> str:
    """What is wrong with the answers to a script; nothing where they are right."""
    if (status, errors) != (0, b''):
        return f'status {status}, {errors!r}'
    try:
        answers = answers_of(output)
    except ValueError as fault:
        return str(fault)
    count = len(commands_of(script))
    if len(answers) != count:
        return f'{len(answers)} answers to {count} commands'
    wrong = [it for it in answers if not has_form(it)]
    return f'an answer has no known form: {wrong[0]!r}' if wrong else ''


def judge(script: bytes) -> 'tuple[str, Counter]':
    ran = subprocess.run([program()], input=script, capture_output=True, check=False, timeout=60)
    fault = fault_of(script, ran.returncode, ran.stdout, ran.stderr)
    return fault, Counter(it.split()[0].decode() for it in answers_of(ran.stdout)) if not fault else Counter()


class Random(unittest.TestCase):
    def try_scripts(self, name: str, scripts: List[bytes]) -> None:
        counts: Counter = Counter()
        with ThreadPoolExecutor(2) as pool:
            for script, (fault, found) in zip(scripts, pool.map(judge, scripts)):
                self.assertEqual(fault, '', f'seed {SEED}: {script!r}')
                counts.update(found)
        told = ', '.join(f'{count} {word}' for word, count in sorted(counts.items()))
        tell(f'{name}, seed {SEED}: {len(scripts)} scripts: {told}')

    def count(self) -> int:
        return SCRIPTS * (TIMES_OF_ALL if IS_ALL else 1)

    def test_random_bytes(self) -> None:
        draw = random.Random(SEED)
        self.try_scripts('random bytes', [random_bytes(draw) for _ in range(self.count())])

    def test_random_lines(self) -> None:
        lines = Lines(random.Random(SEED))
        self.try_scripts('random lines', [lines.script() for _ in range(self.count())])


if __name__ == '__main__':
    unittest.main()
