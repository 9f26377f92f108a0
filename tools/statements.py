"""statements: the statements that `tools/bench statements` measures, in groups, and the arrays that they use.

In a text, N is the number of elements, R the rows and C the columns of the table, P the rows and Q the columns of the
picture, which has three channels; d has N // 10 records. A statement in place works on a copy of its own.
"""
from __future__ import annotations

import math
import re
import time
from dataclasses import dataclass

from driver import Program

# The arrays, whose text the program and NumPy both run.
SETUP = """\
x = np.arange(N)
y = np.arange(N) * 7 % 1000003 + 1
a = (np.arange(N) % 251).astype('uint8')
b = (np.arange(N) % 61).astype('uint8')
i4 = np.arange(N).astype('int32')
j4 = (np.arange(N) % 1009 + 1).astype('int32')
h = np.arange(N).astype('int16')
u = np.arange(N).astype('uint64')
e = np.arange(N).astype('>i8')
m = np.arange(N) % 2 == 0
m3 = np.arange(N) % 10 == 0
t = np.arange(N).reshape(R, C)
r = np.arange(C)
c = np.arange(R).reshape(R, 1)
p = np.arange(N) * 7919 % N
z = np.zeros(N, dtype='bool')
i2 = np.arange(N // 2)
s3 = np.arange(N // 3 * 3).reshape(N // 3, 3)
w = np.arange(3)
d = np.zeros(N // 10, dtype=[('sensor', '<u2'), ('ok', np.bool_), ('pad', np.uint8), ('count', '<i4'), ('time', '<i8'), ('sum', '<i8')])
d['sensor'] = np.arange(N // 10) % 50
d['count'] = np.arange(N // 10)
g = (np.arange(N // 3 * 3) % 251).astype('uint8').reshape(P, Q, 3)
"""

GROUPS = {
    "arithmetic": """\
x + x
x - y
x * y
x & y
x | y
x ^ y
x + 1
1 - x
x * 3
-x
~x
abs(x)
a + b
a * b
h + h
h * h
i4 + j4
i4 * j4
u + u
u * u
i4 + x
a + x
e + e
e + x
e * e
np.minimum(x, y)
np.maximum(i4, j4)
np.minimum(a, b)
np.absolute(h)
""",
    "comparisons": """\
x < y
x == y
x < 100
a < b
a == 3
i4 <= j4
h > h
u < x
x == e
m & m3
m | m3
~m
m == m3
""",
    "quotients": """\
x // 7
x % 7
x // y
x % y
i4 // 7
i4 % 7
i4 // j4
i4 % j4
a // 7
a % 7
a // b
u // 7
u // u
x % 8
x // 8
x % 2 == 0
""",
    "powers and shifts": """\
x ** 2
x ** 3
x ** y
a ** 2
i4 ** 2
i4 ** j4
x << 3
x >> 3
x << b
i4 >> 2
a << 1
a >> b
""",
    "strided": """\
x[::2] + x[::2]
x[::-1] + x
x[::2] + i2
t.T + t.T
t.T + 1
t + t.T[:1].T
t + r
t + c
s3 + w
s3 * w
t[:, 1:] + t[:, :-1]
t[1:-1, 1:-1] + 1
x[::2].copy()
t.T.copy()
a[::2] + a[::2]
a[::3] + a[1::3][:1]
x.copy()
t.T.reshape(N)
t.T.reshape(N // 2, 2)
""",
    "conversions": """\
x.astype('int32')
x.astype('uint8')
x.astype('>i8')
x.astype('bool')
a.astype('int64')
i4.astype('int64')
e.astype('int64')
m.astype('int64')
x.astype('int64')
h.astype('int32')
x.astype('int16')
a.astype('bool')
u.astype('int64')
""",
    "masks and positions": """\
x[m]
a[m]
x[m3]
i4[m]
x[p]
a[p]
i4[p]
t[p[:R] % R]
x[p[:N // 10]]
t[:, r[::2]]
t[r[:R] % R]
""",
    "reductions": """\
x.sum()
x.prod()
x.min()
x.max()
m.any()
z.any()
m.all()
x.argmax()
x.argmin()
a.sum()
a.max()
a.argmax()
i4.sum()
i4.max()
h.sum()
u.max()
e.sum()
e.max()
m.sum()
t.sum(axis=0)
t.sum(axis=1)
t.max(axis=0)
t.max(axis=1)
t.argmax(axis=0)
t.argmax(axis=1)
t.T.sum(axis=0)
s3.sum(axis=1)
s3.max(axis=1)
s3.sum(axis=0)
x[::2].sum()
x.cumsum()
a.cumsum()
t.cumsum(axis=0)
t.cumsum(axis=1)
x.cumprod()
(x > 5).sum()
(x == y).all()
np.add.reduce(t)
""",
    "records": """\
d['sensor'] == 7
d['count'].sum()
d['count'].copy()
d['ok'] & (d['count'] >= 0)
d['time'] + 1
d.copy()
d[::2].copy()
d[d['sensor'] == 7]
""",
    "pictures": """\
g[:, :, 0] + 1
g[::2] + 1
g[::2, ::2] + 1
g[1:-1, 1:-1] + 1
g[1:-1, 1:-1, 0] + 1
g[:, ::-1].copy()
g[:, :, ::-1].copy()
g[:-1] // 2 + g[1:] // 2
g.sum(axis=2)
g[g > 200]
""",
    "new arrays": """\
np.zeros(N, dtype='int64')
np.ones(N, dtype='int64')
np.full(N, 7)
np.arange(N)
np.zeros(N, dtype='uint8')
np.arange(0, 3 * N, 3)
""",
    "in place": """\
q += 1
q += y
q -= y
q *= 3
q //= 7
q %= 7
q &= 255
q <<= 1
q[1:] += q[:-1]
q[::2] += 1
q[:] = 0
q[:] = y
q[::2] = 5
q[::-1] = q
q[m] = 1
q[m] += 1
q[m3] = 0
q[p] = 1
q[p] = y
q[p] += 1
q[1:] = q[:-1]
k += 1
k += b
k[m] = 0
k[:] = 7
k >>= 1
l += j4
l *= 2
v += r
v[:, 0] = 1
v.T[:] = t.T
v[:] = t.T.reshape(R, C)
v[:] = r
q += e
f[:, :, 0] = 0
f[1:-1, 1:-1] += 1
f[::2, ::2] = 255
""",
}
# What a statement in place works on, by the letter that it begins with.
COPIES = {"q": "q = x.copy()", "k": "k = a.copy()", "l": "l = i4.copy()", "v": "v = t.copy()", "f": "f = g.copy()"}
# The statements that people write most.
COMMON = (
    "x + x", "x + 1", "x * 3", "x < 100", "x == y", "x // 7", "x % 2 == 0", "x ** 2", "x[m]", "x[p]", "x.sum()",
    "x.max()", "x.cumsum()", "t.sum(axis=0)", "t + r", "x.astype('int32')", "np.zeros(N, dtype='int64')",
    "np.arange(N)", "q += 1", "q[m] = 1",
)


@dataclass
class Statement:
    """A statement of a group, as it stands there."""

    group: str
    text: str

    @property
    def copy(self) -> str | None:
        """The statement that makes what this one works on in place."""
        return COPIES[self.text[0]] if self.group == "in place" else None


@dataclass
class Measured:
    """A statement beside NumPy's: processor seconds of both, or why the program refused it."""

    statement: Statement
    ours: float = 0.0
    theirs: float = 0.0
    refusal: str = ""

    @property
    def ratio(self) -> float:
        """NumPy's time by ours: above 1 is faster than NumPy."""
        return self.theirs / max(self.ours, 1e-9)


def all_statements() -> list[Statement]:
    return [Statement(group, line) for group, lines in GROUPS.items() for line in lines.strip().split("\n")]


def rows_of(size: int) -> int:
    """The rows of the table: the greatest divisor that is not above the root."""
    return next(it for it in range(math.isqrt(size), 0, -1) if size % it == 0)


def written(text: str, size: int) -> str:
    """The text with numbers in place of N, R, C, P and Q."""
    rows, lines = rows_of(size), rows_of(size // 3)
    parts = {"N // 10": size // 10, "N // 3 * 3": size // 3 * 3, "N // 3": size // 3, "N // 2": size // 2}
    for old, new in parts.items():
        text = text.replace(old, str(new))
    for old, new in (("N", size), ("R", rows), ("C", size // rows), ("P", lines), ("Q", size // 3 // lines)):
        text = re.sub(rf"\b{old}\b", str(new), text)
    return text


def second(times: list[float]) -> float:
    """The second smallest, or the only one."""
    return sorted(times)[min(1, len(times) - 1)]


class Turns:
    """The program and NumPy with the same arrays of one size."""

    def __init__(self, path: str, size: int):
        import numpy
        if hasattr(numpy, "_set_promotion_state"):
            numpy._set_promotion_state("weak")
        numpy.seterr(all="ignore")
        self.size, self.program, self.world = size, Program(path), {"np": numpy}
        setup = written(SETUP.rstrip("\n"), size)
        self.program.insert(0, setup)
        shown = self.program.show(0)
        if shown[-2] != "ok":
            raise ValueError(f"the arrays are refused: {shown[-2]}")
        exec(setup, self.world)

    def once(self, cells: list[str], is_first: bool) -> tuple[float, str]:
        """Processor seconds of the last of these cells, which are removed again, and why the program refused it."""
        for at, text in enumerate(cells[:-1]):
            self.program.insert(1 + at, text)
        took, _ = self.program.insert(len(cells), cells[-1])
        end = self.program.show(len(cells))[-2] if is_first else "ok"
        for at in range(len(cells), 0, -1):
            self.program.remove(at)
        return took, "" if end == "ok" else end

    def numpy_once(self, statement: Statement, code) -> float:
        if statement.copy:
            exec(statement.copy, self.world)
        start = time.process_time()
        exec(code, self.world)
        took = time.process_time() - start
        self.world.pop("o", None)
        return took

    def measure(self, statement: Statement, turns: int) -> Measured:
        """The second smallest time of each side: of all turns, or of those, at least two, within three seconds."""
        text = written(statement.text, self.size)
        text = text if statement.copy else "o = " + text
        code = compile(text, "statement", "exec")
        ours: list[float] = []
        theirs: list[float] = []
        begun = time.monotonic()
        while len(ours) < turns and (len(ours) < 2 or time.monotonic() - begun < 3):
            # A text of its own makes each turn run anew.
            blanks = " " * len(ours)
            took, refusal = self.once([*([statement.copy + blanks] if statement.copy else []), text + blanks], not ours)
            if refusal:
                return Measured(statement, refusal=refusal)
            ours.append(took)
            theirs.append(self.numpy_once(statement, code))
        return Measured(statement, second(ours), second(theirs))

    def close(self) -> None:
        self.program.close()
