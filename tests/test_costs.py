"""What edits cost in a long notebook and in a short one, and what views cost to note: no contract speaks of it."""
from __future__ import annotations

import os
import statistics
import sys
import tempfile
import time
import unittest
from pathlib import Path
from typing import Callable, Optional

TOP = Path(__file__).resolve().parents[1]
sys.path.insert(0, str(TOP / 'tools'))

import refusals  # noqa: E402
from driver import Program  # noqa: E402

SHORT, LONG = 64, 1_024
# More snapshots are in the long notebook, and each may keep a change.
SNAPSHOTS = (LONG - SHORT) // 32
# Of one cell.
STATEMENTS = 40


def real_program() -> Optional[str]:
    """The program that $NDNOTE_PROGRAM names, or the one that is built here."""
    for path in (os.environ.get('NDNOTE_PROGRAM', ''), str(TOP / 'crates/ndnote/out/ndnote')):
        if path and os.access(path, os.X_OK):
            return path
    return None


def arrays(count: int) -> list[str]:
    """Cells of which none reads what another made."""
    return [f'v{k} = np.arange(4)' for k in range(count)]


def readers(count: int) -> list[str]:
    """Cells that all read what the first one made."""
    return ['v0 = np.arange(4)', *(f'v{k} = v0 + {k}' for k in range(1, count))]


def array_of(name: str, axes: int) -> str:
    """Makes an array of so many axes, of which each of the last ten has two elements."""
    lengths = ['1'] * max(axes - 10, 0) + ['2'] * min(axes, 10)
    return f"{name} = np.arange({2 ** min(axes, 10)}).reshape({', '.join(lengths)})"


def scattered_reads(count: int) -> str:
    """Statements that each read ten positions of an array of this many elements."""
    return '\n'.join([f'y = x[[0, 3, 8, 15, 24, 35, 48, 51, 60, {count - 1}]]'] * STATEMENTS)


@unittest.skipUnless(real_program(), 'no program: NDNOTE_PROGRAM, or crates/ndnote/out/ndnote')
class Costs(unittest.TestCase):
    """Allocations are counted, which are the same in each run, and not times."""

    @classmethod
    def setUpClass(cls) -> None:
        cls.folder = tempfile.TemporaryDirectory()
        cls.shim = refusals.build(cls.folder.name)

    @classmethod
    def tearDownClass(cls) -> None:
        cls.folder.cleanup()

    def counted(self, commands: list[str]) -> int:
        ran = refusals.run([real_program()], '\n'.join([*commands, '']).encode(), self.shim)
        self.assertEqual(ran.status, 0, ran.errors)
        return ran.allocations

    def cost(self, cells: list[str], *edit: str) -> int:
        """How many allocations an edit takes once the cells are inserted."""
        before = [line for at, text in enumerate(cells) for line in (f'insert {at}', text, '.')]
        return self.counted([*before, *edit]) - self.counted(before)

    def test_a_cell_that_does_what_it_did_is_noted_nowhere(self) -> None:
        short, long = (self.cost(arrays(count), 'edit 10', 'v10 = np.arange(4) ', '.') for count in (SHORT, LONG))
        self.assertLess(long - short, 4 * SNAPSHOTS)

    def test_an_appended_cell_replays_none(self) -> None:
        short, long = (self.cost(arrays(count), f'insert {count}', 'w = 1', '.') for count in (SHORT, LONG))
        self.assertLess(long - short, SNAPSHOTS)

    def test_a_reader_far_behind_runs_over_a_snapshot_with_the_change(self) -> None:
        short, long = (self.cost([*arrays(count - 1), 'w = v0 + 1'], 'edit 0', 'v0 = np.arange(4) + 1', '.')
                       for count in (SHORT, LONG))
        self.assertLess(long - short, 12 * SNAPSHOTS)

    def test_a_replay_takes_no_allocation_for_each_statement(self) -> None:
        """Behind the cell that is edited, one of 1,000 statements that each make an array is replayed, not run."""
        read = 'y = np.arange(2)\n' + '\n'.join(['y += np.arange(2)'] * 999)
        inserting = self.cost(['z = 1'], 'insert 1', read, '.')
        editing = self.cost(['z = 1', read, 'w = z + y'], 'edit 0', 'z = 2', '.')
        self.assertGreater(inserting, 900)
        self.assertLess(editing, 900)

    def test_scattered_positions_of_a_large_array_cost_what_those_of_a_small_one_do(self) -> None:
        """The last of them lies in another page of bits, for which the list of pages grows once: no page is made for what lies
        between."""
        small, large = (self.cost([f'x = np.arange({count})'], 'insert 1', scattered_reads(count), '.')
                        for count in (64, 2**20))
        self.assertGreater(small, STATEMENTS)
        self.assertLess(large - small, 3 * STATEMENTS)

    def in_place(self, axes: int, other: int, statement: str) -> int:
        """How many allocations a cell takes of such statements, on arrays x and y of so many axes."""
        made = [array_of('x', axes), array_of('y', other)]
        return self.cost(made, 'insert 2', '\n'.join([statement] * STATEMENTS), '.')

    def test_an_operator_in_place_takes_no_memory_but_for_the_lookups(self) -> None:
        """Above eight axes a look-up of an array takes two allocations, for its shape and its strides."""
        few = self.in_place(1, 1, 'x += y')
        for axes, each in ((8, 0), (9, 2), (32, 2)):
            for statement, lookups in (('x += y', 2), ('x += x', 2), ('x += 1', 1)):
                with self.subTest(axes=axes, statement=statement):
                    more = self.in_place(axes, axes, statement) - few
                    self.assertLess(more, each * lookups * STATEMENTS + STATEMENTS // 2)

    def test_an_operator_in_place_broadcasts_without_memory(self) -> None:
        """Of the other array the look-up takes none at one axis."""
        few = self.in_place(1, 1, 'x += y')
        for axes, other, each in ((8, 1, 0), (9, 1, 2), (32, 24, 4)):
            with self.subTest(axes=axes):
                self.assertLess(self.in_place(axes, other, 'x += y') - few, each * STATEMENTS + STATEMENTS // 2)

    def test_changes_that_have_become_many_are_put_over_few_snapshots(self) -> None:
        """The 65th and 66th edit in front of the snapshots: were the 65 changes put over each of them, it would take
        thousands of allocations."""
        edits = [line for turn in range(66)
                 for line in (f'edit {turn % 30}', f'v{turn % 30} = np.arange(4) + {1 + turn // 30}', '.')]
        many, fewer = (self.cost(arrays(LONG), *edits[:3 * turns]) for turns in (66, 64))
        self.assertLess(many - fewer, 50 * SNAPSHOTS)


class FarEdits(unittest.TestCase):
    """Processor times, each the least of some turns: edits in front, and then one of a cell far down. Were the snapshots
    dropped, the second would replay all records in front of it."""

    CELLS, FAR, TURNS = 2_000, 1_960, 5

    def slowdown(self, cells: list[str], front: str, far: str) -> float:
        """The edit far down by the time of inserting all. Both texts have the number of the turn, which makes other values."""
        program = Program(real_program(), '--desk')
        self.addCleanup(program.close)
        whole, times = program.load(cells), []
        for turn in range(1, self.TURNS + 1):
            self.assertEqual(program.command(front.format(turn))[1], 'ok')
            times.append(program.edit(self.FAR, far.format(turn))[0])
        return min(times) / whole

    def test_behind_an_edit_that_all_cells_read(self) -> None:
        slowdown = self.slowdown(readers(self.CELLS), 'edit 0\nv0 = np.arange(4) + {0}\n.\n',
                                 f'v{self.FAR} = v0 + {self.CELLS} + {{0}}')
        self.assertLess(slowdown, 1 / 100)

    def test_behind_several_edits_as_one(self) -> None:
        edits = ''.join(f'edit {at}\nv{at} = np.arange(4) + {{0}}\n.\n' for at in (3, 9))
        slowdown = self.slowdown(arrays(self.CELLS), f'begin\n{edits}end\n',
                                 f'v{self.FAR} = np.arange(4) + {{0}}')
        self.assertLess(slowdown, 1 / 100)


@unittest.skipUnless(real_program(), 'no program: NDNOTE_PROGRAM, or crates/ndnote/out/ndnote')
class FarMoves(unittest.TestCase):
    """Processor times, each the least of some turns: what a replay costs is no allocation."""

    CELLS, TURNS = 2_000, 5

    def test_a_cell_that_moves_far_is_put_in_over_a_snapshot(self) -> None:
        """Were each cell between its two places replayed, a move would cost a thirtieth of inserting all."""
        program = Program(real_program())
        self.addCleanup(program.close)
        whole = program.load(arrays(self.CELLS))
        last, up, down = self.CELLS - 1, [], []
        for _turn in range(self.TURNS):
            up.append(program.move(last, 1)[0])
            down.append(program.move(1, last)[0])
        self.assertLess(min(up), whole / 100)
        self.assertLess(min(down), whole / 100)


@unittest.skipUnless(real_program(), 'no program: NDNOTE_PROGRAM, or crates/ndnote/out/ndnote')
class ManyNames(unittest.TestCase):
    """Processor times, each the median of some turns, in a notebook of the most cells, each of which binds a name. Were a
    list of all names made for an edit, it would take a hundredth of inserting all. The best of some tries counts."""

    CELLS, TURNS, TRIES = 10_000, 21, 4

    def setUp(self) -> None:
        self.program = Program(real_program())
        self.addCleanup(self.program.close)
        self.most = self.program.load(arrays(self.CELLS)) / 200

    def check(self, *edits: Callable[[int], tuple[float, str]]) -> None:
        """Each of these edits, which are made by turns, takes less than a 200th of inserting all."""
        def medians() -> list[float]:
            turns = [[edit(turn)[0] for edit in edits] for turn in range(self.TURNS)]
            return [statistics.median(times) for times in zip(*turns)]

        self.assertTrue(any(max(medians()) < self.most for _try in range(self.TRIES)))

    def test_another_value_all_over(self) -> None:
        def change(turn: int) -> tuple[float, str]:
            at = 1_000 + (turn * 6_007 + 13) % (self.CELLS - 1_000)
            return self.program.edit(at, f'v{at} = np.arange(4) + {time.monotonic_ns()}')

        self.check(change)

    def test_a_cell_that_nobody_reads_goes_and_comes(self) -> None:
        half = self.CELLS // 2
        self.check(lambda _turn: self.program.remove(half),
                   lambda _turn: self.program.insert(half, f'v{half} = np.arange(4)'))

    def test_a_cell_that_nobody_reads_moves_far(self) -> None:
        last = self.CELLS - 1
        self.check(lambda _turn: self.program.move(last, 1), lambda _turn: self.program.move(1, last))


@unittest.skipUnless(real_program(), 'no program: NDNOTE_PROGRAM, or crates/ndnote/out/ndnote')
class ManyRows(unittest.TestCase):
    """Processor times of an edit among cells that write many rows of one block. Were each row of one looked for among all
    rows of another, an edit would take hundreds of times what inserting all does."""

    CELLS = 10

    def slowdown(self, first: str, cell: str) -> float:
        """An edit of the cell in the middle, by the time of inserting all. `cell` has the places of its number and of
        what it adds."""
        program = Program(real_program())
        self.addCleanup(program.close)
        whole = program.load([first, *(cell.format(at, 1) for at in range(self.CELLS))])
        half = self.CELLS // 2
        return program.edit(half + 1, cell.format(half, 2))[0] / whole

    def test_of_masks(self) -> None:
        self.assertLess(self.slowdown('x = np.arange(60000)\ns = x * 7919 % 30011', 'x[s % 10 == {0}] += {1}'), 5)

    def test_of_parts_of_a_field(self) -> None:
        first = "t = np.zeros(100000, dtype=[('a', 'u1'), ('b', '<i8'), ('c', '<i8')])"
        self.assertLess(self.slowdown(first, "t['a'][{0}::10] += {1}"), 5)


@unittest.skipUnless(real_program(), 'no program: NDNOTE_PROGRAM, or crates/ndnote/out/ndnote')
class Times(unittest.TestCase):
    """Processor times of statements behind a first cell, the sums of some turns. The clock of another process may stand still
    for a while where the machine's host takes time from it, so the best of some tries counts."""

    FIRST = ''
    TURNS, TRIES = 7, 6

    def setUp(self) -> None:
        self.program = Program(real_program())
        self.addCleanup(self.program.close)
        self.assertEqual(self.program.insert(0, self.FIRST)[1], 'ok')

    def seconds(self, text: str) -> float:
        whole = 0.0
        for _turn in range(self.TURNS):
            seconds, answer = self.program.insert(1, text)
            self.assertEqual(answer, 'ok')
            whole += seconds
            self.program.remove(1)
        return whole

    def ratio(self, text: str, whole: str) -> float:
        unit = self.seconds(whole)
        return self.seconds(text) / max(unit, 1e-9)

    def check(self, most: dict[str, int], whole: str) -> None:
        """Each statement takes less than so many times what the whole one does."""
        for text, times in most.items():
            with self.subTest(text):
                self.assertTrue(any(self.ratio(text, whole) < times for _try in range(self.TRIES)))


class Views(Times):
    """Were what a view reads noted pixel by pixel or record by record, it would take up to hundreds of times what a copy of
    it all does."""

    FIRST = """\
g = (np.arange(1200000) % 251).astype('uint8').reshape(800, 500, 3)
d = np.zeros(50000, dtype=[('a', '<u2'), ('b', '<i4'), ('c', '<i8')])"""

    def test_of_a_picture(self) -> None:
        self.check({'h = g[:, ::-1].copy()': 120, 'h = g[::2, ::2].copy()': 50, 'h = g[1:-1, 1:-1, 0].copy()': 15,
                    'h = g.T.copy()': 50}, 'h = g.copy()')

    def test_of_records(self) -> None:
        self.check({'e = d.copy()': 28, 'e = d[::2].copy()': 28}, "e = d['a'].copy()")


class Scattered(Times):
    """Were a bit for each byte of a large array cleared, ten elements of it would take hundreds of times what those of a
    small one do."""

    FIRST = 'x = np.arange(16777216)\ny = np.arange(1000)'

    def test_of_a_large_array(self) -> None:
        chosen = ', '.join(str(at * at + 31 * at) for at in range(10))
        self.check({f'z = x[[{chosen}, 16777215]]': 40}, f'z = y[[{chosen}, 999]]')


if __name__ == '__main__':
    unittest.main()
