"""What a session does with a program that tells which cells ran, and does several edits as one."""
import os
import threading
import time
import unittest
from unittest import mock

from ndnote import Refused, book
from ndnote.edits import carry_out, edits_to, first_place
from ndnote.process import program
from ndnote.session import opened
from programs import WithAllWords, WithoutWords
from sessions import SLOW, SLOW_IN_PLACE, Opened, npy, wrapper

CHAIN = '# %%\nx = np.arange(3)\n# %%\ny = 5\nprint(y)\n# %%\nprint(x)\n# %%\nz = x + 1\n'
TEN = ''.join(f'# %% Cell {at}\nv{at} = {at}\n' for at in range(10)) + '# %%\nprint(' + ', '.join(
    f'v{at}' for at in range(10)) + ')\n'


def wait_for(condition):
    end = time.time() + 60
    while not condition():
        assert time.time() < end, 'nothing happened'
        time.sleep(0.01)


class Ran(WithAllWords, Opened):
    def flashed(self, session, rev):
        return [at for at, shown in enumerate(session.codes()) if shown.flash_rev > rev]

    def test_the_cells_that_ran_are_asked_and_flash(self):
        session = self.open(CHAIN)
        rev = session.rev
        self.assertEqual(self.change(session, 'arange(3)', 'arange(4)'), (1, ['edit 0']))
        self.assertEqual((self.asked, self.flashed(session, rev), len(session.ran)), ([0, 2, 3], [0, 2, 3], 3))
        self.assertEqual(self.texts(session), ['', '5\n', '[0 1 2 3]\n', ''])

    def test_a_cell_that_ran_and_shows_the_same_flashes(self):
        session = self.open(CHAIN)
        rev, old = session.rev, session.codes()[1]
        self.assertEqual(self.change(session, 'y = 5', 'y = 4 + 1'), (0, ['edit 1']))
        self.assertEqual((self.asked, self.flashed(session, rev)), ([1], [1]))
        self.assertLessEqual(old.out_rev, rev)

    def test_a_cell_that_comes_goes_or_moves(self):
        session = self.open(CHAIN)
        behind, before = CHAIN + '# %%\nprint(7)\n', '# %%\nprint(8)\n' + CHAIN
        for text, asked in ((behind, [4]), (CHAIN, []), (before, [0]), (CHAIN, [])):
            rev = session.rev
            self.write(session, text)
            self.assertEqual(self.flashed(session, rev), asked)
            self.assertEqual(self.texts(session), self.fresh(text))

    def fresh(self, text):
        path = self.folder / 'fresh.py'
        path.write_text(text)
        session = opened(path)
        session.sync()
        session.close()
        return [shown.result.text for shown in session.codes()]

    def test_an_input_runs_what_loads_it(self):
        (self.folder / 'a.npy').write_bytes(npy('np.arange(3)'))
        session = self.open("# %%\nprint(1)\n# %%\nprint(np.load('a.npy'))\n")
        rev = session.rev
        (self.folder / 'a.npy').write_bytes(npy('np.arange(4)'))
        self.asked.clear()
        self.assertEqual((session.sync(), self.asked, self.flashed(session, rev)), (1, [1], [1]))

    def test_a_buffer_is_read_by_its_path(self):
        path = self.folder / 'b.raw'
        path.write_bytes(bytes(range(8)))
        layout = '{"format": "B", "itemsize": 1, "shape": [2, 2], "strides": [-4, 1], "offset": %d}'
        (self.folder / 'b.raw.json').write_text(layout % 5)
        session = self.open("# %%\nprint(buffer('b.raw'))\n")
        os.utime(path)
        session.sync()
        self.assertEqual((self.sent[0], session.ran), (f'input b.raw raw {path} B 1 2,2 -4,1 5', set()))
        (self.folder / 'b.raw.json').write_text(layout % 4)
        self.assertEqual((session.sync(), self.texts(session)), (1, ['[[4 5]\n [0 1]]\n']))
        path.unlink()
        session.sync()
        self.assertEqual(session.codes()[0].result.refusal.fault, 'Stmt.NoInput b.raw')

    def test_a_picture_is_another_behind_a_cell_that_did_not_run(self):
        session = self.open('# %%\nx = np.arange(6)\n# %%\nx[5] = 7\n# %%\ny = x[3:]\n')
        last = session.codes()[2]
        session.look(last)
        self.change(session, 'x[5] = 7', 'x[5] = 8')
        self.assertTrue(last.is_old)
        rev = session.rev
        session.look(last)
        self.assertIn('8', last.seen.figures[0].picture)
        self.assertEqual((self.flashed(session, rev), last.out_rev > rev), ([], True))


class Flashes(WithoutWords, Opened):
    """Over a program that does not tell what ran, what shows something else flashes."""

    def test_what_shows_something_else_flashes(self):
        session = self.open(CHAIN)
        rev = session.rev
        self.assertEqual(self.change(session, 'arange(3)', 'arange(4)'), (1, ['edit 0']))
        self.assertEqual(self.asked, [0, 1, 2, 3])
        self.assertEqual([at for at, shown in enumerate(session.codes()) if shown.flash_rev > rev], [2])
        self.assertFalse(session.tells_runs or session.ran)


class Together(WithAllWords, Opened):
    def test_several_edits_are_one(self):
        session = self.open(TEN)
        text = TEN.replace(' = ', ' = 1')
        self.assertEqual(self.write(session, text), (1, ['begin']))
        self.assertEqual(self.texts(session)[-1], '10 11 12 13 14 15 16 17 18 19\n')
        self.assertEqual((len(self.asked), len(session.ran)), (11, 11))
        self.assertEqual(self.write(session, text.replace('v0 = 10', 'v0 = 5')), (1, ['edit 0']))

    def test_cells_that_come_go_and_move_at_once(self):
        session = self.open(TEN)
        cells = book.parse(TEN)
        cells = [cells[5], *cells[1:5], book.Cell('# %%\n', 'v8 = 80\nprint(v8)\n'), cells[7], *cells[9:],
                 book.Cell('# %%\n', 'print(2)\n')]
        self.assertEqual(self.write(session, book.written(cells))[1], ['begin'])
        fresh = opened(self.path)
        fresh.sync()
        self.addCleanup(fresh.close)
        self.assertEqual([(shown.cell, shown.result) for shown in session.shown],
                         [(shown.cell, shown.result) for shown in fresh.shown])

    def test_a_cell_that_is_refused_holds_up_no_other(self):
        session = self.open(TEN)
        text = TEN.replace('v1 = 1\n', 'v1 = 10\n').replace('v5 = 5\n', 'v5 = 50\n')
        text = text.replace('v3 = 3\n', '#' * 70_000 + '\n')
        self.assertEqual(self.write(session, text), (1, ['begin', 'begin', 'edit 3']))
        self.assertEqual(self.texts(session)[-1], '0 10 2 3 4 50 6 7 8 9\n')
        self.assertIn('65,536 bytes', session.codes()[3].note)
        self.assertEqual(self.write(session, TEN), (1, ['begin']))
        self.assertEqual([shown.note for shown in session.codes()], [''] * 11)

    def test_what_wants_memory_is_sent_by_single_edits(self):
        session = self.open('# %%\nx = 1\n# %%\ny = 2\nprint(y)\n')
        apply, tried = session.notebook.apply, []

        def without_memory(edits):
            tried.append(len(edits))
            if len(edits) > 1:
                session.notebook.starve()
            try:
                apply(edits)
            finally:
                session.notebook.feed()
        session.notebook.apply = without_memory
        many = 'x = np.arange(4000000)\n' + 'x = x + 1\n' * 4
        self.change(session, 'x = 1\n# %%\ny = 2', f'{many}# %%\ny = 3')
        self.assertEqual((tried, self.texts(session)), ([2, 1, 1], ['', '3\n']))

    def test_a_stop_holds_back_the_cell_that_ran(self):
        for slow in (SLOW, SLOW_IN_PLACE):
            session = self.open('# %%\nx = 1\nprint(x)\n# %% Slow\ns = 1\n# %%\ny = 2\nprint(y)\n')
            number = session.codes()[1].id

            def stop():
                wait_for(lambda: session.running() == number)
                time.sleep(0.5)
                session.stop()
            thread = threading.Thread(target=stop)
            thread.start()
            self.write(session, f'# %%\nx = 3\nprint(x)\n# %% Slow\n{slow}\n# %%\ny = 4\nprint(y)\n')
            thread.join()
            notes = [shown.note for shown in session.codes()]
            self.assertEqual((notes[0], notes[2], self.texts(session)), ('', '', ['3\n', '', '4\n']))
            self.assertIn('Stopped', notes[1])
            self.change(session, slow, 's = 2')
            self.assertEqual([shown.note for shown in session.codes()], ['', '', ''])

    def test_a_stop_holds_back_all_where_no_cell_is_told(self):
        session = self.open('# %%\nx = 1\nprint(x)\n# %%\nz = 1\n# %%\ny = 2\nprint(y)\n')
        apply = session.notebook.apply

        def stopped(edits):
            if len(edits) < 2:
                return apply(edits)
            session.is_stopping = True
            raise Refused('OutOfMemory')
        session.notebook.apply = stopped
        self.write(session, '# %%\nx = 3\nprint(x)\n# %%\nz = 1\n# %%\ny = 4\nprint(y)\n# %%\nw = 5\n')
        self.assertEqual(['Stopped' in shown.note for shown in session.codes()], [True, False, True, True])
        self.assertEqual(self.texts(session), ['1\n', '', '2\n', ''])
        session.notebook.apply = apply
        for at, text in ((0, '3\n'), (2, '4\n')):
            session.release(session.codes()[at])
            session.sync()
            self.assertEqual((self.texts(session)[at], session.codes()[at].note), (text, ''))

    def test_the_cell_in_which_the_program_ends_is_named(self):
        name = 'NDNOTE_REAL' if 'NDNOTE_REAL' in os.environ else 'NDNOTE_PROGRAM'
        real = os.environ.get('NDNOTE_REAL') or program()
        with mock.patch.dict(os.environ, {name: wrapper(self.folder / 'program', real)}):
            session = self.open('# %%\nx = 1\n# %% Ends it\nz = 1\n# %%\ny = 2\nprint(x, y)\n')
            self.write(session, '# %%\nx = 3\n# %% Ends it\n# BOOM\n# %%\ny = 4\nprint(x, y)\n')
            self.assertIn('twice in this cell', session.codes()[1].note)
            self.assertEqual(self.texts(session), ['', '', '3 4\n'])
            if name == 'NDNOTE_REAL':
                self.assertEqual(session.last_death, 'ended with status 7 in the cell “Ends it”')
                self.assertEqual(session.named(session.codes()[2].id), 'the cell of line 6')


class Edits(unittest.TestCase):
    """Edits that lead from one list of numbered cells to another."""

    def test_edits_lead_where_they_should(self):
        old = {1: 'a', 2: 'b', 3: 'c', 4: 'd'}
        for wanted in ([], [(1, 'a'), (2, 'b'), (3, 'c'), (4, 'd')], [(4, 'd'), (2, 'x'), (5, 'e'), (1, 'a')],
                       [(9, 'n'), (3, 'c'), (2, 'b'), (1, 'z'), (4, 'd'), (8, 'm')], [(2, 'b'), (1, 'a'), (4, 'q')]):
            order, texts = list(old), dict(old)
            edits = edits_to(wanted, order, old)
            for edit in edits:
                carry_out([edit], order)
                if edit.source is not None:
                    texts[edit.number] = edit.source
            self.assertEqual([(number, texts[number]) for number in order], wanted)
            same = [at for at, pair in enumerate(zip(old.items(), wanted)) if pair[0] == pair[1]]
            if edits:
                self.assertEqual(list(range(first_place(edits))), same[:first_place(edits)])


if __name__ == '__main__':
    unittest.main()
