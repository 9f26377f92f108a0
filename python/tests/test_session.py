"""A book in one notebook of the program: what is sent, what comes back after an end, and that it is a fresh run's."""
import os
import random
import threading
import time
import unittest
from unittest import mock

from ndnote import Died, book, pictures
from ndnote.process import program
from ndnote.session import Doing, opened
from programs import WithAllWords, WithoutWords
from sessions import SLOW, SLOW_IN_PLACE, Opened, links_of, npy, wrapper

POOL = ['x = np.arange(6)', 'x = np.arange(9) * 2', 'y = x[1:4]', 'y += 10', 'print(x)', 'print(y, x.sum())',
        "a = np.load('a.npy')\nprint(a)", 'x[0] = 7\nm = x > 3', 'del x', 'y = 1 +', 'x = x[::-1]', '',
        "np.save('s', x)", 'print(m)', 'a *= 2', 'x[9] = 1', 'm = a > 1\nprint(m.sum())', 'print(x + np.arange(4))']
MARKS = ['# %%\n', '# %% Title\n', '# %% [markdown]\n# ']


def told(session):
    return [(shown.cell, shown.line, shown.result, shown.seen, shown.note, links_of(session, shown))
            for shown in session.shown]


class Sessions(Opened):
    turns = 100             # of drawn changes

    def test_only_what_changed_is_sent(self):
        session = self.open('# %%\nx = np.arange(3)\n# %% [markdown]\n# Words.\n# %%\nprint(x)\n# %%\nprint(1)\n')
        numbers = [shown.id for shown in session.shown]
        self.assertEqual(self.change(session, 'arange(3)', 'arange(4)'), (1, ['edit 0']))
        self.assertEqual(self.change(session, 'Words', 'Other words'), (0, []))
        self.assertEqual(self.change(session, '# %%\nprint(1)', '# %% Title\nprint(1)'), (0, []))
        self.assertEqual(self.change(session, '# %% Title', '# %%\nprint(2)\n# %% Title'), (1, ['insert 2']))
        self.assertEqual([shown.id for shown in session.shown][:3], numbers[:3])
        self.assertEqual(self.change(session, '# %%\nprint(2)\n', ''), (0, ['remove 2']))
        self.assertEqual(self.texts(session), ['', '[0 1 2 3]\n', '1\n'])

    def test_inputs_follow_their_files(self):
        (self.folder / 'a.npy').write_bytes(npy('np.arange(3)'))
        session = self.open("# %%\na = np.load('a.npy')\nprint(a)\n")
        self.assertEqual(self.texts(session), ['[0 1 2]\n'])
        (self.folder / 'a.npy').write_bytes(npy('np.arange(4)'))
        self.assertEqual((session.sync(), self.texts(session)), (1, ['[0 1 2 3]\n']))
        self.sent.clear()
        self.assertEqual((session.sync(), self.sent), (0, []))
        os.utime(self.folder / 'a.npy')
        reads_itself = 'file' in session.notebook.words
        sent = [f'input a.npy file {self.folder / "a.npy"}'] if reads_itself else []
        self.assertEqual((session.sync(), self.sent[:1]), (0, sent))
        (self.folder / 'a.npy').unlink()
        session.sync()
        self.assertEqual(session.codes()[0].result.refusal.fault, 'Stmt.NoInput a.npy')

    def test_a_file_that_can_be_no_input_is_a_problem(self):
        session = self.open("# %%\na = np.load('a.npy')\nprint(a)\n")
        for make, told in ((os.mkfifo, 'no regular file'), (os.mkdir, 'no regular file'),
                           (lambda path: path.touch() or os.truncate(path, (1 << 26) + 1), 'more than 64 MiB')):
            path = self.folder / 'a.npy'
            make(path)
            session.sync()
            self.assertIn(told, session.problems['a.npy'])
            path.rmdir() if path.is_dir() else path.unlink()
        path.write_bytes(npy('np.arange(3)'))
        self.assertEqual((session.sync(), self.texts(session), session.problems), (1, ['[0 1 2]\n'], {}))

    def test_saved_files_are_written(self):
        session = self.open("# %%\nnp.save('f', 1)\nnp.save('g.npy', 2)\n# %%\nnp.save('f', 3)\n")
        for _ in range(2):
            self.assertEqual(session.saves(self.folder / 'a b'), ['f.npy', 'g.npy'])
            self.assertEqual(sorted(os.listdir(self.folder / 'a b')), ['f.npy', 'g.npy'])
            self.assertEqual((self.folder / 'a b/f.npy').read_bytes(), npy('3'))

    def test_buffers_follow_their_layouts(self):
        layout = '{"format": "%s", "itemsize": 1, "shape": [2, 2], "strides": [-4, 1], "offset": 5}'
        (self.folder / 'b.raw').write_bytes(bytes(range(8)))
        session = self.open("# %%\nprint(buffer('b.raw'))\n")
        self.assertIn('its layout is not there', session.problems['b.raw'])
        (self.folder / 'b.raw.json').write_text(layout % 'B')
        self.assertEqual((session.sync(), self.texts(session)), (1, ['[[5 6]\n [1 2]]\n']))
        (self.folder / 'b.raw.json').write_text(layout % 'z')
        session.sync()
        self.assertEqual(session.codes()[0].result.refusal.fault, 'Format.UnknownCode 0')
        (self.folder / 'b.raw.json').write_text(layout % 'B 1 2 1 0 00\\nremove 0\\n#')
        session.sync()
        self.assertIn('is wrong', session.problems['b.raw'])
        self.assertEqual(len(session.order), 1)

    def test_a_process_that_ends_is_started_again(self):
        session = self.open('# %%\nx = np.arange(3)\n# %%\nprint(x)\n')
        session.notebook.kill()
        self.assertEqual(self.change(session, 'arange(3)', 'arange(5)')[0], 1)
        self.assertEqual((self.texts(session), session.last_death), (['', '[0 1 2 3 4]\n'], 'ended by signal 9'))

    def test_a_stopped_cell_is_held_until_it_is_edited(self):
        for slow in (SLOW, SLOW_IN_PLACE):      # one takes memory and is refused it, the other ends with the process
            session = self.open('# %%\ns = 1\n# %%\nprint(s)\n')
            threading.Timer(1, session.stop).start()
            began = time.perf_counter()
            self.change(session, 's = 1', slow)
            self.assertLess(time.perf_counter() - began, 30)
            self.assertIn('Stopped', session.codes()[0].note)
            shown = session.codes()[1].result
            is_same = session.notebook.process == self.process
            self.assertEqual(shown.text or shown.refusal.fault, '1\n' if is_same else 'Stmt.NoName s')
            self.assertEqual(self.change(session, 'print(s)', 'print(5)')[0], 1)
            self.change(session, slow, 's = 2\n')
            self.assertEqual((self.texts(session), session.codes()[0].note), (['', '5\n'], ''))

    def test_a_stop_that_comes_too_late_stops_nothing(self):
        session = self.open('# %%\ns = 1\n')
        session.stop()
        session.current = Doing(0, 's = 1')
        with mock.patch('ndnote.session.GRACE', 0.2):
            thread = threading.Thread(target=session.stop)
            thread.start()
            time.sleep(0.05)
            session.current = None
            thread.join()
        self.assertEqual(self.change(session, 's = 1', 's = np.arange(1000)\nprint(s.sum())')[0], 1)
        self.assertEqual((self.texts(session), session.codes()[0].note), (['499500\n'], ''))

    def test_a_cell_that_ends_the_program_is_held_back(self):
        with mock.patch.dict(os.environ, NDNOTE_PROGRAM=wrapper(self.folder / 'program', program())):
            session = self.open('# %%\nx = 1\n# %%\n# BOOM\n# %%\nprint(x)\n')
            self.assertIn('twice in this cell', session.codes()[1].note)
            self.assertEqual(self.texts(session), ['', '', '1\n'])
            self.change(session, '# BOOM', 'x = 2')
            self.assertEqual((self.texts(session), session.codes()[1].note), (['', '', '2\n'], ''))

    def test_a_refused_edit_keeps_what_was_shown(self):
        session = self.open('# %%\nx = 1\nprint(x)\n')
        self.change(session, 'x = 1', 'x = 2\n#' + 'x' * 70_000)
        self.assertEqual(self.texts(session), ['1\n'])
        self.assertIn('65,536 bytes', session.codes()[0].note)
        for source in ('x = 1', 'x = 2 - 1'):
            self.change(session, 'x = ', 'x = 2\n#' + 'x' * 70_000 + '\nx = ')
            shown, rev = session.codes()[0], session.rev
            self.assertIn('65,536 bytes', shown.note)
            self.write(session, f'# %%\n{source}\nprint(x)\n')
            self.assertEqual((shown.note, self.texts(session), shown.out_rev > rev), ('', ['1\n'], True))

    def test_pictures_that_end_the_program_are_left_out(self):
        session = self.open('# %%\nx = np.arange(3)\n')
        with mock.patch.object(pictures, 'figures', lambda notebook, *_: (notebook.kill(), notebook.names(0))):
            for _ in range(3):
                try:
                    session.look(session.codes()[0])
                except Died as died:
                    session.restart(died)
                    session.sync()
        shown = session.codes()[0]
        self.assertEqual((shown.seen.figures, shown.note, self.texts(session)), ((), '', ['']))

    def mutate(self, drawn, cells):
        """One drawn change of a list of cells."""
        at, act = drawn.randrange(len(cells) + 1), drawn.randrange(6)
        if act == 0 and cells:
            cells.insert(drawn.randrange(len(cells)), cells.pop(drawn.randrange(len(cells))))
        elif act == 1 and cells:
            cells.pop(drawn.randrange(len(cells)))
        elif act < 4 and at < len(cells):
            cells[at] = (drawn.choice(MARKS), drawn.choice(POOL))
        else:
            cells.insert(at, (drawn.choice(MARKS), drawn.choice(POOL)))

    def test_what_is_shown_is_what_a_fresh_run_shows(self):
        drawn = random.Random(5)
        cells = [('# %%\n', source) for source in POOL[:5]]
        session = self.open('x = 1\n')
        for turn in range(self.turns):
            for _ in range(drawn.choice((1, 1, 1, 2, 4))):
                self.mutate(drawn, cells)
            if drawn.random() < 0.2:
                (self.folder / 'a.npy').write_bytes(npy(f'np.arange({drawn.randrange(5)})'))
            if drawn.random() < 0.05:
                session.notebook.kill()
            self.path.write_text(''.join(mark + source + '\n\n' for mark, source in cells))
            session.set_cells(book.parse(self.path.read_text()))
            session.sync()
            fresh = opened(self.path)
            fresh.sync()
            for other in (session, fresh):
                for shown in other.codes():
                    if shown.is_old:
                        other.look(shown, has_links=True)
            self.assertEqual(told(session), told(fresh), turn)
            fresh.close()


class SessionsWithoutWords(WithoutWords, Sessions):
    """The same over a program without words."""


class SessionsWithAllWords(WithAllWords, Sessions):
    """The same over a program that has all words."""
    turns = 25


if __name__ == '__main__':
    unittest.main()
