"""What cells read: the answers of the program, the links that are made of them, and when a session asks for them."""
import io
import unittest
from unittest import mock

from ndnote import BlockRead, Died, NameRead, Notebook, Reads, Refused
from ndnote.reads import Link, Links
from programs import WithAllWords, WithoutWords
from sessions import Opened, links_of, npy
from test_server import Serving

VIEWS = '# %% Made\nx = np.arange(4)\n# %% Written\nx[1:] = 5\n# %% View\ny = x[2:]\n# %% Read\nprint(y[0])\n'
MALFORMED = ['reads', 'reads ', 'reads x', 'reads 01', 'reads -1', 'reads 1 2', 'ran 0', '']
MALFORMED_LINES = ['', 'name', 'name x', 'name x ', 'name x 01', 'name x -1', 'name x y', 'name  0', 'name x 0 1',
                   'names x 0', 'input', 'input ', 'input a/b', 'input a b', 'input a ', 'block', 'block 0 0',
                   'block - - 0', 'block 0 0 x', 'block 00 0 0', 'block 0 -1 0', 'block 0 0 0 0', 'block  0 0',
                   'word x 0', 'ok', 'refused NoCell 1 1', 'name x 5', 'block 5 0 -', 'block - 0 9']


class Answers(unittest.TestCase):
    """What a notebook makes of an answer, whatever program gives it."""

    def setUp(self):
        self.book = Notebook()
        self.addCleanup(self.book.close)
        patched = mock.patch.object(Notebook, 'words', frozenset({'reads'}))
        patched.start()
        self.addCleanup(patched.stop)

    def reads(self, *lines, at=5):
        sent = []
        pipe, self.book._process.stdout = self.book._process.stdout, io.BytesIO('\n'.join([*lines, 'ok', '']).encode())
        pipe.close()
        with mock.patch.object(self.book, '_write', sent.extend):
            try:
                return self.book.reads(at)
            finally:
                self.assertEqual(sent, [b'reads %d\n' % at])

    def test_an_answer(self):
        lines = ['name y 2', 'name x -', 'input a-1.npy', 'block 0 0 1', 'block - 12 -', 'name long_1 4']
        self.assertEqual(self.reads('reads 6', *lines), Reads(
            (NameRead('y', 2), NameRead('x', None), NameRead('long_1', 4)), ('a-1.npy',),
            (BlockRead(0, 0, 1), BlockRead(None, 12, None))))
        self.assertEqual(self.book._line(), 'ok')
        self.assertEqual(self.reads('reads 0'), Reads())

    def test_refusals(self):
        for why in ('NoCell 5 5', 'OutOfMemory'):
            with self.assertRaisesRegex(Refused, f'^{why}$'):
                self.reads('refused ' + why)
        with self.assertRaises(Refused):
            self.reads('bad command')

    def test_malformed_answers_are_errors(self):
        for line in MALFORMED:
            with self.assertRaises(ValueError, msg=line):
                self.reads(line)
        for line in MALFORMED_LINES:
            with self.assertRaises(ValueError, msg=line):
                self.reads('reads 3', 'name a 0', line, 'input b')
            self.assertEqual(self.book._line(), 'ok', line)
        with self.assertRaises(Died):
            self.book.kill()
            self.reads('reads 9', 'name a 0')


class Making(unittest.TestCase):
    """Links of what was read."""
    order = [10, 11, 12, 13, 14]

    def links(self, names, *blocks):
        reads = Reads(tuple(NameRead(*pair) for pair in names), (), tuple(BlockRead(*block) for block in blocks))
        return [tuple(link) for link in Links.of_reads(reads, self.order).cells]

    def test_names_of_one_cell_are_one_link(self):
        self.assertEqual(self.links([('x', 3), ('a', 1), ('y', 3), ('q', None)]),
                         [(11, ('a',), False), (13, ('x', 'y'), False)])

    def test_through_memory(self):
        for names, block, told in (
                ([('x', 0)], (0, 0, 0), [(10, ('x',), False)]),                     # as it was made
                ([('x', 0)], (0, 0, 1), [(10, ('x',), False), (11, (), True)]),     # another cell wrote it
                ([('y', 2)], (0, 0, 1), [(11, (), True), (12, ('y',), False)]),
                ([('y', 2)], (0, 0, 0), [(10, (), True), (12, ('y',), False)]),     # a view of what was made
                ([('y', 2)], (0, 0, 2), [(12, ('y',), False)]),                     # the cell that bound it wrote it
                ([('x', 0), ('m', 1)], (0, 0, 1), [(10, ('x',), False), (11, ('m',), True)]),
                ([('x', 0), ('n', 1)], (0, 0, 0), [(10, ('x',), False), (11, ('n',), False)]),
                ([], (None, 0, None), [])):
            self.assertEqual(self.links(names, block), told, (names, block))

    def test_what_browsers_are_told(self):
        links = Links((Link(3, ('x',), True),), ('a.npy',))
        self.assertEqual(links.told(), {'cells': [[3, ['x'], True]], 'inputs': ['a.npy']})


class Programs(WithAllWords, unittest.TestCase):
    def test_the_program_tells_who_reads_whom(self):
        with Notebook() as book:
            book.input('a', npy('np.arange(4)'))
            for at, source in enumerate(['x = np.arange(4)', 'x[1:] = 5', 'y = x[2:]', 'print(y[0])',
                                         "print(np.load('a'))", 'del x', 'print(x)']):
                book.insert(at, source)
            self.assertEqual(book.reads(3), Reads((NameRead('y', 2),), (), (BlockRead(0, 0, 1),)))
            self.assertEqual([book.reads(at).names for at in (0, 1, 2, 4, 6)],
                             [(), (NameRead('x', 0),), (NameRead('x', 0),), (), (NameRead('x', 5),)])
            self.assertEqual(book.reads(4).inputs, ('a',))
            with self.assertRaisesRegex(Refused, '^NoCell 7 7$'):
                book.reads(7)


class Sessions(WithAllWords, Opened):
    def look(self, session, *visible):
        """Looks at the cells that are in view, and tells which of them were asked what they read."""
        self.sent.clear()
        for at, shown in enumerate(session.codes()):
            if shown.is_old and at in visible:
                session.look(shown, has_links=True)
        return [int(word.split(' ')[1]) for word in self.sent if word.startswith('reads ')]

    def links(self, session, at):
        return links_of(session, session.codes()[at])

    def test_links_through_views_of_one_array(self):
        session = self.open(VIEWS)
        self.look(session, 0, 1, 2, 3)
        self.assertEqual(self.links(session, 3), ([(1, [], True), (2, ['y'], False)], []))
        self.assertEqual(self.links(session, 0), ([], []))
        self.assertIn((0, ['x'], False), self.links(session, 1)[0])

    def test_cells_in_view_are_asked_again_behind_a_run_alone(self):
        session = self.open(VIEWS + '# %%\nz = 7\n')
        self.assertEqual(self.look(session, 1, 3), [1, 3])
        self.assertEqual(self.look(session, 1, 3), [])
        self.assertIsNone(self.links(session, 2))
        self.change(session, '# %% Read', '# %% Other title')
        self.assertEqual(self.look(session, 1, 3), [])
        self.change(session, 'z = 7', 'z = 8')
        self.assertEqual(self.look(session, 1, 3, 4), [4])
        self.change(session, 'y = x[2:]', 'y = x[3:]')
        self.assertIsNone(self.links(session, 3))
        self.assertIsNotNone(self.links(session, 1))
        self.assertEqual(self.look(session, 1, 3, 4), [3, 4])

    def test_places_that_move(self):
        session = self.open(VIEWS)
        self.look(session, 0, 1, 2, 3)
        self.change(session, '# %% Written', '# %% New\nw = 1\n# %% Written')
        self.assertEqual(self.look(session, 3, 4), [3, 4])
        self.assertEqual(self.links(session, 4), ([(2, [], True), (3, ['y'], False)], []))
        self.change(session, '# %% New\nw = 1\n', '')
        self.assertEqual(self.look(session, 3), [3])
        self.assertEqual(self.links(session, 3), ([(1, [], True), (2, ['y'], False)], []))

    def test_a_cell_that_did_not_run_reads_from_another(self):
        session = self.open('# %%\nn = 5\n# %%\nm = 1\n# %%\nprint(n)\n')
        self.look(session, 2)
        self.assertEqual(self.links(session, 2), ([(0, ['n'], False)], []))
        self.change(session, 'm = 1', 'n = 5')
        self.assertEqual(len(session.ran), 1)
        self.look(session, 2)
        self.assertEqual(self.links(session, 2), ([(1, ['n'], False)], []))

    def test_an_input_that_is_another(self):
        path = self.folder / 'a.npy'
        path.write_bytes(npy('np.arange(3)'))
        session = self.open("# %%\nx = 1\n# %%\na = np.load('a.npy')\n# %%\nprint(a, x)\n")
        self.look(session, 0, 1, 2)
        self.assertEqual(self.links(session, 1), ([], ['a.npy']))
        path.write_bytes(npy('np.arange(4)'))
        session.sync()
        self.assertEqual(self.look(session, 0, 1, 2), [1, 2])

    def test_want_of_memory_takes_away_the_links_alone(self):
        session = self.open(VIEWS)
        last = session.codes()[2]
        with mock.patch.object(session.notebook, 'reads', mock.Mock(side_effect=Refused('OutOfMemory'))):
            session.look(last, has_links=True)
        self.assertEqual((last.links, len(last.seen.figures)), (None, 1))

    def test_a_look_that_wants_no_links_does_not_ask(self):
        session = self.open(VIEWS)
        session.look(session.codes()[3])
        self.assertEqual([word for word in self.sent if word.startswith('reads')], [])
        self.assertIsNone(self.links(session, 3))

    def test_a_cell_that_becomes_a_text_reads_nothing(self):
        session = self.open(VIEWS)
        self.look(session, 0, 1, 2, 3)
        self.write(session, VIEWS.replace('# %% View\ny = x[2:]', '# %% [markdown]\n# y'))
        self.assertEqual([shown.links for shown in session.shown if shown.cell.is_text], [None])


class SessionsWithoutWords(WithoutWords, Opened):
    def test_a_program_that_does_not_tell_is_not_asked(self):
        session = self.open(VIEWS)
        for shown in session.codes():
            session.look(shown, has_links=True)
        self.assertIsNone(session.notebook.reads(3))
        self.assertEqual([shown.links for shown in session.codes()], [None] * 4)
        self.assertEqual([word for word in self.sent if word.startswith('reads')], [])


class Served(WithAllWords, Serving):
    def test_browsers_are_told_of_cells_in_view(self):
        desk, session = self.server.desk, self.server.desk.session
        self.path.write_text(VIEWS)
        self.wait(lambda: desk.state['word'] == 'ready' and len(session.order) == 4)
        numbers = [shown.id for shown in session.shown]
        self.assertEqual(self.do(op='look', ids=[numbers[3]]), 204)
        self.wait(lambda: session.shown[3].links)
        told = {'cells': [[numbers[1], [], True], [numbers[2], ['y'], False]], 'inputs': []}
        self.assertEqual(desk.since(-1)['links'][numbers[3]], told)
        self.assertEqual([shown.links for shown in session.shown[:3]], [None] * 3)
        rev = session.rev
        self.assertEqual((desk.since(rev)['links'], desk.since(rev, True)['links'][numbers[3]]), ({}, told))
        self.do(op='edit', id=numbers[1], was='x[1:] = 5', source='x[:2] = 5')
        self.wait(lambda: desk.since(rev)['links'].get(numbers[3]))


if __name__ == '__main__':
    unittest.main()
