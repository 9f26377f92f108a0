"""What is found out about values beside their texts: types, pictures, operands of refusals, and ends of long texts."""
import unittest
from unittest import mock

from ndnote import Notebook, pictures
from ndnote.excerpt import excerpts
from ndnote.explain import alike, operands
from ndnote.probe import behind_cell, known
from programs import WithAllWords, WithoutWords


class Counting:
    """A pipe that counts what comes out of it."""

    def __init__(self, file):
        self.file, self.count = file, 0

    def readline(self):
        line = self.file.readline()
        self.count += len(line)
        return line

    def read(self, count):
        self.count += count
        return self.file.read(count)

    def close(self):
        self.file.close()


class Looks(unittest.TestCase):
    def setUp(self):
        self.book = Notebook()
        self.addCleanup(self.book.close)

    def tearDown(self):
        self.assertEqual(self.book._ask(b'count\n'), f'count {self.book.count}')

    def explained(self, source):
        self.book.insert(0, source)
        found = operands(self.book, 0, source, self.book.show(0).refusal)
        self.book.remove(0)
        return [(part.text, part.words) for part in found]

    def cut(self, source):
        self.book.insert(0, source)
        refusal = self.book.show(0).refusal
        self.assertEqual(refusal.fault, 'Stmt.TextTooLong')
        found = excerpts(self.book, 0, source, refusal)
        self.book.remove(0)
        return [(part.text, part.words, part.lines) for part in found]

    def test_types_and_shapes_without_elements(self):
        self.book.insert(0, "n = 3\nx = np.arange(6).reshape(2, 3)\nr = np.zeros(2, dtype=[('a', np.int8)])\nw = r[0]\n"
                            's = np.uint8(7)\nb = x > 2\nz = np.array(5)')
        more = ['g = 18446744073709551615', 't = True', 'u = np.bool_(1)', 'v = np.arange(3)', 'del x']
        words = {'g': 'a Python integer', 't': 'a Python Boolean', 'u': 'bool', 'v': 'int64 · 3'}
        probe = behind_cell(self.book, 0)
        for probe, others in ((probe, {'x': 'int64 · 2 × 3'}), (probe.behind(more), words)):
            found = {name: what.words for name, what in known(probe, list('nxqrwsbzgtuv')).items()}
            self.assertEqual(found, {'n': 'a Python integer', 'r': 'structure · 2', 'w': 'a row', 's': 'uint8',
                                     'b': 'bool · 2 × 3', 'z': 'int64 · no axes', **others})

    def test_kinds_of_pictures(self):
        cells = {'n = 3': 'code', 'm = np.arange(12).reshape(3, 4) > 5': 'mask',
                 'i = np.arange(12).reshape(3, 4)': 'grey', 'l = np.arange(99)': 'lines',
                 'c = np.zeros((4, 5, 3), dtype=np.uint8)': 'colour',
                 "r = np.zeros(9, dtype=[('a', np.int8), ('b', np.bool_)])": 'table', 's = np.uint8(7)': 'code',
                 'e = np.zeros((0, 3), dtype=np.int8)': '', 'd = np.arange(120).reshape(2, 3, 4, 5)': 'grey',
                 'h = np.arange(5000) % 7': 'lines', 'b = np.arange(5000) % 7 == 0': 'mask', 'z = np.array(5)': 'code',
                 'w = np.arange(900).reshape(300, 3) > 4': 'mask', "v = np.arange(9, dtype='>i4')[::-1]": 'lines',
                 "q = np.zeros(2, dtype=[('<b>', np.int8)])[0]": 'code',
                 'f = np.arange(16).reshape(2, 2, 2, 2)': 'grey'}
        for source, kind in cells.items():
            self.book.insert(0, source)
            found, = pictures.figures(self.book, 0, [source[0]])
            self.assertIn(kind, found.picture, source)
            self.assertNotIn('<b>', found.picture)

    def test_many_names_are_told_by_their_number(self):
        names = [f'x{at}' for at in range(40)]
        self.book.insert(0, '\n'.join(f'{name} = {at}' for at, name in enumerate(names)))
        found = pictures.figures(self.book, 0, names)
        self.assertEqual((len(found), found[-1].name), (pictures.MOST + 1, 'and 16 more names'))

    def test_a_large_array_does_not_travel(self):
        self.book.insert(0, 'x = np.zeros((4096, 4096), dtype=np.uint8)')
        self.book._process.stdout = counter = Counting(self.book._process.stdout)
        found, = pictures.figures(self.book, 0, ['x'])
        self.assertEqual((found.kind, found.shape), ('uint8', '4,096 × 4,096'))
        self.assertLess(counter.count, 300_000)

    def test_a_refused_operation_tells_its_operands(self):
        self.assertEqual(self.explained('c = np.zeros((2, 3, 4), dtype=np.int16)\ng = np.arange(4)\n'
                                        'y = (c - 3) * g + c.sum(axis=0)[:, :3] // 2'),
                         [('(c - 3) * g', 'int64 · 2 × 3 × 4'), ('c.sum(axis=0)[:, :3] // 2', 'int64 · 3 × 3')])
        self.assertEqual(self.explained('x = np.zeros(3, dtype=np.int8)\nm = np.arange(4) > 1\nx[m] = 1'),
                         [('x', 'int8 · 3'), ('m', 'bool · 4')])
        self.assertEqual(self.explained('x = np.zeros(3, dtype=np.uint8)\nx += np.arange(3) - 1'),
                         [('x', 'uint8 · 3'), ('np.arange(3) - 1', 'int64 · 3')])
        self.assertEqual(self.explained('x = np.arange(4)\nprint(x.reshape(2, 2).sum(axis=2))'),
                         [('x.reshape(2, 2)', 'int64 · 2 × 2')])
        self.assertEqual(self.explained('n = 5\nprint(n.T)'), [('n', 'a Python integer')])
        self.assertEqual(self.explained('x = np.arange(4)\nx[1:3] = np.arange(3)'),
                         [('np.arange(3)', 'int64 · 3'), ('x[1:3]', 'int64 · 2')])

    def test_what_is_no_operation_has_no_operands(self):
        for source in ('x = 1 +', 'print(q)', 'x = 7 // 0', "x = np.load('no')"):
            self.assertEqual(self.explained(source), [], source)

    def test_a_name_that_is_alike(self):
        self.book.insert(0, 'counts = 3\nprint(count)')
        self.assertEqual(alike(self.book, 0, self.book.show(0).refusal.fault), 'counts')
        self.assertEqual(alike(self.book, 0, 'Stmt.ZeroDivide'), '')

    def test_the_ends_of_a_long_text(self):
        self.assertEqual(self.cut('x = np.arange(200000)\nprint(x, 7)'), [
            ('x', 'int64 · 200,000', '[0 1 2 3 4 5 6 7 … 199992 199993 199994 199995 199996 199997 199998 199999]'),
            ('7', 'a Python integer', '7')])
        (text, words, lines), = self.cut('x = np.arange(200000).reshape(1000, 200)\nprint(x + 0)')
        self.assertEqual((text, words), ('x + 0', 'int64 · 1,000 × 200'))
        first, *_, gap, _, _, last = lines.split('\n')
        self.assertRegex(first, r'^\[\[ +0 +1 .* 7 … +192 .*199\]$')
        self.assertIn('994 rows left out by ndnote', gap)
        self.assertRegex(last, r'^ \[199800 .* … 199992 .* 199999\]\]$')
        (_, words, lines), = self.cut("t = np.zeros(99999, dtype=[('a', np.int64), ('b', np.bool_)])\nprint(t)")
        self.assertEqual((words, lines.count('(0, False)')), ('structure · 99,999', 16))
        (_, _, lines), = self.cut('print(np.zeros((3, 800, 400), dtype=np.uint8))')
        first, last = lines.split('\n\n')
        self.assertEqual((first.split('\n')[0], last.split('\n')[0], lines.count('\n')), ('[0]', '[-1]', 16))
        self.assertIn('794 rows left out by ndnote', last)

    def test_an_argument_of_several_lines(self):
        (text, words, lines), = self.cut('x = np.arange(200000)\nprint(x +\n      1)')
        self.assertEqual((text, words, lines[:6]), ('x + 1', 'int64 · 200,000', '[1 2 3'))


class LooksWithoutWords(WithoutWords, Looks):
    """The same over a program without words."""


class LooksWithAllWords(WithAllWords, Looks):
    """The same over a program that has all words."""

    def test_parts_draw_the_pictures_that_tried_cells_draw(self):
        sources = ['x = np.arange(300000).reshape(500, 600)', 'x = np.arange(5000000) % 9 > 7',
                   'x = np.zeros((300, 2, 2, 700), dtype=np.int8) + np.arange(700)', 'x = np.arange(5000000) % 1000',
                   'x = np.arange(600 * 700 * 3).reshape(600, 700, 3).astype(np.uint8)', 'x = np.arange(99)[::-1]',
                   "x = np.zeros((3, 9), dtype=[('a', np.int8), ('b', '>u4')])\nx['a'] = np.arange(9)",
                   'x = np.arange(7)']
        for source in sources:
            self.book.insert(0, source)
            sent, write = [], self.book._write
            self.book._write = lambda parts: (sent.extend(parts), write(parts))
            found = pictures.figures(self.book, 0, ['x'])
            del self.book._write
            self.assertTrue(any(line.startswith((b'part 0 x ', b'value 0 x')) for line in sent), source)
            with mock.patch.object(Notebook, 'words', self.book.words - {'part'}):
                del self.book.words
                self.assertEqual(pictures.figures(self.book, 0, ['x']), found, source)
            self.book.remove(0)


if __name__ == '__main__':
    unittest.main()
