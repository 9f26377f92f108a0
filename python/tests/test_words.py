"""The words for front ends: what each says, its refusals, and that a try changes nothing."""
import os
import random
import shutil
import subprocess
import tempfile
import unittest
from pathlib import Path
from unittest import mock

from ndnote import Notebook, Refused, RefusedAmong
from ndnote.engine import LARGE, Trial, index_word, script_source
from ndnote.process import program
from ndnote.values import Known, Layout, Type, Value
from programs import WithAllWords, WithoutWords

try:
    import numpy as np
except ImportError:
    np = None

CELLS = ["x = np.arange(6)\ny = x[1:4]\nn = 7\nb = True\nnp.save('f', x)", 'y += 10\nprint(x, n)',
         "z = x[::2]\nnp.save('f', z)", 'print(x[9])',
         "s = x.sum()\nr = np.zeros(2, dtype=[('a b', 'i1'), ('c', '>u4')])\nw = r[1]\nbig = 18446744073709551615"]
NAMES = ['x', 'y', 'z', 'n', 'b', 's', 'r', 'w', 'big', 'q']
TRIED = ['', '# words', 'print(1)', 'x[0] = 99\nprint(x)', 'y[:] = 5\nx += 1\nprint(x, y)', 'x = 3\nprint(x)',
         'del x, y\nprint(x)', "np.save('f', np.arange(3))\nnp.save('g', 3)\nnp.save('f', np.arange(4))",
         'print(5)\nprint(q)', 'x[0] = 1\nx[9] = 1', 'x = 1 +', 'x = np.arange(200000)\nprint(1, x)',
         "print(np.load('f'))", "v = buffer('b')\nv[0] = 9\nprint(v)", 'r = np.zeros(2, dtype=np.int8)\nr[1] = 300',
         "w['c'] = 7\nprint(w, r)",
         'x = y\ny = x\nx *= 2\nprint(x, y, n)', 'm = x > 2\nx[m] = 0\nprint(x.sum(), m)', '\n'.join(['x += 1'] * 1000),
         "np.save('\u00e4', x)", "print('.')"]
BAD = ['words ', ' words', 'words x', 'Words', 'words\r', 'try', 'try ', 'try a', 'try 01', 'try -1', 'try 0 1',
       'try  0', 'try 0 ', 'try 18446744073709551616', 'type', 'type 0', 'type 0 ', 'type  x', 'type a x', 'type 0 x y',
       'type 0  x', 'save', 'save 0', 'save 0 f', 'save 0 f ', 'save a f p', 'save 0  p', 'save 00 f p', 'input x file',
       'input x file ', 'input  file p', 'input x file\t', 'file', 'file p', 'input x files p', 'save\u00a00 f p']


BAD_BUT_SOME = ['ran ', 'ran x', ' ran', 'begin ', 'begin x', 'end', 'end x', 'part', 'part 0', 'part 0 x', 'part 0 x ',
                'part 0 x 1,', 'part 0 x ,1', 'part 0 x 1::2:', 'part 0 x 01', 'part 0 x -0', 'part 0 x +1',
                'part 0 x 1 2', 'part 0 x a', 'part 0 x ...', 'part 0 x 1.', 'part a x 1', 'part 0  x 1', 'part 0 x 1\r',
                'raw', 'input x raw', 'input x raw p', 'input x raw p B 1 3 1', 'input  raw p B 1 3 1 0',
                'input b raw  B 1 3 1 0', 'reads', 'reads ', 'reads x', 'reads 01', 'reads -1', 'reads 0 1', 'reads 0 ',
                'reads  0', ' reads 0', 'reads 0\r']
MORE = ("c = np.arange(24, dtype='>i2').reshape(2, 3, 4)\nm = c > 5\n"
        "t = np.zeros((2, 3), dtype=[('a', 'i1'), ('b', '>u4')])\nt['b'] = np.arange(6).reshape(2, 3)\ne = np.array(5)")
FROM_1, EVERY_2ND, BACK, ALL = slice(1, None), slice(None, None, 2), slice(None, None, -1), slice(None)
PARTS = [('x', 3), ('x', -1), ('x', slice(1, 3)), ('x', EVERY_2ND), ('x', BACK), ('x', slice(9, None)),
         ('y', slice(-2, 9)), ('c', 1), ('c', (1, 2, 3)), ('c', (0, BACK)), ('c', (ALL, -1, EVERY_2ND)),
         ('c', (FROM_1, FROM_1, FROM_1)), ('m', (1, EVERY_2ND, 0)), ('m', (0, 0, 0)), ('t', 0), ('t', (1, 2)),
         ('t', (BACK, slice(4, 0, -2))), ('r', 1), ('r', ALL)]


def npy(source):
    """The bytes of an NPY file."""
    with Notebook() as book:
        return book.try_cell(0, f"np.save('f', {source})").files['f']


def all_answers(book, names=NAMES, files=('f', 'g')):
    """What a notebook answers to all questions."""
    cells = range(book.count)
    lines = [f'source {at}\nshow {at}\nnames {at}' for at in cells]
    lines += [f'value {at} {name}' for at in cells for name in names]
    lines += [f'saved {at} {file}' for at in cells for file in files]
    given = '\n'.join([*lines, 'count', 'mark']) + '\n'
    book._write([given.encode()])
    found = []
    while not found or found[-1] != 'bad command':
        found.append(book._line())
    return found


def inserted(book, at, source):
    """What a cell gives that is inserted."""
    book.insert(at, source)
    result = book.show(at)
    files = {name: book.saved(at, name) for name in result.saves}
    book.remove(at)
    return Trial(result.text, result.refusal, files)


class Folder(unittest.TestCase):
    def setUp(self):
        folder = tempfile.TemporaryDirectory(prefix='ndnote words ')
        self.addCleanup(folder.cleanup)
        self.folder = Path(folder.name).resolve()
        self.book = Notebook()
        self.addCleanup(self.book.close)

    def fill(self):
        self.book.input('f', npy('np.arange(3)'))
        self.book.input('b', bytearray(range(4)))
        for at, source in enumerate(CELLS):
            self.book.insert(at, source)


class Calls(Folder):
    """Calls that answer the same over every program; they ask by the words that the program has."""

    def test_a_try_gives_what_the_cell_would_give(self):
        self.fill()
        for at in range(self.book.count + 1):
            for source in TRIED:
                self.assertEqual(self.book.try_cell(at, source), inserted(self.book, at, source), (at, source[:50]))

    def test_a_try_changes_nothing(self):
        for rule in (b'rule python\n', b'rule atomic\n'):
            while self.book.count:
                self.book.remove(0)
            self.book._ask(rule)
            self.fill()
            before = all_answers(self.book)
            for source in TRIED:
                for at in range(self.book.count + 1):
                    self.book.try_cell(at, source)
                self.assertEqual(all_answers(self.book), before, (rule, source[:50]))

    def test_a_try_stands_between_cells(self):
        self.fill()
        self.assertEqual(self.book.try_cell(0, 'print(x)').refusal.fault, 'Stmt.NoName x')
        self.assertEqual(self.book.try_cell(1, 'print(x)').text, '[0 1 2 3 4 5]\n')
        self.assertEqual(self.book.try_cell(2, 'print(x)').text, '[ 0 11 12 13  4  5]\n')
        self.assertEqual(self.book.try_cell(5, 'print(s, big)').text, '45 18446744073709551615\n')

    def test_refused_tries(self):
        with self.assertRaisesRegex(Refused, '^NoCell 1 0$'):
            self.book.try_cell(1, 'print(1)')
        self.assertEqual(self.book.try_cell(0, 'print(1)'), ('1\n', None, {}))
        longest = '#' * 65_536
        self.assertEqual(self.book.try_cell(0, longest), ('', None, {}))
        self.assertEqual(self.book.try_cell(0, 'print(7)\n' + longest[:-9]), ('7\n', None, {}))
        with self.assertRaisesRegex(Refused, '^CellTooLong$'):
            self.book.try_cell(0, longest + '#')
        with self.assertRaisesRegex(Refused, '^NoCell 2 0$'):
            self.book.try_cell(2, longest + '#')
        self.assertEqual(all_answers(self.book), ['count 0', 'bad command'])

    def test_a_try_that_wants_memory(self):
        self.fill()
        before = all_answers(self.book)
        self.assertTrue(self.book.starve())
        with self.assertRaisesRegex(Refused, 'OutOfMemory'):
            self.book.try_cell(5, 'print(np.arange(16777216).sum())')
        self.book.feed()
        self.assertEqual(all_answers(self.book), before)
        self.assertEqual(self.book.try_cell(5, 'print(np.arange(16777216).sum())').text, '140737479966720\n')

    def test_sources_that_are_tried_are_no_commands(self):
        for source in ('.', 'x = 1\n.\nremove 0', 'print(1)\r', '\0', '\ud800', 'x = 1\u2028.', '', '\n\n'):
            self.book.try_cell(0, source)
        self.assertEqual(self.book._ask(b'count\n'), 'count 0')

    def test_types(self):
        self.fill()
        for name in NAMES[:-1]:
            self.assertEqual(self.book.type(4, name), self.book.value(4, name).known, name)
        self.assertEqual(self.book.type(4, 'big'), Known('int', number=2 ** 64 - 1))
        self.assertEqual(self.book.type(4, 'b'), Known('bool', number=True))
        self.assertEqual(self.book.type(4, 's'), Known('scalar', Type.of_kind('int64'), number=45))
        self.assertEqual(self.book.type(4, 'x'), Known('array', Type.of_kind('int64'), (6,), format='<q'))
        found = self.book.type(4, 'w')
        self.assertEqual((found.kind, [field.name for field in found.type.fields]), ('row', ['a b', 'c']))
        for at, name, told in ((4, 'q', 'NoName q'), (5, 'x', 'NoCell 5 5'), (0, 'x y', 'NoName x y'),
                               (0, '', 'NoName ')):
            with self.assertRaisesRegex(Refused, f'^{told}$'):
                self.book.type(at, name)

    def test_inputs_from_files(self):
        self.book.insert(0, "print(np.load('f'))")
        for name in ('a.npy', ' two  spaces ', 'ä ☃.npy', 'new\nline', os.fsdecode(b'no \xff UTF-8'), 'x' * 250):
            path = self.folder / name
            path.write_bytes(npy(f'np.arange({len(name)})'))
            self.book.input('f', path)
            self.assertEqual(self.book.show(0).text, self.book.try_cell(0, f'print(np.arange({len(name)}))').text)
        self.book.input('f', self.folder / 'a.npy')
        here = os.getcwd()
        self.addCleanup(os.chdir, here)
        os.chdir(self.folder / '..')
        self.book.input('f', f'{self.folder.name}/a.npy')
        self.assertEqual(self.book.show(0).text, '[0 1 2 3 4]\n')

    def test_files_that_are_no_inputs(self):
        self.book.insert(0, "print(np.load('f'))")
        (self.folder / 'f').write_bytes(npy('np.arange(3)'))
        self.book.input('f', self.folder / 'f')
        before = all_answers(self.book)
        for path, error in ((self.folder / 'no', FileNotFoundError), (self.folder, IsADirectoryError),
                            (self.folder / 'f/g', NotADirectoryError), (self.folder / ('x' * 300), OSError)):
            with self.assertRaises(error) as told:
                self.book.input('f', path)
            self.assertEqual(told.exception.filename, str(path))
            with self.assertRaisesRegex(Refused, '^BadInputName$'):
                self.book.input('a b', path)
        self.assertEqual(all_answers(self.book), before)

    def test_the_largest_file(self):
        self.book.insert(0, "print(np.load('f'))")
        with open(self.folder / 'f', 'wb') as file:
            file.truncate(1 << 26)
            self.book.input('f', self.folder / 'f')
            self.assertEqual(self.book.show(0).refusal.fault, 'Npy.BadMagic')
            file.truncate((1 << 26) + 1)
            with self.assertRaisesRegex(Refused, '^InputTooLarge$'):
                self.book.input('f', self.folder / 'f')
        self.assertEqual(self.book.show(0).refusal.fault, 'Npy.BadMagic')

    def test_saves(self):
        self.fill()
        path = self.folder / 'a file'
        for at in (0, 2):
            self.book.save(at, 'f', path)
            self.assertEqual(path.read_bytes(), self.book.saved(at, 'f'))
        self.assertEqual(os.listdir(self.folder), ['a file'])
        for at, name, told in ((0, 'g', 'NoSave g'), (1, 'f', 'NoSave f'), (9, 'f', 'NoCell 9 5'),
                               (0, 'f g', 'NoSave f g')):
            with self.assertRaisesRegex(Refused, f'^{told}$'):
                self.book.save(at, name, self.folder / 'other')
        for target, error in ((self.folder / 'no' / 'f', FileNotFoundError), (path / 'f', NotADirectoryError),
                              (self.folder, OSError)):
            with self.assertRaises(error) as told:
                self.book.save(0, 'f', target)
            self.assertEqual(told.exception.filename, str(target))
        self.assertEqual((os.listdir(self.folder), path.read_bytes()), (['a file'], self.book.saved(2, 'f')))

    def test_a_file_that_is_replaced_keeps_its_mode_and_its_links(self):
        self.fill()
        for mode in (0o600, 0o640, 0o644, 0o664, 0o755):
            path, link = self.folder / f'{mode:o}', self.folder / f'{mode:o}.link'
            path.write_bytes(b'old')
            path.chmod(mode)
            link.symlink_to(path)
            self.book.save(0, 'f', link)
            self.assertEqual((path.read_bytes(), path.stat().st_mode & 0o777), (self.book.saved(0, 'f'), mode))
            self.assertTrue(link.is_symlink())


    def test_parts(self):
        self.fill()
        self.book.insert(5, MORE)
        for name, index in PARTS:
            self.book.insert(6, f'part = {name}[{index_word(index)}]')
            wanted = self.book.value(6, 'part')
            self.book.remove(6)
            found = self.book.part(5, name, index)
            self.assertEqual(found._replace(format=''), wanted._replace(format=''), (name, index))
        self.assertEqual(self.book.part(5, 't', (1, 2)).tolist(), (0, 5))
        self.assertEqual(self.book.part(5, 'c', (1, BACK, 0)).tolist(), [20, 16, 12])

    @unittest.skipUnless(np, 'needs NumPy')
    def test_parts_are_numpys(self):
        self.book.insert(0, MORE)
        theirs = np.arange(24, dtype='>i2').reshape(2, 3, 4)
        draw = random.Random(3)

        def number():
            return draw.choice((None, *range(-6, 7)))
        for _ in range(200):
            index = tuple(draw.choice((draw.randint(-3, 3), slice(number(), number(), number() or None)))
                          for _ in range(draw.randint(1, 3)))
            try:
                wanted = theirs[index]
            except IndexError:
                with self.assertRaisesRegex(Refused, '^Index.OutOfBounds '):
                    self.book.part(0, 'c', index)
                continue
            found = self.book.part(0, 'c', index)
            self.assertEqual((found.shape, found.tolist(), found.kind == 'array'),
                             (wanted.shape, wanted.tolist(), wanted.ndim > 0), index)

    def test_parts_that_are_refused(self):
        self.fill()
        self.book.insert(5, MORE)
        before = all_answers(self.book)
        for at, name, index, told in (
                (6, 'x', 0, 'NoCell 6 6'), (0, 'q', 0, 'NoName q'), (0, 'x y', 0, 'NoName x y'),
                (0, 'c', 0, 'NoName c'),
                (0, 'x', 9, 'Index.OutOfBounds 0 9 6'), (0, 'x', -7, 'Index.OutOfBounds 0 -7 6'),
                (5, 'c', (1, 2, 4), 'Index.OutOfBounds 2 4 4'), (0, 'x', (0, 0), 'Index.TooManyIndices'),
                (5, 'e', ALL, 'Index.TooManyIndices'), (0, 'x', slice(None, None, 0), 'Index.ZeroStep'),
                (0, 'n', 0, 'Stmt.NotAnArray'), (0, 'b', ALL, 'Stmt.NotAnArray'), (4, 's', 0, 'Stmt.NotAnArray'),
                (4, 'w', 0, 'Stmt.NotAnArray'), (4, 'big', 0, 'Stmt.NotAnArray')):
            with self.assertRaisesRegex(Refused, f'^{told}$'):
                self.book.part(at, name, index)
        for index in (True, (), None, 1.5, 'x', (0, None), slice('a')):
            with self.assertRaises(TypeError):
                self.book.part(0, 'x', index)
        self.assertEqual(all_answers(self.book), before)

    def test_several_edits(self):
        self.fill()
        edits = [('insert', 0, 'a = 1\n.\nprint(a)'), ('edit', 2, 'print(a, x)'), ('move', 2, 5), ('remove', 1)]
        before = all_answers(self.book)
        self.book.apply([])
        if 'begin' not in self.book.words:
            with self.assertRaisesRegex(Refused, '^bad command$'):
                self.book.apply(edits)
            self.assertEqual(all_answers(self.book), before)
            return
        for wrong, told in ((('edit', 9, ''), 'NoCell 9 5'), (('insert', 5, '#' * 65_537), 'CellTooLong')):
            with self.assertRaises(RefusedAmong) as refused:
                self.book.apply([*edits, wrong, ('remove', 7)])
            self.assertEqual((str(refused.exception), refused.exception.at), (told, 4))
            self.assertEqual(all_answers(self.book), before)
        self.book.apply(edits)
        together, count = all_answers(self.book), self.book.count
        with Notebook() as other:
            self.book.close()
            self.book = other
            self.fill()
            for edit in edits:
                other.apply([edit])
            self.assertEqual((all_answers(other), other.count), (together, count))

    def test_several_edits_that_want_memory(self):
        self.fill()
        if 'begin' not in self.book.words:
            return
        before = all_answers(self.book)
        self.assertTrue(self.book.starve())
        with self.assertRaisesRegex(Refused, '^OutOfMemory$'):
            self.book.apply([('edit', 0, 'x = 1'), ('insert', 5, 'y = np.arange(16777216)\ny = y + 1')])
        self.book.feed()
        self.assertEqual(all_answers(self.book), before)

    def test_which_cells_ran(self):
        has_word = 'ran' in self.book.words

        def ran(*places):
            self.assertEqual(self.book.ran(), list(places) if has_word else None)
        ran()
        self.book.insert(0, 'x = np.arange(3)')
        ran(0)
        self.book.insert(1, 'y = 5')
        self.book.insert(2, 'print(x)')
        ran(2)
        self.book.edit(0, 'x = np.arange(4)')
        ran(0, 2)
        with self.assertRaises(Refused):
            self.book.edit(9, '')
        ran(0, 2)
        self.book.move(0, 2)
        self.assertEqual(self.book.show(1).refusal.fault, 'Stmt.NoName x')
        ran(1)
        self.book.edit(0, 'y = 5')
        ran()
        self.book.remove(2)
        ran()

    def test_buffers_that_are_files(self):
        self.book.insert(0, "print(buffer('b'))")
        layout = Layout('>h', 2, (2, 2), (-4, 2), 4)
        for name in ('a.raw', ' two  spaces ', 'ä.raw', 'tab\t', os.fsdecode(b'no \xff UTF-8')):
            with tempfile.TemporaryDirectory() as folder:
                path = Path(folder) / name
                path.write_bytes(bytes(range(8)))
                self.book.input('b', path, layout)
                self.assertEqual(self.book.show(0).text, '[[1029 1543]\n [   1  515]]\n')
                self.book.drop('b')
        before = all_answers(self.book)
        for path, error in (('/no/file', FileNotFoundError), ('/', IsADirectoryError)):
            with self.assertRaises(error) as told:
                self.book.input('b', path, layout)
            self.assertEqual(told.exception.filename, path)
            with self.assertRaisesRegex(Refused, '^BadInputName$'):
                self.book.input('a b', path, layout)
        self.assertEqual(all_answers(self.book), before)

    def test_large_inputs(self):
        self.book.insert(0, "print(buffer('b').sum())\nprint(np.load('f').sum())")
        data = bytes(range(256)) * (LARGE // 256)
        file = npy('np.arange(200000)')
        self.assertGreater(len(file), LARGE)
        with tempfile.TemporaryDirectory() as other:
            for folder in (other, self.folder, '/no/folder'):     # the second has a space
                with mock.patch.object(tempfile, 'tempdir', str(folder)):
                    for given, layout in ((memoryview(data).cast('B', (2, LARGE // 2)), None),
                                          (data, Layout('B', 1, (LARGE,), (-1,), LARGE - 1))):
                        self.book.input('b', given, layout)
                        self.book.input('f', file)
                        self.assertEqual(self.book.show(0).text, f'{sum(data)}\n19999900000\n')
                        self.book.drop('b')
                        self.book.drop('f')
            self.assertEqual((os.listdir(other), os.listdir(self.folder)), ([], []))


class CallsWithoutWords(WithoutWords, Calls):
    """The same over a program without words."""


class CallsWithAllWords(WithAllWords, Calls):
    """The same over a program that has all words."""


class Told(Folder):
    def told(self, line):
        self.book._write([line.encode() + b'\n'])
        return self.book._line()


class NewLines(WithAllWords, Told):
    """What a program that has all words answers itself."""

    def test_the_words(self):
        word, *words = self.told('words').split(' ')
        self.assertEqual((word, words), ('words', sorted(set(words))))
        self.assertLessEqual({'begin', 'end', 'file', 'part', 'ran', 'raw', 'reads', 'save', 'try', 'type'}, set(words))

    def test_malformed_lines(self):
        self.fill()
        before = all_answers(self.book)
        for line in BAD_BUT_SOME:
            self.assertEqual(self.told(line), 'bad command', line)
        self.assertEqual(all_answers(self.book), before)

    def test_parts(self):
        self.fill()
        for index, told in (('3', 'scalar int64 13'), ('1:3', 'array <q 8 2 0b000000000000000c00000000000000'),
                            ('::5', 'array <q 8 2 00000000000000000500000000000000'), ('6:', 'array <q 8 0 -'),
                            ('9', 'refused Index.OutOfBounds 0 9 6'), ('0,0', 'refused Index.TooManyIndices')):
            self.assertEqual(self.told(f'part 1 x {index}'), told)
        self.assertEqual(self.told('part 4 r 1'), 'row T{b:a b:>I:c:} 5 0000000000')
        self.assertEqual(self.told('part 4 r 1:'), 'array T{b:a b:>I:c:} 5 1 0000000000')
        self.assertEqual(self.told('part 5 x 0'), 'refused NoCell 5 5')
        self.assertEqual(self.told('part 4 q 0'), 'refused NoName q')

    def test_edits_between_begin_and_end(self):
        self.assertEqual(self.told('ran'), 'ran 0')
        for lines, told in (('begin\nend', ['ok']),
                            ('begin\ninsert 0\nx = 1\n.\ninsert 1\nprint(x)\n.\nend\nran', ['ok', 'ran 2 0 1']),
                            ('begin\nedit 0\nx = 2\n.\ncount\nshow 0\nwords\nend\ncount',
                             ['bad command', 'bad command', 'bad command', 'ok', 'count 2']),
                            ('begin\nmove 0 1\nremove 5\nremove 0\nend\nran', ['refused 1 NoCell 5 2', 'ran 2 0 1']),
                            ('begin\ninput n npy -\ndrop n\ndrop n\nend', ['refused 2 NoInputNamed n']),
                            ('begin\nbegin\nremove 1\nremove 0\nend\ncount', ['bad command', 'ok', 'count 0'])):
            self.book._write([lines.encode() + b'\n'])
            self.assertEqual([self.book._line() for _ in told], told, lines)
        self.assertEqual(self.told('count'), 'count 0')

    def test_raw_files(self):
        self.book.insert(0, "print(buffer('b'))")
        with tempfile.TemporaryDirectory() as folder:
            path = Path(folder) / 'b'
            path.write_bytes(bytes(range(6)))
            for line, told in ((f'b raw {path} B 1 2,2 -3,1 3', 'ok'), (f'b raw {path} B 1 2 1 x', 'bad command'),
                               (f'b raw {path} B 1 2 1', 'bad command'), (f'b raw {path} B 1 2 1 0 00', 'bad command'),
                               (f'b raw {folder}/no B 1 2 1 0', 'refused Unread NotFound'),
                               (f'b raw {folder} B 1 2 1 0', 'refused Unread IsADirectory'),
                               (f'a/b raw {folder}/no B 1 2 1 0', 'refused BadInputName')):
                self.assertEqual(self.told(f'input {line}'), told, line)
            self.assertEqual(self.book.show(0).text, '[[3 4]\n [0 1]]\n')


class Lines(Told):
    """What the program itself answers."""

    def test_the_words(self):
        word, *words = self.told('words').split(' ')
        self.assertEqual(word, 'words')
        self.assertEqual(words, sorted(set(words)))
        self.assertLessEqual({'file', 'save', 'try', 'type'}, set(words))

    def test_malformed_lines(self):
        self.fill()
        before = all_answers(self.book)
        for line in BAD:
            self.assertEqual(self.told(line), 'bad command', line)
        for line in (b'words\xff', b'input x file /tmp/\xff', b'save 0 f \xff', b'type 0 \xff', b'\xfftry 0'):
            self.book._write([line + b'\n'])
            self.assertEqual(self.book._line(), 'bad command', line)
        self.book._write([b'try 0\nprint(1)\n\xff\n.\n'])
        self.assertEqual(self.book._line(), 'bad command')
        self.assertEqual(all_answers(self.book), before)

    def test_a_try_without_an_end(self):
        for script, told in ((b'try 0\nprint(1)\n', b'bad command\n'), (b'try 5\n', b'bad command\n'),
                             (b'try 0\n.', b'text 0\nok\nend\n'),
                             (b'try 0\n# try\n.\ncount\n', b'text 0\nok\nend\ncount 0\n')):
            ran = subprocess.run([program(), '--desk'], input=script, stdout=subprocess.PIPE, timeout=60, check=True)
            self.assertEqual(ran.stdout, told, script)

    def test_a_try_has_its_files_in_its_answer(self):
        self.book._write([b"try 0\nprint(1)\nnp.save('a', np.arange(2))\nnp.save('b', 7)\nprint(q)\n.\n"])
        first, second = npy('np.arange(2)'), npy('7')
        self.assertIn(b'\n', first + second)
        wanted = (b'text 2\n1\nrefused 4 Stmt.NoName q\nsave a %d\n%b\nsave b %d\n%b\nend\n'
                  % (len(first), first, len(second), second))
        self.assertEqual(self.book._bytes(len(wanted)), wanted)

    def test_types(self):
        self.fill()
        for name, told in (('x', 'array <q 8 6'), ('r', 'array T{b:a b:>I:c:} 5 2'), ('w', 'row T{b:a b:>I:c:} 5'),
                           ('n', 'int 7'), ('b', 'bool True'), ('s', 'scalar int64 45'),
                           ('big', 'int 18446744073709551615'), ('q', 'refused NoName q')):
            self.assertEqual(self.told(f'type 4 {name}'), told)
        self.assertEqual(self.told('type 5 x'), 'refused NoCell 5 5')
        self.book.insert(0, 'z = np.array(5)\ne = np.zeros((0, 3), dtype=np.uint8)')
        self.assertEqual([self.told(f'type 0 {name}') for name in 'ze'], ['array <q 8 ()', 'array B 1 0,3'])

    def test_files(self):
        (self.folder / 'f').write_bytes(npy('np.arange(3)'))
        for name, path, told in (
                ('f', self.folder / 'f', 'ok'), ('f', self.folder / 'no', 'refused Unread NotFound'),
                ('f', self.folder, 'refused Unread IsADirectory'), ('f', 'x' * 300, 'refused Unread InvalidFilename'),
                ('f', self.folder / 'f/g', 'refused Unread NotADirectory'),
                ('a/b', self.folder / 'no', 'refused BadInputName'),
                ('x' * 65, self.folder / 'f', 'refused BadInputName')):
            self.assertEqual(self.told(f'input {name} file {path}'), told)

    def test_saves(self):
        self.fill()
        path = self.folder / 'f'
        for number in range(100):
            Path(f'{path}.{number}.part').write_bytes(b'mine')
        self.assertEqual(self.told(f'save 0 f {path}'), 'refused Unwritten AlreadyExists')
        Path(f'{path}.7.part').unlink()
        self.assertEqual(self.told(f'save 0 f {path}'), 'ok')
        self.assertEqual(path.read_bytes(), self.book.saved(0, 'f'))
        self.assertEqual(len(os.listdir(self.folder)), 100)
        others = [Path(f'{path}.{number}.part') for number in range(100) if number != 7]
        self.assertEqual({other.read_bytes() for other in others}, {b'mine'})
        for line, told in ((f'save 0 g {path}', 'refused NoSave g'), (f'save 5 f {path}', 'refused NoCell 5 5'),
                           (f'save 0 f {self.folder}/no/f', 'refused Unwritten NotFound'),
                           (f'save 0 f {path}/g', 'refused Unwritten NotADirectory'),
                           (f'save 0 f {self.folder}/{"x" * 300}', 'refused Unwritten InvalidFilename')):
            self.assertEqual(self.told(line), told)
        (self.folder / 'full').mkdir()
        self.assertEqual(self.told(f'save 0 f {self.folder}/full'), 'refused Unwritten IsADirectory')
        self.assertEqual(len(os.listdir(self.folder)), 101)

    def test_no_permission(self):
        """The program runs as nobody where this test runs as root, who may do all."""
        own, closed = self.folder / 'own', self.folder / 'closed'
        own.mkdir(), closed.mkdir()
        own.chmod(0o777), self.folder.chmod(0o755)
        (own / 'f').write_bytes(npy('np.arange(3)'))
        (own / 'f').chmod(0)
        (closed / 'f').write_bytes(b'old')
        closed.chmod(0o555)
        self.addCleanup(closed.chmod, 0o755)
        copy = shutil.copy(program(), self.folder / 'program')
        user = {'user': 65534, 'group': 65534, 'extra_groups': []} if os.geteuid() == 0 else {}
        script = (f"input f file {own}/f\ninsert 0\nnp.save('f', 1)\n.\n"
                  f'save 0 f {closed}/f\nsave 0 f {closed}/g\nsave 0 f {own}/g\n')
        ran = subprocess.run([copy, '--desk'], input=script, text=True, stdout=subprocess.PIPE, timeout=60, check=True, **user)
        self.assertEqual(ran.stdout, 'refused Unread PermissionDenied\nok\nrefused Unwritten PermissionDenied\n'
                                     'refused Unwritten PermissionDenied\nok\n')
        self.assertEqual((sorted(os.listdir(closed)), (closed / 'f').read_bytes()), (['f'], b'old'))
        self.assertEqual(Value.of_npy((own / 'g').read_bytes()).tolist(), 1)

    def test_a_try_in_a_notebook_of_ten_thousand_cells(self):
        count = 10_000
        sources = [f'x{at} = np.arange(3) + {at}' if at % 2 else f'y = {at}\nprint(y)' for at in range(count)]
        edits = [b'insert %d\n%b\n.\n' % (at, script_source(it)) for at, it in enumerate(sources)]
        self.assertEqual(set(self.book._ask_all(edits, self.book._line)), {'ok'})
        self.book.count = count
        before = self.book.show_all(range(count))
        for at, source, text in ((0, 'print(1)', '1\n'),
                                 (count, 'x9999[0] = 5\nprint(x9999, x1, y)', '[    5 10000 10001] [1 2 3] 9998\n'),
                                 (5000, 'x4999 += 1\nprint(x4999, y)\ndel y', '[5000 5001 5002] 4998\n')):
            self.assertEqual(self.book.try_cell(at, source), (text, None, {}))
        with self.assertRaisesRegex(Refused, 'TooManyCells'):
            self.book.insert(0, '')
        with self.assertRaisesRegex(Refused, 'NoCell 10001 10000'):
            self.book.try_cell(count + 1, '')
        self.assertEqual(self.book.show_all(range(count)), before)
        self.assertEqual(self.book.value(count - 1, 'x9999').tolist(), [9999, 10000, 10001])


if __name__ == '__main__':
    unittest.main()
