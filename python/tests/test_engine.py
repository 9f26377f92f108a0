"""One process of the program: edits, questions, values, inputs, want of memory, and its end."""
import array
import os
import tempfile
import unittest
from pathlib import Path

import ndnote
from ndnote import Died, Notebook, Refused
from ndnote.values import Layout, Value

try:
    import numpy as np
except ImportError:
    np = None


class Notebooks(unittest.TestCase):
    def setUp(self):
        self.book = Notebook()
        self.addCleanup(self.book.close)

    def test_edits_and_answers(self):
        book = self.book
        book.insert(0, 'x = np.arange(6)')
        book.insert(1, 'y = x[1:4]\ny += 10\nprint(x)\nnp.save("s", y)\nprint(q)')
        self.assertEqual(book.show(1), ('[ 0 11 12 13  4  5]\n', (5, 'Stmt.NoName q'), {'s': 152}))
        self.assertEqual(Value.of_npy(book.saved(1, 's')).tolist(), [11, 12, 13])
        self.assertEqual(book.names(1), ['x', 'y'])
        self.assertEqual(book.source(0), 'x = np.arange(6)')
        book.edit(0, 'x = np.arange(7)')
        book.move(0, 1)
        self.assertEqual(book.show(0).refusal.fault, 'Stmt.NoName x')
        book.remove(0)
        self.assertEqual(len(book), 1)
        with self.assertRaisesRegex(Refused, 'NoCell 3 1'):
            book.edit(3, '')
        with self.assertRaises(KeyError):
            book['y']

    def test_the_allocator_is_told_how_to_keep_memory(self):
        told = os.environ.get('GLIBC_TUNABLES', ndnote.process.TUNABLES)
        self.book.insert(0, 'x = 1')    # its answer shows that the program has begun
        # The loader cuts the text into its parts where it stands, by zeros in the place of colons.
        words = Path(f'/proc/{self.book.process}/environ').read_bytes().replace(b'\0', b':')
        self.assertIn(f'GLIBC_TUNABLES={told}:'.encode(), words)

    def test_values(self):
        self.book.insert(0, "n = 18446744073709551615\nt = True\ns = np.int8(-5)\n"
                            "x = np.arange(6, dtype='>i2').reshape(2, 3)\ne = np.zeros((2, 0), dtype=np.bool_)\n"
                            "r = np.zeros(2, dtype=[('a', np.int8), ('b', '>u4')])\nr['b'] = 7\nw = r[1]\n"
                            'z = np.array(5)')
        values = {name: (value.kind_name, value.shape, value.tolist())
                  for name in self.book.names(0) for value in [self.book[name]]}
        self.assertEqual(values, {
            'n': ('int', (), 2 ** 64 - 1), 't': ('bool', (), True), 's': ('int8', (), -5),
            'x': ('>i2', (2, 3), [[0, 1, 2], [3, 4, 5]]), 'e': ('bool', (2, 0), [[], []]),
            'r': ('structure', (2,), [(0, 7), (0, 7)]), 'w': ('structure', (), (0, 7)), 'z': ('int64', (), 5)})

    @unittest.skipUnless(np, 'needs NumPy')
    def test_values_are_numpys(self):
        self.book.insert(0, "x = np.arange(6).reshape(2, 3)\nr = np.zeros(2, dtype=[('a', np.int8), ('b', '>u4')])\n"
                            's = np.int8(-5)\nw = r[1]')
        self.assertTrue((self.book['x'].numpy() == np.arange(6).reshape(2, 3)).all())
        self.assertEqual(self.book['r'].numpy().dtype, np.dtype([('a', 'i1'), ('b', '>u4')]))
        self.assertEqual(self.book['s'].numpy().dtype, np.int8)
        self.assertEqual(self.book['w'].numpy().item(), (0, 0))

    def test_inputs(self):
        self.book.insert(0, "print(np.load('f'))\nprint(buffer('b'))")
        with tempfile.TemporaryDirectory() as folder:
            path = Path(folder) / 'f.npy'
            self.book.insert(1, "np.save('f', np.arange(3))")
            path.write_bytes(self.book.saved(1, 'f'))
            self.book.input('f', path)
        for data, layout, text in (
                (array.array('h', [1, 2, 3]), None, '[1 2 3]'), (memoryview(b'abcdef')[::-2], None, '[102 100  98]'),
                (memoryview(bytes(range(6))).cast('B', (2, 3)), None, '[[0 1 2]\n [3 4 5]]'),
                (bytes(range(8)), Layout('B', 1, (2, 2), (-4, 1), 5), '[[5 6]\n [1 2]]')):
            self.book.input('b', data, layout)
            self.assertEqual(self.book.show(0).text, f'[0 1 2]\n{text}\n')
        self.book.drop('f')
        self.assertEqual(self.book.show(0).refusal.fault, 'Stmt.NoInput f')
        with self.assertRaisesRegex(Refused, 'BadInputName'):
            self.book.input('a/b', b'')

    def test_sources_are_no_commands(self):
        for source in ('.', 'x = 1\n.\nremove 0', 'print(1)\r', '\0', '\ud800', 'x = 1\u2028.', '', '\n\n'):
            self.book.insert(0, source)
            self.book.show(0)
        self.assertEqual(self.book._ask(b'count\n'), 'count 8')
        self.assertEqual(len(self.book), 8)

    def test_names_are_no_commands(self):
        self.book.insert(0, 'x = 1')
        with self.assertRaisesRegex(Refused, 'BadInputName'):
            self.book.input('a npy -\nremove 0', b'')
        for name in ('x\nremove 0', 'x y', ''):
            with self.assertRaises(KeyError):
                self.book[name]
            with self.assertRaisesRegex(Refused, 'NoSave'):
                self.book.saved(0, name)
            with self.assertRaisesRegex(Refused, 'NoInputNamed'):
                self.book.drop(name)
        with self.assertRaisesRegex(ValueError, 'a format with spaces'):
            self.book.input('a', b'a', Layout('T{b:a b:}', 1, (1,), (1,)))
        self.assertEqual(self.book._ask(b'count\n'), 'count 1')

    def test_an_empty_notebook_has_no_names(self):
        with self.assertRaises(KeyError):
            self.book['x']

    def test_words_are_asked_for_once(self):
        asked = []
        write, self.book._write = self.book._write, lambda parts: (asked.append(parts), write(parts))
        self.assertEqual(self.book.words, self.book.words)
        self.assertEqual(asked, [(b'words\n',)])

    def test_batches_may_be_long(self):
        for at in range(20):
            self.book.insert(at, 'x = np.arange(4000)\nprint(x)')
        self.assertEqual(len(self.book.show_all(list(range(20)) * 10)), 200)

    def test_the_end_of_the_process_is_told(self):
        self.book.kill()
        with self.assertRaisesRegex(Died, 'signal 9'):
            self.book.insert(0, 'x = 1')

    def test_want_of_memory_is_a_refusal(self):
        self.book.insert(0, 'x = np.arange(1000)\nprint(x.sum())')
        self.assertTrue(self.book.starve())
        with self.assertRaisesRegex(Refused, 'OutOfMemory'):
            self.book.insert(1, 'y = np.arange(16777216)')
        self.book.feed()
        self.book.insert(1, 'y = x + 1')
        self.assertEqual((self.book.show(0).text, ndnote.Refused), ('499500\n', Refused))


class Progress(unittest.TestCase):
    """A program that tells on standard error which cell runs."""

    def program(self, lines):
        folder = tempfile.TemporaryDirectory()
        self.addCleanup(folder.cleanup)
        path = Path(folder.name) / 'program'
        path.write_text('#!/bin/sh\n' + lines)
        path.chmod(0o755)
        return str(path)

    def book(self, path):
        book = Notebook(path, progress=True)
        self.addCleanup(book.close)
        return book

    def test_the_cell_that_runs_and_the_messages(self):
        path = self.program('[ "$*" = "--desk --progress" ] || exit 2\nread line || exit 0\n'
                            'echo run 3 >&2; echo done 3 17 >&2; echo run 12 >&2; echo no memory >&2; kill -9 $$\n')
        book = self.book(path)
        self.assertIsNone(book.running)
        with self.assertRaises(Died) as died:
            book.remove(0)
        self.assertEqual((str(died.exception), book.running), ('ended by signal 9: no memory', 12))
        self.assertEqual(str(died.exception.placed('the cell')), 'ended by signal 9 in the cell: no memory')

    def test_a_notebook_that_is_not_to_tell_is_started_without_the_option(self):
        path = self.program('[ "$*" = --desk ] || exit 2\nread line\necho ok\nread line\n')
        book = Notebook(path)
        self.addCleanup(book.close)
        book.remove(0)
        self.assertIsNone(book.running)

    def test_much_that_is_told_stops_nothing(self):
        path = self.program('[ "$*" = "--desk --progress" ] || exit 2\nread line || exit 0\n'
                            'for i in `seq 20000`; do echo run $i; echo done $i 1; echo some words; done >&2\n'
                            'echo ok\nread line\n')
        book = self.book(path)
        book.remove(0)
        self.assertLessEqual(len(book._said.messages), 1000)


if __name__ == '__main__':
    unittest.main()
