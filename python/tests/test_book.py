"""Books: cells of files, the way back, and the edits between two lists of cells."""
import os
import random
import tempfile
import unittest
from pathlib import Path

from ndnote import book, files


def edited(old, edits):
    """A list after the edits that `changes` gives."""
    cells = list(old)
    for word, at, *rest in edits:
        if word == 'remove':
            del cells[at]
        elif word == 'move':
            cells.insert(rest[0], cells.pop(at))
        elif word == 'edit':
            cells[at] = rest[0]
        else:
            cells.insert(at, rest[0])
    return cells


class Books(unittest.TestCase):
    TEXT = '# %% [markdown]\n# # A title\n#\n# Words.\n\n# %% First\nx = 1\n\n#%%\ny = 2\n'

    def test_cells(self):
        cells = book.parse(self.TEXT)
        self.assertEqual([cell.is_text for cell in cells], [True, False, False])
        self.assertEqual([cell.title for cell in cells], ['', 'First', ''])
        self.assertEqual([cell.source for cell in cells], ['# A title\n\nWords.', 'x = 1', 'y = 2'])
        self.assertEqual(book.first_lines(cells), [2, 7, 10])

    def test_what_stands_before_the_first_mark(self):
        self.assertEqual([cell.is_text for cell in book.parse('#!/usr/bin/python3\n# %%\nx = 1')], [True, False])
        self.assertEqual([cell.source for cell in book.parse('x = 1\n# %%\ny = 2')], ['x = 1', 'y = 2'])
        self.assertEqual(book.parse(''), [])

    def test_every_file_is_written_as_it_was(self):
        drawn = random.Random(1)
        pieces = ['# %%\n', '# %% T\n', '#%% [markdown]\n', '# %% [markdown] T\r\n', 'x = 1\n', '\n', '# w\n', '# %%',
                  'x', '\r\n', '#  %%% no\n']
        for _ in range(5000):
            text = ''.join(drawn.choice(pieces) for _ in range(drawn.randrange(12)))
            cells = book.parse(text)
            self.assertEqual(book.written(cells), text)
            self.assertEqual([cell.with_source(cell.source).source for cell in cells], [cell.source for cell in cells])

    def test_an_edit_changes_nothing_else(self):
        cells = book.parse(self.TEXT)
        cells[1] = cells[1].with_source('x = 5\nprint(x)\n')
        cells[0] = cells[0].with_source('New\n\nwords')
        self.assertEqual(book.written(cells),
                         '# %% [markdown]\n# New\n#\n# words\n\n# %% First\nx = 5\nprint(x)\n\n#%%\ny = 2\n')
        self.assertEqual(cells[2].with_title(' two\n words').mark, '# %% two words\n')
        self.assertEqual(cells[0].with_title('T').mark, '# %% [markdown] T\n')

    def test_line_ends_stay(self):
        cells = book.parse('# %%\r\nx = 1\r\ny = 2\r\n')
        self.assertEqual(cells[0].source, 'x = 1\ny = 2')
        self.assertEqual(cells[0].with_source('x = 3\ny = 4').body, 'x = 3\r\ny = 4\r\n')

    def test_changes_lead_from_one_list_to_the_other(self):
        drawn = random.Random(2)
        for _ in range(5000):
            old, new = ([drawn.choice('abcdefgh') for _ in range(drawn.randrange(9))] for _ in range(2))
            self.assertEqual(edited(old, book.changes(old, new)), new)

    def test_changes_are_few(self):
        for old, new, edits in (('abcdef', 'abXdef', [('edit', 2, 'X')]), ('abcdef', 'aebcdf', [('move', 4, 1)]),
                                ('abc', 'abXc', [('insert', 2, 'X')]), ('abc', 'ac', [('remove', 1)]),
                                ('abc', 'aBxc', [('edit', 1, 'B'), ('insert', 2, 'x')]), ('abc', 'abc', [])):
            self.assertEqual(book.changes(list(old), list(new)), edits)

    def test_names(self):
        source = "x = np.load('a.npy') + np.load(\"b\") # np.load('../c')\ny = buffer('d.raw')"
        self.assertEqual(book.inputs(source), (('a.npy', False), ('b', False), ('d.raw', True)))
        self.assertEqual(book.bound("x = 1\ny[0] = 2\nz['f'][1:] += 3\nx *= 2\nprint(w)\nr.view(np.int8)[0] = 1"),
                         ['y', 'z', 'x', 'r'])
        self.assertEqual(book.bound('x = ('), [])


class Files(unittest.TestCase):
    def setUp(self):
        folder = tempfile.TemporaryDirectory()
        self.addCleanup(folder.cleanup)
        self.folder = Path(folder.name)

    def test_a_file_is_replaced_in_one_step(self):
        path = self.folder / 'a'
        path.write_bytes(b'old')
        path.chmod(0o640)
        (self.folder / 'link').symlink_to(path)
        files.replace_file(self.folder / 'link', b'new')
        self.assertEqual((path.read_bytes(), path.stat().st_mode & 0o777), (b'new', 0o640))
        self.assertTrue((self.folder / 'link').is_symlink())
        self.assertEqual(sorted(os.listdir(self.folder)), ['a', 'link'])

    def test_inputs_are_regular_and_bounded(self):
        os.mkfifo(self.folder / 'pipe')
        with open(self.folder / 'large', 'wb') as file:
            file.truncate(files.LARGEST + 1)
        for name in ('pipe', 'large', '.'):
            with self.assertRaises(OSError):
                files.read_input(self.folder / name)


if __name__ == '__main__':
    unittest.main()
