"""The command line: texts, refusals with their places, statuses, saved files, and pages."""
import os
import shutil
import signal
import socket
import subprocess
import sys
import tempfile
import unittest
from pathlib import Path

PYTHON = Path(__file__).resolve().parents[1]
BOOKS = PYTHON.parent / 'examples/books'


def call(*words, **environment):
    return subprocess.run([sys.executable, '-m', 'ndnote', *map(str, words)], capture_output=True, text=True,
                          env={**os.environ, 'PYTHONPATH': str(PYTHON), **environment})


class Runs(unittest.TestCase):
    def setUp(self):
        folder = tempfile.TemporaryDirectory()
        self.addCleanup(folder.cleanup)
        self.folder = Path(folder.name) / 'books'
        shutil.copytree(BOOKS, self.folder)

    def run_book(self, text, *words):
        (self.folder / 'book.py').write_text(text)
        return call('run', self.folder / 'book.py', *words)

    def test_refusals_are_told_with_place_and_help(self):
        run = self.run_book('# %%\nprint(1)\n\n# %% Two\nx = np.arange(3)\nx[7] = 1\n\n# %%\ny = 1 +* 2\n'
                            '# %%\nprint(x)\n')
        self.assertEqual((run.returncode, run.stdout), (1, '1\n[0 1 2]\n'))
        self.assertIn('book.py:6: index 7 is outside axis 0, which has length 3 (Index.OutOfBounds 0 7 3)\n'
                      '    x[7] = 1\n', run.stderr)
        self.assertIn('book.py:9:8: `*` does not continue the statement (Parse.Unexpected 8)\n    y = 1 +* 2\n'
                      '           ^\n', run.stderr)

    def test_operands_and_names_are_told(self):
        run = self.run_book('# %%\ncounts = np.arange(6).reshape(2, 3)\ny = counts + np.arange(2)\n'
                            '# %%\nprint(count)\n')
        self.assertIn('    counts is int64 · 2 × 3\n    np.arange(2) is int64 · 2\n', run.stderr)
        self.assertIn('Is `counts` meant?', run.stderr)

    def test_a_long_text_at_the_end_of_its_cell_is_shown_by_its_ends(self):
        run = self.run_book('# %%\nprint(7)\nprint(np.arange(200000))  # long\n\n# %%\nprint(8)\n')
        self.assertEqual(run.stdout, '7\n[0 1 2 3 4 5 6 7 … 199992 199993 199994 199995 199996 199997 199998 199999]\n8\n')
        self.assertEqual((run.returncode, run.stderr.count('\n')), (0, 2))
        self.assertIn('book.py:3: what is shown of this print is an excerpt, cut by ndnote', run.stderr)
        self.assertIn('    np.arange(200000) is int64 · 200,000\n', run.stderr)
        page = call('page', self.folder / 'book.py')
        self.assertEqual(page.returncode, 0)
        self.assertIn('199998 199999', (self.folder / 'book.html').read_text())

    def test_lines_behind_a_long_text_did_not_run(self):
        run = self.run_book('# %%\nprint(np.arange(200000))\nprint(1)\n# %%\nprint(2)\n')
        self.assertEqual((run.returncode, run.stdout.split('\n')[1:]), (1, ['2', '']))
        self.assertIn('The lines of the cell behind it did not run', run.stderr)
        self.assertEqual(self.run_book('# %%\nprint(np.arange(200000))\n# %%\nprint(q)\n').returncode, 1)

    def test_arguments_of_a_long_text_that_are_not_shown_are_counted(self):
        run = self.run_book('# %%\nx = np.arange(200000)\nprint(' + 'x, ' * 8 + 'x)\n')
        self.assertEqual((run.returncode, run.stdout.count('\n')), (0, 7))
        self.assertIn('… 3 more arguments left out by ndnote …', run.stdout)

    def test_inputs_and_statuses(self):
        self.assertEqual(self.run_book("a = np.load('a')\nprint(a.sum())", f'a={self.folder}/counts.npy').returncode, 0)
        self.assertEqual(self.run_book("a = np.load('a')").returncode, 1)
        self.assertEqual(self.run_book('x = 1', 'a').returncode, 2)
        self.assertEqual(call('run', self.folder / 'no.py').returncode, 2)
        self.assertEqual(call().returncode, 2)
        self.assertEqual(call('run', self.folder / 'cells.py', NDNOTE_PROGRAM='/bin/false').returncode, 3)
        self.assertEqual(call('run', self.folder / 'cells.py', NDNOTE_PROGRAM='/no').returncode, 2)
        (self.folder / 'latin.py').write_bytes(b'# %% caf\xe9\n')
        self.assertEqual(call('run', self.folder / 'latin.py').returncode, 2)
        self.assertIn('latin.py: a book is UTF-8 text\n', call('run', self.folder / 'latin.py').stderr)
        self.assertIn('no.py: No such file or directory\n', call('run', self.folder / 'no.py').stderr)
        self.assertTrue(call('run').stderr.endswith('required: book\n'))
        other = self.run_book("a = np.load('a')", f'b={self.folder}/counts.npy')
        self.assertIn('no cell loads b; the book loads a\n', other.stderr)
        page = call('page', self.folder / 'station.py', '-o', self.folder / 'no/page.html')
        self.assertEqual(page.returncode, 2)
        self.assertNotIn('Traceback', page.stderr)

    def test_wrong_words_are_told_without_a_trace(self):
        path = self.folder / 'book.py'
        path.write_text('print(1)\n')
        with socket.create_server(('127.0.0.1', 0)) as taken:
            number = str(taken.getsockname()[1])
            for words, told in ((('run', path, '--memory', '99999999999G'), 'a size is a number of bytes'),
                                (('run', path, '--memory=-4G'), 'a size is a number of bytes'),
                                (('run', path, '=x'), 'a name of an input has 1 to 64'),
                                (('run', path, 'a/b=x'), 'a name of an input has 1 to 64'),
                                (('live', path, '--port', '99999'), 'a port is a number from 0'),
                                (('live', path, '--port', number), f'port {number}: Address already in use\n'),
                                (('live', self.folder / 'no/b.py'), 'no/b.py: No such file or directory\n'),
                                (('page', path, '-o', self.folder / 'no/p.html'), 'no/p.html: No such file')):
                ended = call(*words)
                self.assertEqual((ended.returncode, ended.stdout), (2, ''), words)
                self.assertIn(told, ended.stderr)
                self.assertNotIn('Traceback', ended.stderr)
        ended = call('run', path, '--memory', '4G', NDNOTE_PROGRAM='/bin/false')
        self.assertIn('the program ended with status 1; the bound by --memory may be too low', ended.stderr)

    def test_a_page_never_replaces_its_book(self):
        for name, words in (('b.html', ()), ('b.py', ('-o', self.folder / 'b.py'))):
            (self.folder / name).write_text('print(1)\n')
            ended = call('page', self.folder / name, *words)
            self.assertEqual((ended.returncode, ended.stdout), (2, ''))
            self.assertIn('the page would replace the book', ended.stderr)
            self.assertEqual((self.folder / name).read_text(), 'print(1)\n')

    def test_a_byte_order_mark_is_no_text(self):
        self.assertEqual(self.run_book('\ufeff# %% T\nprint(1)\n').stdout, '1\n')
        self.assertIn('book.py:1:7: ', self.run_book('\ufeffprint(&)\n').stderr)

    def test_a_book_gives_a_terminal_no_command(self):
        run = self.run_book('# %% \x1b[31mred\nprint(q)  # \x1b[2J\n', '--titles')
        self.assertNotIn('\x1b', run.stdout + run.stderr)
        self.assertIn('\ufffd[31mred', run.stdout)
        titled = call('run', self.folder / 'book.py', '--titles', PYTHONIOENCODING='ascii')
        self.assertIn('red', titled.stdout)
        self.assertNotIn('Traceback', titled.stderr)

    def test_a_layout_is_a_regular_file(self):
        (self.folder / 'pipe').write_bytes(b'abc')
        os.mkfifo(self.folder / 'pipe.json')
        run = self.run_book("x = buffer('pipe')")
        self.assertEqual(run.returncode, 1)
        self.assertIn('its layout pipe.json is wrong: no regular file', run.stderr)

    def test_a_run_may_be_interrupted(self):
        (self.folder / 'book.py').write_text('print(1)\n# %%\nx = np.arange(16777216)\n' + 'x = x * 3\n' * 900)
        running = subprocess.Popen([sys.executable, '-m', 'ndnote', 'run', self.folder / 'book.py'], text=True,
                                   stdout=subprocess.PIPE, stderr=subprocess.PIPE, start_new_session=True,
                                   # A test that runs in the background may have got interrupts that are ignored.
                                   preexec_fn=lambda: signal.signal(signal.SIGINT, signal.SIG_DFL),
                                   env={**os.environ, 'PYTHONPATH': str(PYTHON)})
        self.addCleanup(running.kill)
        with self.assertRaises(subprocess.TimeoutExpired):
            running.wait(2)
        os.killpg(running.pid, signal.SIGINT)
        said = running.communicate(timeout=30)
        self.assertEqual((running.returncode, said), (130, ('', '')))

    def test_saved_files(self):
        run = self.run_book("# %%\nnp.save('a', np.arange(3))\nnp.save('b.npy', np.arange(2))\n", '--save',
                            self.folder / 'out')
        self.assertEqual((run.returncode, sorted(os.listdir(self.folder / 'out'))), (0, ['a.npy', 'b.npy']))

    def test_a_page_needs_nothing_else(self):
        self.assertEqual(call('page', self.folder / 'camera.py').returncode, 0)
        html = (self.folder / 'camera.html').read_text()
        self.assertIn('<img class="mask"', html)
        for word in ('src="http', 'href="http', 'url(', '@import', ' onclick=', ' style="'):
            self.assertNotIn(word, html)

    def test_what_a_cell_says_is_no_html(self):
        self.run_book('# %% <script>a\n# %% [markdown]\n# <script>b</script> [x](javascript:c) '
                      '[y](https://e.org/"onclick=d) `<i>`\n# %%\n'
                      "r = np.zeros(1, dtype=[('<script>e', np.int8)])\nprint(r['<script>g'], q)  # </pre><script>f\n")
        call('page', self.folder / 'book.py')
        html = (self.folder / 'book.html').read_text()
        self.assertEqual(html.count('<script>'), 1)
        self.assertNotIn('href="javascript', html)
        self.assertNotIn('"onclick', html)


if __name__ == '__main__':
    unittest.main()
