"""Hostile use of the live notebook: nothing is lost, and nothing is let in."""
import http.server
import json
import os
import resource
import signal
import struct
import tempfile
import threading
import time
import unittest
import unittest.mock
import urllib.request
from pathlib import Path

import ndnote
from browsing import TEXT, Browsing, has_browser

try:
    from selenium.webdriver.common.by import By
    from selenium.webdriver.common.keys import Keys
except ImportError:
    pass

ATTACK = '''<!doctype html><title>other</title><form id=f method=post enctype="text/plain" action="{url}do" target=t>
<input name='{{"op":"remove","id":1,"x":"' value='"}}'></form><iframe name=t></iframe><iframe src="{url}"></iframe>
<img src="{url}saved/1/s.npy"><script>
  const body = JSON.stringify({{ op: 'remove', id: 1 }});
  const plain = {{ method: 'POST', mode: 'no-cors', body }};
  const typed = {{ method: 'POST', headers: {{ 'Content-Type': 'application/json' }}, body }};
  document.getElementById('f').submit();
  Promise.allSettled([fetch('{url}do', plain), fetch('{url}do', typed), fetch('{url}').then(a => a.text())])
    .then(all => document.title = 'tried ' + all.map(one => one.status + (one.value?.type ?? '')).join(' '));
</script>'''
RUNS = "document.title = 'broken'"
# Lines that a cell repeats for over a minute: one takes memory for each result, the other writes in place.
TAKES, KEEPS = 'x = x * 3 // y % y + 1\n', 'x **= x\nx %= 1001\n'
LINES = 900
MAKING = 'x = np.arange(16777216)\ny = x % 1000 + 1'
STOPPED = f"""# %%
{MAKING}

# %%
d = np.load('d.npy')
print(d.sum())

# %%
print(x[5])
print(1)
"""


def slow_source(lines):
    return lines * (LINES // lines.count('\n'))


def seconds_of(lines):
    """Processor seconds that a cell of these lines would take, by those of a few of them."""
    with ndnote.Notebook() as book:
        def clock():
            return time.clock_gettime((~book.process << 3) | 2)
        book.insert(0, MAKING)
        book.insert(1, lines)
        before = clock()
        book.edit(1, 2 * lines)
        return (clock() - before) / 2 * (LINES // lines.count('\n'))


def npy(numbers):
    header = f"{{'descr': '|u1', 'fortran_order': False, 'shape': ({len(numbers)},), }}".ljust(117) + '\n'
    return b'\x93NUMPY\x01\x00' + struct.pack('<H', len(header)) + header.encode() + bytes(numbers)


@has_browser
class Hostile(Browsing):
    def test_markup_of_cells_does_not_run(self):
        field = f'<img src=x onerror="{RUNS}"><script>{RUNS}</script>'.replace('"', '').replace("'", '`')
        self.type(0, f"x = np.zeros(1, dtype=[('{field}'[:0], np.int8)])\nprint(x)", Keys.CONTROL, Keys.ENTER)
        self.wait(lambda: 'Parse' in self.said(0))
        source = f"x = np.zeros(1, dtype=[('{field[:60]}', np.int8)])\nprint(x['<script>'])"
        self.type(0, source, Keys.CONTROL, Keys.ENTER)
        self.wait(lambda: 'no field is called <script>' in self.said(0).lower())
        self.wait(lambda: self.sections()[0].find_elements(By.TAG_NAME, 'table'))
        self.book.write_text(self.book.read_text().replace('# # Title', f'# # <script>{RUNS}</script> <b>T</b>\n# '
                             f'[a](javascript:{RUNS}) ![b](https://e.example/x.png) <img src=x onerror={RUNS}>'))
        self.wait(lambda: 'javascript' in self.page.find_element(By.TAG_NAME, 'main').text)
        self.assertEqual(self.page.title, 'Title')
        for found in ('main script', 'main img:not([src^="data:"])', 'main h1 b', 'a[href^="javascript"]'):
            self.assertEqual(self.page.find_elements(By.CSS_SELECTOR, found), [])

    def test_a_page_of_another_origin_changes_nothing(self):
        served = ATTACK.format(url=self.url).encode()

        class Attack(http.server.BaseHTTPRequestHandler):
            def do_GET(self):
                self.send_response(200)
                self.send_header('Content-Type', 'text/html')
                self.end_headers()
                self.wfile.write(served)

            def log_message(self, *_):
                pass
        attacker = http.server.ThreadingHTTPServer(('127.0.0.1', 0), Attack)
        self.addCleanup(attacker.server_close)
        self.addCleanup(attacker.shutdown)
        threading.Thread(target=attacker.serve_forever, daemon=True).start()
        self.page.get(f'http://127.0.0.1:{attacker.server_port}/')
        self.wait(lambda: self.page.title.startswith('tried'))
        time.sleep(0.5)
        refused = ' '.join(line['message'] for line in self.page.get_log('browser'))
        self.assertEqual(self.page.title, 'tried rejected rejected rejected')
        self.assertIn('ERR_BLOCKED_BY_RESPONSE.NotSameOrigin', refused)
        self.assertEqual(self.book.read_text(), TEXT)

    def test_a_cell_that_runs_for_over_a_minute_is_stopped(self):
        self.assertGreater(seconds_of(TAKES), 60)
        (self.book.parent / 'd.npy').write_bytes(npy([1, 2, 4]))
        self.book.write_text(STOPPED)
        self.wait(lambda: self.texts() == ['7', '5\n1'])
        self.type(2, slow_source(TAKES) + 'print(x[5])', Keys.CONTROL, Keys.ENTER)
        self.wait(lambda: self.page.find_elements(By.CSS_SELECTOR, '#state button'))
        self.page.find_element(By.CSS_SELECTOR, '#state button').click()
        self.wait(lambda: 'Stopped' in self.said(2))
        self.assertEqual(self.texts()[0], '7')
        self.assertIn('x * 3 // y', self.book.read_text())
        self.type(2, 'print(x[6] + d[2])', Keys.CONTROL, Keys.ENTER)
        self.wait(lambda: self.texts() == ['7', '10'])
        self.assertEqual(self.book.read_text(), STOPPED.split('print(x[5])')[0] + 'print(x[6] + d[2])\n')

    def test_a_program_that_is_killed_in_an_edit_comes_back(self):
        before = self.program()
        os.kill(before, signal.SIGSTOP)         # it takes the edit and does not answer
        self.type(0, 'x = np.arange(4)\nprint(x)', Keys.CONTROL, Keys.ENTER)
        self.wait(lambda: 'running' in self.state())
        self.assertIn('arange(4)', self.book.read_text())
        self.assertEqual(self.texts(), ['[0 1 2]', '3'])
        os.kill(before, signal.SIGKILL)
        self.wait(lambda: self.texts() == ['[0 1 2 3]', '6'] and 'signal 9' in self.state())
        self.assertNotEqual(self.program(), before)
        self.assertIn('started again', self.state())

    def test_a_program_that_hangs_beside_an_edit_is_stopped(self):
        os.kill(self.program(), signal.SIGSTOP)
        self.type(1, 'print(x.max())', Keys.CONTROL, Keys.ENTER)
        self.wait(lambda: self.page.find_elements(By.CSS_SELECTOR, '#state button'))
        self.page.find_element(By.CSS_SELECTOR, '#state button').click()
        self.wait(lambda: 'Stopped' in self.said(1) or self.texts() == ['[0 1 2]', '2'])
        self.press(1, 'Run')
        self.wait(lambda: self.texts() == ['[0 1 2]', '2'])

    def test_a_full_disk_loses_nothing(self):
        """A bound on the size of files stands for a disk without room: the write fails half-way."""
        _, most = resource.prlimit(self.process.pid, resource.RLIMIT_FSIZE)
        resource.prlimit(self.process.pid, resource.RLIMIT_FSIZE, (4096, most))
        long = 'x = np.arange(4)\nprint(x)\n' + '# a line of a comment\n' * 400
        self.type(0, long, Keys.CONTROL, Keys.ENTER)
        self.wait(lambda: self.page.find_elements(By.CSS_SELECTOR, '.conflict'))
        self.assertIn('The book was not saved', self.page.find_element(By.CSS_SELECTOR, '.conflict').text)
        self.assertEqual((self.book.read_text(), os.listdir(self.book.parent)), (TEXT, ['book.py']))
        area = self.sections()[0].find_element(By.TAG_NAME, 'textarea')
        self.assertEqual(area.get_property('value'), long)
        resource.prlimit(self.process.pid, resource.RLIMIT_FSIZE, (most, most))
        self.page.find_elements(By.CSS_SELECTOR, '.conflict button')[0].click()
        self.wait(lambda: self.texts() == ['[0 1 2 3]', '6'])
        self.assertIn('# a line of a comment', self.book.read_text())

    def test_a_book_that_goes_away_is_not_lost(self):
        self.book.unlink()
        time.sleep(0.5)
        self.type(0, 'x = np.arange(4)\nprint(x)', Keys.CONTROL, Keys.ENTER)
        self.wait(lambda: self.page.find_elements(By.CSS_SELECTOR, '.conflict'))
        self.assertIn('not saved', self.page.find_element(By.CSS_SELECTOR, '.conflict').text)
        self.book.write_text(TEXT)
        self.page.find_elements(By.CSS_SELECTOR, '.conflict button')[0].click()
        self.wait(lambda: self.texts() == ['[0 1 2 3]', '6'])


class Large(unittest.TestCase):
    """Large books and odd files, without a browser."""

    def setUp(self):
        folder = tempfile.TemporaryDirectory()
        self.addCleanup(folder.cleanup)
        self.folder = Path(folder.name)

    def serve(self, name, text):
        from ndnote import server
        from ndnote.session import opened
        path = self.folder / name
        path.write_bytes(text.encode())
        served = server.Server(opened(path))
        threading.Thread(target=served.serve_forever, args=(0.05,), daemon=True).start()
        self.addCleanup(served.server_close)
        self.addCleanup(served.shutdown)
        return served, path

    def post(self, served, **body):
        request = urllib.request.Request(served.url + 'do', json.dumps(body).encode(), method='POST', headers={
            'Content-Type': 'application/json', 'Origin': f'http://127.0.0.1:{served.server_port}'})
        with urllib.request.urlopen(request, timeout=60) as answer:
            return answer.status

    def wait(self, condition, seconds=90):
        end = time.time() + seconds
        while not condition():
            self.assertLess(time.time(), end, 'nothing happened')
            time.sleep(0.03)

    def resident(self, process):
        words = Path(f'/proc/{process}/statm').read_text().split()
        return int(words[1]) * os.sysconf('SC_PAGE_SIZE')

    def stop(self, lines, at_work=0):
        """A cell that would run for over a minute is edited into a book with an input. The endpoint stops it once the
        program has more than `at_work` bytes. Gives the numbers of the program's process before and after."""
        self.assertGreater(seconds_of(lines), 60)
        (self.folder / 'd.npy').write_bytes(npy([1, 2, 4]))
        served, path = self.serve('stopped.py', STOPPED)
        session, state = served.desk.session, lambda: served.desk.state['word']

        def texts():
            return [shown.result and shown.result.text for shown in session.shown]
        self.wait(lambda: state() == 'ready' and texts() == ['', '7\n', '5\n1\n'])
        before, slow = session.notebook.process, slow_source(lines).rstrip('\n')
        self.assertEqual(self.post(served, op='edit', id=2, was='print(x[5])\nprint(1)', source=slow), 204)
        self.wait(lambda: state() == 'running')
        self.wait(lambda: self.resident(before) > at_work)
        time.sleep(0.5)                         # it is in the middle of its lines
        self.assertEqual((state(), self.post(served, op='stop')), ('running', 204))
        self.wait(lambda: state() == 'ready' and 'Stopped' in session.shown[2].note)
        self.assertEqual(texts()[:2], ['', '7\n'])
        self.assertEqual(path.read_text(), STOPPED.replace('print(x[5])\nprint(1)', slow))
        self.assertEqual(self.post(served, op='edit', id=2, was=slow, source='print(x[6] + d[2])'), 204)
        self.wait(lambda: texts() == ['', '7\n', '10\n'])
        return before, session.notebook.process

    def test_a_cell_that_takes_memory_is_stopped_and_the_notebook_goes_on(self):
        with unittest.mock.patch('ndnote.session.GRACE', 30):      # a busy machine asks for memory late
            before, after = self.stop(TAKES)
        self.assertEqual(before, after)

    def test_a_cell_that_takes_none_is_stopped_and_the_notebook_is_started_again(self):
        before, after = self.stop(KEEPS, 3 * 128_000_000)     # x, y, and the copy of x that it writes into
        self.assertNotEqual(before, after)

    def test_a_book_of_five_megabytes(self):
        filler = '# ' + 'x' * 98 + '\n'
        cells = ['# %%\na = 5\n', '# %%\nprint(a)\n', *(f'# %%\nb = {at}\n' + filler * 500 for at in range(100)),
                 '# %%\nprint(a + b)\n', '# %% Too long\nb = 1\n' + filler * 700]
        served, path = self.serve('large.py', ''.join(cells))
        self.assertGreater(path.stat().st_size, 5_000_000)
        session = served.desk.session
        self.wait(lambda: served.desk.state['word'] == 'ready' and session.shown[1].result)
        self.assertIn('65,536 bytes', session.shown[-1].note)
        self.assertEqual(self.post(served, op='edit', id=0, was='a = 5', source='a = 6'), 204)
        self.wait(lambda: [session.shown[at].result.text for at in (1, 102)] == ['6\n', '105\n'])
        self.assertEqual(path.read_text(), ''.join(cells).replace('a = 5', 'a = 6', 1))

    def test_names_with_quotes(self):
        served, path = self.serve('a\'b"c<i>&.py', "# %%\nx = np.load('q.npy')\nnp.save('s.npy', np.arange(2))\n")
        header = "{'descr': [('a\"<b>', '|i1')], 'fortran_order': False, 'shape': (1,), }".ljust(117) + '\n'
        file = b'\x93NUMPY\x01\x00' + struct.pack('<H', len(header)) + header.encode() + b'\0'
        (self.folder / 'q.npy').write_bytes(file)
        session = served.desk.session
        self.wait(lambda: session.shown[0].result and 'BadDescr' in str(session.shown[0].result.refusal))
        with urllib.request.urlopen(served.url, timeout=60) as answer:
            html = answer.read().decode()
        self.assertIn('a&#x27;b&quot;c&lt;i&gt;&amp;.py', html)
        self.assertNotIn('c<i>', html)
        self.assertEqual(self.post(served, op='title', id=0, title='"><script>\n# %% x'), 204)
        self.assertEqual(path.read_text().split('\n')[0], '# %% "><script> # %% x')


if __name__ == '__main__':
    unittest.main()
