"""A book behind its address: who is let in, edits, conflicts, events, saved files, and a killed program."""
import http.client
import json
import tempfile
import threading
import time
import unittest
from pathlib import Path

from ndnote import server
from ndnote.session import opened
from programs import WithAllWords
from sessions import SLOW_IN_PLACE

FIRST = 'x = np.arange(3)\nprint(x)'
TEXT = f'# %% One\n{FIRST}\n\n# %% <b>Two</b>\nprint(x.sum())\nnp.save("s.npy", x)\n'


class Serving(unittest.TestCase):
    def setUp(self):
        folder = tempfile.TemporaryDirectory()
        self.addCleanup(folder.cleanup)
        self.path = Path(folder.name) / 'book.py'
        self.path.write_text(TEXT)
        self.server = server.Server(opened(self.path))
        threading.Thread(target=self.server.serve_forever, args=(0.05,), daemon=True).start()
        self.addCleanup(self.server.server_close)
        self.addCleanup(self.server.shutdown)
        self.here = f'127.0.0.1:{self.server.server_port}'
        self.root = '/' + self.server.token + '/'

    def ask(self, path=None, body=None, method=None, **headers):
        connection = http.client.HTTPConnection('127.0.0.1', self.server.server_port, timeout=20)
        self.addCleanup(connection.close)
        if body is not None:
            headers = {'Origin': 'http://' + self.here, 'Content-Type': 'application/json', **headers}
        headers = {name.replace('_', '-'): value for name, value in headers.items()}
        connection.request(method or ('GET' if body is None else 'POST'), self.root if path is None else path,
                           body if body is None else json.dumps(body), headers)
        return connection.getresponse()

    def do(self, **body):
        return self.ask(self.root + 'do', body).status

    def wait(self, condition):
        end = time.time() + 30
        while not condition():
            self.assertLess(time.time(), end, 'nothing happened')
            time.sleep(0.02)

    def outputs(self):
        return [shown.result and shown.result.text for shown in self.server.desk.session.shown]

class Served(Serving):
    def test_the_page(self):
        self.wait(lambda: all(self.outputs()))
        answer = self.ask()
        html, policy = answer.read().decode(), answer.getheader('Content-Security-Policy')
        self.assertIn("default-src 'none'", policy)
        self.assertIn("frame-ancestors 'none'", policy)
        self.assertNotIn('unsafe', policy)
        self.assertIn('&lt;b&gt;Two&lt;/b&gt;', html)
        self.assertNotIn('<b>Two', html)
        self.assertIn('[0 1 2]', html)

    def test_who_is_not_let_in(self):
        port = self.here.split(':')[1]
        for path, headers in ((None, {'Host': 'evil.example'}), (None, {'Host': 'evil.example:' + port}),
                              (None, {'Origin': 'http://evil.example'}), (None, {'Origin': 'null'}),
                              (None, {'Sec_Fetch_Site': 'cross-site'}), (None, {'Sec_Fetch_Site': 'same-site'}),
                              ('/', {}), ('/events?rev=0', {}), ('/' + 'x' * 32 + '/', {}), ('/%C3%A9/', {})):
            answer = self.ask(path, **headers)
            self.assertIn(answer.status, (403, 404), (path, headers))
            self.assertNotIn(b'arange', answer.read())
        ticket = '/' + self.server.ticket
        self.assertEqual([self.ask(ticket).getheader('Location'), self.ask(ticket).status, self.ask('/').status],
                         [self.root, 404, 404])
        edit = {'op': 'remove', 'id': 0}
        self.assertEqual(self.ask('/do', edit).status, 404)
        for headers in ({'Content_Type': 'text/plain'}, {'Origin': ''}, {'Origin': 'http://evil.example'},
                        {'Host': 'evil.example'}, {'Content_Length': '99999999'}, {'Content_Length': '²'}):
            self.assertIn(self.ask(self.root + 'do', edit, **headers).status, (400, 403), headers)
        self.assertIn(self.ask(self.root + 'do', method='POST').status, (400, 403))
        self.assertEqual(self.path.read_text(), TEXT)
        self.assertEqual(self.server.server_address[0], '127.0.0.1')

    def test_wrong_requests(self):
        for body in ({}, [], 'x', {'op': 'no'}, {'op': 'edit', 'id': 0, 'was': FIRST, 'source': 5}, {'op': 'look'},
                     {'op': 'edit', 'more': 1}, {'op': 'title', 'id': 0, 'title': 7},
                     {'op': 'move', 'id': 0, 'by': 'x'}, {'op': 'look', 'ids': 7}, {'op': 'edit', 'id': 0},
                     {'op': '__init__', 'id': 0}, 5, {'op': 'move', 'id': 0, 'by': 10 ** 30}, {'op': 'insert', 'id': 9},
                     {'op': 'insert', 'id': 0, 'kind': 7}):
            self.assertIn(self.ask(self.root + 'do', body).status, (400, 409), body)
        for path in ('saved/9/s.npy', 'saved/1/../../x', 'saved/1/t', 'saved/', 'events', 'events?rev=x', 'no'):
            self.assertEqual(self.ask(self.root + path).status, 404, path)
        self.assertEqual(self.path.read_text(), TEXT)

    def test_an_address_without_its_last_sign_leads_to_the_page(self):
        answer = self.ask(self.root[:-1])
        self.assertEqual((answer.status, answer.getheader('Location')), (303, self.root))

    def test_a_byte_order_mark_stays_in_the_file(self):
        self.path.write_text('\ufeff' + TEXT)
        self.assertEqual(self.do(op='edit', id=0, was=FIRST, source='x = 1'), 204)
        self.assertEqual(self.path.read_text(), '\ufeff' + TEXT.replace(FIRST, 'x = 1'))

    def test_an_edit_goes_to_the_file_and_to_the_program(self):
        self.assertEqual(self.do(op='edit', id=0, was=FIRST, source=FIRST.replace('3', '4')), 204)
        self.assertEqual(self.path.read_text(), TEXT.replace('3', '4'))
        self.wait(lambda: self.outputs() == ['[0 1 2 3]\n', '6\n'])
        self.assertEqual(self.do(op='edit', id=0, was=FIRST, source='x = 5'), 409)
        self.assertEqual(self.do(op='insert', id=0), 204)
        self.assertEqual(self.do(op='edit', id=2, was='', source='y = 1'), 204)
        self.assertEqual(self.do(op='move', id=2, by=-1), 204)
        self.assertEqual(self.do(op='title', id=2, title='Y'), 204)
        self.assertEqual(self.path.read_text(), '# %% Y\ny = 1\n\n' + TEXT.replace('3', '4'))
        self.assertEqual(self.do(op='remove', id=2), 204)
        self.assertEqual(self.path.read_text(), TEXT.replace('3', '4'))

    def test_an_edit_of_the_file_is_taken_over(self):
        self.wait(lambda: all(self.outputs()))
        self.path.write_text(TEXT.replace('arange(3)', 'arange(5)'))
        self.wait(lambda: self.outputs() == ['[0 1 2 3 4]\n', '10\n'])
        self.path.write_text(TEXT + '\n# %% Late\nprint(7)\n')
        was = 'print(x.sum())\nnp.save("s.npy", x)'
        self.assertEqual(self.do(op='edit', id=1, was=was, source='print(x.sum() + 1)'), 204)
        self.assertEqual(self.path.read_text(), TEXT.replace(was, 'print(x.sum() + 1)') + '\n# %% Late\nprint(7)\n')

    def test_events(self):
        self.do(op='look', ids=[0, 1])
        session = self.server.desk.session
        self.wait(lambda: all(self.outputs()) and not any(shown.is_old for shown in session.shown))
        answer = self.ask(self.root + f'events?rev={session.rev}')

        def event():
            while not (line := answer.readline().decode()).startswith('data: '):
                pass
            return json.loads(line[6:])
        self.assertEqual(event()['cells'], {})
        self.do(op='edit', id=0, was=FIRST, source=FIRST.replace('3', '4'))
        seen = {}
        while len(seen) < 2:
            seen.update({number: cell['out'] for number, cell in event()['cells'].items() if cell['out']})
        self.assertIn('[0 1 2 3]', seen['0'])
        self.assertIn('6', seen['1'])

    def test_saved_files(self):
        self.wait(lambda: all(self.outputs()))
        self.assertTrue(self.ask(self.root + 'saved/1/s.npy').read().startswith(b'\x93NUMPY'))

    def test_the_program_may_end(self):
        self.wait(lambda: all(self.outputs()))
        self.server.desk.session.notebook.kill()
        self.wait(lambda: 'signal 9' in str(self.server.desk.state))
        self.assertEqual(self.outputs(), ['[0 1 2]\n', '3\n'])


class ServedWithAllWords(WithAllWords, Serving):
    """Over a program that tells which cells ran, and which cell runs."""

    def test_cells_that_ran_flash(self):
        desk, session = self.server.desk, self.server.desk.session
        self.do(op='look', ids=[0, 1])
        self.wait(lambda: all(self.outputs()) and not any(shown.is_old for shown in session.shown))
        rev = session.rev
        self.do(op='edit', id=0, was=FIRST, source=FIRST + '  # the same')
        self.wait(lambda: desk.since(rev)['cells'].get(0, {}).get('flash') and desk.state['word'] == 'ready')
        news = desk.since(rev)
        self.assertEqual((news['state']['ran'], news['state']['count'], news['cells'][0]['out']), (1, 0, None))
        self.assertEqual([number for number, cell in news['cells'].items() if cell['flash']], [0])

    def test_the_cell_that_runs_is_told(self):
        desk = self.server.desk
        self.wait(lambda: desk.state['word'] == 'ready')
        self.assertIsNone(desk.since(-1)['running'])
        self.do(op='edit', id=0, was=FIRST, source=SLOW_IN_PLACE)
        self.wait(lambda: desk.since(-1)['running'] == 0)
        self.assertEqual(self.do(op='stop'), 204)
        self.wait(lambda: desk.state['word'] == 'ready')
        self.assertIsNone(desk.since(-1)['running'])

    def test_the_cell_in_which_the_program_ends_is_told(self):
        desk, session = self.server.desk, self.server.desk.session
        self.wait(lambda: desk.state['word'] == 'ready')
        self.do(op='edit', id=0, was=FIRST, source=SLOW_IN_PLACE)
        self.wait(lambda: session.running() == 0)
        first = session.notebook
        first.kill()
        self.wait(lambda: session.notebook is not first and session.running() == 0)
        self.assertEqual(session.last_death, 'ended by signal 9 in the cell “One”')
        session.notebook.kill()
        self.wait(lambda: desk.state['word'] == 'ready')
        self.assertIn('twice in this cell', session.shown[0].note)


if __name__ == '__main__':
    unittest.main()
