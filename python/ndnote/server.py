"""A book in a browser, on this machine alone. One thread brings the program to the book, one watches files, and each
request has its own. What a request changes is written to the file at once; server-sent events tell what came of it."""
from __future__ import annotations

import hmac
import json
import queue
import re
import secrets
import sys
import threading
import time
from http import HTTPStatus
from http.server import BaseHTTPRequestHandler, ThreadingHTTPServer
from typing import Any, Optional

from . import book, page
from .engine import Refused
from .process import Died
from .session import Session, Shown

PAUSE = 0.2             # seconds between two looks at the files
LARGEST = 1 << 20       # bytes of a request
PATIENCE = 60           # seconds that a request waits for a saved file
OPS = ('edit', 'insert', 'move', 'remove', 'title')


class Conflict(Exception):
    """The cell is not what the browser thinks it is."""


class Desk:
    """The book on the disk, the session, and what the browsers ask for."""

    def __init__(self, session: Session) -> None:
        self.session = session
        self.text = book.read(session.path)
        self.visible: set[int] = set()      # cells on a screen, or near: only these are looked at beside their texts
        self.questions: queue.SimpleQueue = queue.SimpleQueue()
        self.wake = threading.Event()
        self.wake.set()
        self.is_open = True
        self.state: dict[str, Any] = {'word': 'starting'}
        self.stamps = session.stamps()      # of the inputs, from before the program has them
        for task in (self.work, self.watch):
            threading.Thread(target=task, daemon=True).start()

    def close(self) -> None:
        self.is_open = False
        self.session.close()

    def tell(self, **state: Any) -> None:
        self.state = state
        self.session.touch()

    # The thread that speaks with the program.

    def work(self) -> None:
        while self.is_open:
            try:
                self.step()
            except Exception as error:          # the page says so, and goes on
                self.recover(error)

    def recover(self, error: Exception) -> None:
        has_died = isinstance(error, Died)
        self.tell(word='fault', text=f'The program {error}' if has_died else f'{type(error).__name__}: {error}')
        time.sleep(PAUSE)
        if has_died and self.is_open:
            self.wake.set()
            try:
                self.session.restart(error)
            except (Died, OSError):             # the next step tells it
                pass

    def step(self) -> None:
        """Answers questions, then brings the program to the book, then looks at one cell, or waits for work."""
        session = self.session
        while not self.questions.empty():
            self.answer(*self.questions.get())
        if self.wake.is_set():
            with session.news:
                self.wake.clear()
                self.state = {'word': 'running'}    # the next look at the files tells it, if it takes that long
            began = time.perf_counter()
            count = session.sync()
            ran = len(session.ran) if session.tells_runs else None
            self.tell(word='ready', ms=(time.perf_counter() - began) * 1000, count=count, ran=ran,
                      ended=session.last_death, problem='; '.join(session.problems.values()))
            session.last_death = ''
            return
        old = next((shown for shown in session.codes() if shown.is_old and shown.id in self.visible), None)
        if old:
            session.look(old, has_links=True)
        elif not self.wake.wait(PAUSE) and session.notebook.is_over():
            raise session.notebook.death()

    def answer(self, number: int, name: str, answer: queue.SimpleQueue) -> None:
        try:
            at = self.session.order.index(number)
            answer.put(self.session.notebook.saved(at, name))
        except (Refused, ValueError):           # the file or its cell has gone meanwhile
            answer.put(None)

    # The thread that watches the book and its inputs.

    def watch(self) -> None:
        seen: Any = None
        is_waiting = False
        while self.is_open:
            time.sleep(PAUSE)
            with self.session.news:
                was_waiting, is_waiting = is_waiting, self.wake.is_set()
                if was_waiting and is_waiting and self.state['word'] == 'ready':
                    self.state = {'word': 'running'}    # a look at a cell takes long, and the book waits for it
                if self.state['word'] == 'running':
                    self.session.touch()
            try:
                stat = self.session.path.stat()
                before, seen = seen, (stat.st_size, stat.st_mtime_ns, stat.st_ino)
                if before != seen:
                    self.absorb()
                before, self.stamps = self.stamps, self.session.stamps()
                if before != self.stamps:
                    self.wake.set()
            except (OSError, UnicodeDecodeError):
                pass                            # being written, or gone: what was read last stays

    def absorb(self) -> None:
        """Takes over what another program has written into the book."""
        with self.session.news:
            text = book.read(self.session.path)
            while text != self.text:
                time.sleep(0.03)                # it may be half written
                before, text = text, book.read(self.session.path)
                if text == before:
                    self.text = text
                    self.session.set_cells(book.parse(text))
                    self.wake.set()

    # What browsers ask for.

    def change(self, op: str, **words: Any) -> None:
        """Does what a browser asks for; a Conflict, TypeError or ValueError says why not."""
        if op == 'look':
            self.visible = {number for number in words['ids'] if isinstance(number, int)}
        elif op == 'stop':
            self.session.stop()
        elif op in OPS:
            self.change_book(op, **words)
        else:
            raise ValueError(op)

    def change_book(self, op: str, id: Optional[int] = None, **words: Any) -> None:
        """Changes the book, the file before the session: where it cannot be written nothing has changed."""
        session = self.session
        with session.news:
            self.absorb()
            at = next((at for at, shown in enumerate(session.shown) if shown.id == id), None)
            if at is None and (op != 'insert' or id is not None):
                raise Conflict('This cell is gone.')
            cells = [shown.cell for shown in session.shown]
            getattr(self, 'do_' + op)(cells, at, **words)
            text = book.written(cells)
            book.write(session.path, text)
            self.text = text
            if op == 'edit':
                session.release(session.shown[at])
            session.set_cells(book.parse(text))
            self.wake.set()

    def do_edit(self, cells: list[book.Cell], at: int, was: str, source: str) -> None:
        if cells[at].source not in (was, source):
            raise Conflict('This cell was changed elsewhere as well.')
        cells[at] = cells[at].with_source(source)

    def do_insert(self, cells: list[book.Cell], at: Optional[int], kind: str = 'code') -> None:
        mark = {'code': '# %%\n', 'text': '# %% [markdown]\n'}[kind]
        if at is not None:
            cells[at] = cells[at].with_blank_line()
        cells.insert(0 if at is None else at + 1, book.Cell(mark, '\n'))

    def do_move(self, cells: list[book.Cell], at: int, by: int) -> None:
        cells.insert(max(0, at + by), cells.pop(at))

    def do_remove(self, cells: list[book.Cell], at: int) -> None:
        del cells[at]

    def do_title(self, cells: list[book.Cell], at: int, title: str) -> None:
        if cells[at].mark:
            cells[at] = cells[at].with_title(title)

    def saved(self, shown: Shown, name: str) -> Optional[bytes]:
        answer: queue.SimpleQueue = queue.SimpleQueue()
        self.questions.put((shown.id, name, answer))
        self.wake.set()
        try:
            return answer.get(timeout=PATIENCE)
        except queue.Empty:
            return None

    def since(self, rev: int, is_first: bool = False) -> dict[str, Any]:
        """What is another since a revision, for a browser. The first news have all links: a page has none yet."""
        session, linked = self.session, -1 if is_first else rev
        return {'rev': session.rev, 'order': [shown.id for shown in session.shown],
                'cells': {shown.id: self.told(shown, rev) for shown in session.shown if shown.rev > rev},
                'links': {shown.id: shown.links and shown.links.told() for shown in session.shown
                          if shown.links_rev > linked},
                'state': self.state, 'done': [len(session.order), len(session.codes())], 'running': session.running()}

    def told(self, shown: Shown, rev: int) -> dict[str, Any]:
        """A cell for a browser; its output only where that may be another."""
        is_told = shown.out_rev > rev or shown.note or shown.result and shown.result.refusal
        return {'kind': 'text' if shown.cell.is_text else 'code', 'title': shown.cell.title,
                'source': shown.cell.source,
                'out': page.output(shown, self.session.path.name, True) if is_told else None,
                'flash': shown.flash_rev > rev, 'pending': self.session.is_pending(shown)}


class Handler(BaseHTTPRequestHandler):
    """One request. Whatever is not from this machine's own page, with its token, learns nothing."""
    protocol_version = 'HTTP/1.1'
    server_version = 'ndnote'
    sys_version = ''
    timeout = 60
    server: 'Server'

    def log_message(self, *_: object) -> None:
        pass

    def answer(self, status: int, data: bytes = b'', kind: str = 'text/plain; charset=utf-8', **headers: str) -> None:
        self.send_response(status)
        for name, value in {
                'Content-Type': kind, 'Content-Length': str(len(data)), 'Cache-Control': 'no-store',
                'X-Content-Type-Options': 'nosniff', 'Referrer-Policy': 'no-referrer', 'X-Frame-Options': 'DENY',
                'Cross-Origin-Resource-Policy': 'same-origin', 'Cross-Origin-Opener-Policy': 'same-origin',
                **headers}.items():
            self.send_header(name.replace('_', '-'), value)
        self.end_headers()
        self.wfile.write(data)

    def refuse(self, status: int, why: bytes = b'') -> None:
        self.close_connection = True
        self.answer(status, why)

    def admitted(self) -> Optional[str]:
        """The path behind the token, where the request comes from this machine's page and knows the token."""
        host, origin = self.headers.get('Host', ''), self.headers.get('Origin')
        names = [f'{name}:{self.server.server_port}' for name in ('127.0.0.1', 'localhost')]
        is_own = self.headers.get('Sec-Fetch-Site') in (None, 'none', 'same-origin')
        if host not in names or origin not in (None, 'http://' + host) or not is_own:
            self.refuse(HTTPStatus.FORBIDDEN, b'Not from here.\n')
            return None
        token, _, rest = self.path[1:].partition('/')
        if self.server.take_ticket(token):
            self.answer(HTTPStatus.SEE_OTHER, Location=f'/{self.server.token}/')
            return None
        if not hmac.compare_digest(token.encode(), self.server.token.encode()):
            self.refuse(HTTPStatus.NOT_FOUND, b'Open the address that `ndnote live` printed.\n')
            return None
        return rest

    def do_GET(self) -> None:
        rest = self.admitted()
        if rest is None:
            return
        desk = self.server.desk
        if not self.path.endswith('/') and rest == '':      # what the page asks for lies behind the sign
            self.answer(HTTPStatus.SEE_OTHER, Location=f'/{self.server.token}/')
        elif rest == '':
            with desk.session.news:
                html, rule = page.page(desk.session, is_live=True)
            self.answer(HTTPStatus.OK, html.encode('utf-8', 'replace'), 'text/html; charset=utf-8',
                        Content_Security_Policy=rule + "; frame-ancestors 'none'")
        elif match := re.fullmatch(r'events\?rev=(\d{1,15})', rest):
            last = self.headers.get('Last-Event-ID', '')
            self.events(desk, int(last if re.fullmatch(r'[0-9]{1,15}', last) else match.group(1)))
        elif match := re.fullmatch(r'saved/([0-9]{1,9})/([A-Za-z0-9_.-]{1,64})', rest):
            self.saved(desk, int(match.group(1)), match.group(2))
        else:
            self.answer(HTTPStatus.NOT_FOUND)

    def events(self, desk: Desk, rev: int) -> None:
        """Server-sent events until the browser has gone: what changes together travels together."""
        self.send_response(HTTPStatus.OK)
        for header in (('Content-Type', 'text/event-stream'), ('Cache-Control', 'no-store'), ('Connection', 'close')):
            self.send_header(*header)
        self.end_headers()
        self.close_connection = True
        session, is_first = desk.session, True
        try:
            while desk.is_open:
                with session.news:
                    is_news = is_first or session.news.wait_for(lambda: session.rev != rev, 15)
                    began = time.thread_time()
                    news = desk.since(rev if rev <= session.rev else -1, is_first) if is_news else None
                    rev, is_first = session.rev, False
                data = json.dumps(news).encode()
                self.wfile.write(b'id: %d\ndata: %s\n\n' % (rev, data) if news else b': still here\n\n')
                self.wfile.flush()
                time.sleep(min(0.5, 4 * (time.thread_time() - began)))
        except OSError:
            pass                                # the browser has gone

    def saved(self, desk: Desk, number: int, name: str) -> None:
        shown = desk.session.with_id(number)
        has_file = shown and shown.result and name in shown.result.saves
        data = desk.saved(shown, name) if has_file else None
        if data is None:
            self.answer(HTTPStatus.NOT_FOUND)
        else:
            self.answer(HTTPStatus.OK, data, 'application/octet-stream')

    def body(self) -> Optional[Any]:
        """The JSON of a POST that only a page of this server can send, or None."""
        length = self.headers.get('Content-Length', '')
        is_own = self.headers.get('Content-Type') == 'application/json' and self.headers.get('Origin')
        if not is_own or not re.fullmatch('[0-9]{1,9}', length) or int(length) > LARGEST:
            return None
        return json.loads(self.rfile.read(int(length)).decode('utf-8', 'replace'))

    def do_POST(self) -> None:
        rest = self.admitted()
        if rest is None:
            return
        try:
            body = self.body() if rest == 'do' else None
            if body is None:
                return self.refuse(HTTPStatus.BAD_REQUEST)
            self.server.desk.change(**body)
            self.answer(HTTPStatus.NO_CONTENT)
        except Conflict as conflict:
            self.answer(HTTPStatus.CONFLICT, str(conflict).encode())
        except UnicodeDecodeError as error:
            self.answer(HTTPStatus.INTERNAL_SERVER_ERROR, f'The book is no text any more: {error}'.encode())
        except ConnectionError:
            raise
        except OSError as error:
            self.answer(HTTPStatus.INTERNAL_SERVER_ERROR, f'The book was not saved: {error.strerror or error}'.encode())
        except (TypeError, ValueError, AttributeError, KeyError, OverflowError, RecursionError):
            self.refuse(HTTPStatus.BAD_REQUEST)


class Server(ThreadingHTTPServer):
    """The book's server. Its address holds the token that lets a browser in."""
    daemon_threads = True
    request_queue_size = 64
    desk: Optional[Desk] = None

    def __init__(self, session: Session, port: int = 0) -> None:
        try:
            super().__init__(('127.0.0.1', port), Handler)
        except OSError as error:
            raise OSError(error.errno, error.strerror, f'port {port}') from None
        self.token = secrets.token_urlsafe(24)
        self.ticket = secrets.token_urlsafe(24)     # leads to the page once: others see the words that start a browser
        self.lock = threading.Lock()
        self.desk = Desk(session)
        self.url = f'http://127.0.0.1:{self.server_port}/{self.token}/'

    def take_ticket(self, word: str) -> bool:
        """Whether a word is the ticket, which is then used up."""
        with self.lock:
            if self.ticket and hmac.compare_digest(word.encode(), self.ticket.encode()):
                self.ticket = ''
                return True
            return False

    def handle_error(self, request: Any, client_address: Any) -> None:
        if not isinstance(sys.exc_info()[1], (ConnectionError, TimeoutError)):
            super().handle_error(request, client_address)

    def server_close(self) -> None:
        if self.desk:                           # else the port was refused
            self.desk.close()
        super().server_close()
