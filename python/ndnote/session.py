"""A book that is kept in one notebook of the program. After each change of the book or of a file that it reads, only
what changed is sent, and it is noted which cells show something else. A process that ends is started again."""
from __future__ import annotations

import collections
import itertools
import threading
import time
from pathlib import Path
from typing import Any, Iterable, NamedTuple, Optional, Sequence

from . import book, files, pictures
from .edits import CellEdit, edits_to, first_place
from .engine import Refused, RefusedAmong, Result
from .excerpt import Excerpt, excerpts
from .explain import Operand, alike, operands
from .faults import words
from .inputs import Look, handed_over, look_at
from .process import Died
from .reads import Links
from .sender import Doing, Sender

HELD = '# not run'      # stands in the program for a cell that ended it, until it is edited
STOPPED = 'Stopped: it runs again when it is edited or run'
GRACE = 1.0             # seconds that a cell has to be stopped without the process
TOO_LONG = 'Stmt.TextTooLong'
TRIES = 3               # of several edits as one, each without what was refused of the one before


class Seen(NamedTuple):
    """What is found out about a cell beside its texts, refusal and files."""
    figures: tuple[pictures.Figure, ...] = ()
    operands: tuple[Operand, ...] = ()      # of the statement that was refused
    alike: str = ''                         # a bound name, spelled like the one that is missing
    excerpts: tuple[Excerpt, ...] = ()      # of texts that are too long


class Shown:
    """A cell of the book and what is shown of it."""

    def __init__(self, number: int, cell: book.Cell) -> None:
        self.id = number
        self.cell = cell
        self.line = 1               # of the book, on which its source begins
        self.result: Optional[Result] = None
        self.seen = Seen()
        self.note = ''              # why the program does not have it as it stands
        self.is_old = True          # what is seen of it may be another by now
        self.rev = 0                # when anything of it was another last
        self.out_rev = 0            # when its texts, files or pictures were
        self.flash_rev = 0          # when it ran last, or where that is not told, when its output was another
        self.links: Optional[Links] = None      # what it reads from, where that is known
        self.links_rev = 0          # when that was another


class Session(Sender):
    """`news` guards what is shown. Only one thread brings the program to the book; any may change the book and look."""

    def __init__(self, path: files.PathLike, inputs: Iterable[tuple[str, str]] = (),
                 memory: Optional[int] = None) -> None:
        super().__init__(memory)
        self.path = Path(path)
        self.given = dict(inputs)   # names to paths that the command line gives
        self.news = threading.Condition(threading.RLock())
        self.ids = itertools.count()
        self.shown: list[Shown] = []
        self.rev = 0
        self.problems: dict[str, str] = {}  # inputs to why the program does not have their files as they are
        self.blame: collections.Counter = collections.Counter()     # what was sent, to how often it ended the process
        self.deaths = 0             # in a row
        self.last_death = ''        # how the process ended, until that is told
        self.is_stopping = False
        self.stopped: Optional[int] = None      # the cell that ran when it was to be stopped

    def touch(self, shown: Optional[Shown] = None, is_out: bool = True, has_run: bool = False) -> None:
        with self.news:
            self.rev += 1
            if shown:
                shown.rev = self.rev
                shown.out_rev = self.rev if is_out else shown.out_rev
                is_flash = has_run or is_out and not self.tells_runs
                shown.flash_rev = self.rev if is_flash else shown.flash_rev
            self.news.notify_all()

    def set_links(self, shown: Shown, links: Optional[Links]) -> None:
        """Tells what a cell reads from; None where that is not known, or not any more."""
        if shown.links != links:
            with self.news:
                self.touch()
                shown.links, shown.links_rev = links, self.rev

    # The book.

    def set_cells(self, cells: list[book.Cell]) -> None:
        """Takes over the cells of a file. What was a cell stays the same cell, also where it was moved or edited."""
        def key(cell: book.Cell) -> tuple[bool, str]:
            return cell.is_text, cell.source
        with self.news:
            for word, at, *rest in book.changes([key(shown.cell) for shown in self.shown], list(map(key, cells))):
                if word == 'remove':
                    del self.shown[at]
                elif word == 'move':
                    self.shown.insert(rest[0], self.shown.pop(at))
                elif word == 'insert':
                    self.shown.insert(at, Shown(next(self.ids), cells[at]))
            for shown, cell, line in zip(self.shown, cells, book.first_lines(cells)):
                self.set_cell(shown, cell, line)
            self.touch()

    def set_cell(self, shown: Shown, cell: book.Cell, line: int) -> None:
        is_refused = bool(shown.result and shown.result.refusal)
        if shown.cell == cell and shown.rev and not (is_refused and shown.line != line):
            shown.line = line
            return
        if cell.is_text:
            shown.result, shown.seen, shown.note = None, Seen(), ''
            self.set_links(shown, None)
        shown.cell, shown.line = cell, line
        self.blame.pop((shown.id, None), None)
        self.touch(shown, is_out=cell.is_text)

    def codes(self) -> list[Shown]:
        return [shown for shown in self.shown if not shown.cell.is_text]

    def with_id(self, number: Any) -> Optional[Shown]:
        return next((shown for shown in self.shown if shown.id == number), None)

    def wanted(self, shown: Shown) -> str:
        """The source that the program is to have of a cell."""
        is_held = self.blame[shown.id, shown.cell.source] > 1
        return self.sent.get(shown.id, HELD) if is_held else shown.cell.source

    def is_pending(self, shown: Shown) -> bool:
        return not shown.cell.is_text and not shown.note and self.sent.get(shown.id) != self.wanted(shown)

    # What the program is told: inputs.

    def input_path(self, name: str) -> Path:
        return Path(self.given.get(name, self.path.parent / name))

    def stamps(self) -> dict[str, Look]:
        """The inputs that the book wants, and how their files look from outside."""
        with self.news:
            sources = [self.wanted(shown) for shown in self.codes()]
        found: dict[str, Look] = {}
        for name, is_buffer in (pair for source in sources for pair in book.inputs(source)):
            if name not in found:
                found[name] = look_at(self.input_path(name), is_buffer)
        return found

    def sync_input(self, name: str, look: Look) -> bool:
        """Sets or drops one input; tells whether it is another now."""
        self.current = Doing(name, look)
        if self.blame[name, look] > 1:
            raise OSError('the program was stopped, or ended twice, when it was given this file')
        given = handed_over(self.notebook, self.input_path(name), look) if look.file else None
        mark = given and given.mark
        is_other = self.inputs.get(name, (None, None))[1] != mark
        if is_other and given:
            self.notebook.input(name, given.data, given.layout)
        elif is_other:
            self.notebook.drop(name)
        if is_other:
            self.note_runs()
        self.inputs[name] = look, mark
        return is_other

    def sync_inputs(self) -> bool:
        """Sets, replaces and drops inputs, as their files are now; tells whether any is another."""
        is_other, wanted = False, self.stamps()
        for name, told in wanted.items():
            if name in self.inputs and self.inputs[name][0] == told:
                continue
            self.problems.pop(name, None)
            try:
                is_other |= self.sync_input(name, told)
            except OSError as error:
                self.problems[name] = f'{name} is not taken: {error}'
            except Refused as refused:
                why = 'stopped' if self.has_stopped() else words(str(refused)).wrong
                self.problems[name] = f'{name} is not taken: {why}'
                self.inputs[name] = told, self.inputs.get(name, (None, None))[1]
            self.has_stopped()
        self.current = None
        for name in set(self.inputs) - set(wanted):
            if self.inputs[name][1]:
                self.notebook.drop(name)
                self.note_runs()
            del self.inputs[name]
        self.problems = {name: text for name, text in self.problems.items() if name in wanted}
        return is_other

    # What the program is told: cells.

    def wanted_cells(self) -> list[tuple[Shown, str]]:
        """The cells that the program is to have, and their sources."""
        with self.news:
            return [(shown, self.wanted(shown)) for shown in self.codes()]

    def sync_cells(self) -> int:
        """Removes, moves, edits and inserts cells; gives the place of the first that is another, or their count."""
        first = self.sync_together()
        wanted = self.wanted_cells()
        numbers = {shown.id for shown, _ in wanted}
        for at, number in reversed(list(enumerate(self.order))):
            if number not in numbers:
                self.send(Doing(number, None, [CellEdit(number, ('remove', at))]))
                first = min(first, at)
        at = 0
        for shown, source in wanted:
            here = self.order[at] if at < len(self.order) else None
            if here != shown.id or self.sent[here] != source:
                if not self.sync_cell(shown, source, at):
                    continue
                first = min(first, at)
            elif source == shown.cell.source and self.take_note(shown, source):     # it was refused another text
                self.touch(shown)
            at += 1
        self.current = None
        return min(first, len(self.order))

    def sync_together(self) -> int:
        """Has several edits done as one, where the program can: each stale cell then runs once. What is refused is left
        to single edits. Gives the first place that is another, or the count."""
        has_word = bool(self.order) and 'begin' in self.notebook.words
        left: set[int] = set()
        for _ in range(TRIES if has_word else 0):
            wanted = [(shown.id, self.sent.get(shown.id) if shown.id in left else source)
                      for shown, source in self.wanted_cells()]
            wanted = [(number, source) for number, source in wanted if source is not None]
            edits = edits_to(wanted, self.order, self.sent)
            if len(edits) < 2:
                break
            try:
                self.send(Doing(None, tuple(edits), edits))
                self.has_stopped()              # they had ended before they could be stopped
                self.tell_sent(edits)
                return first_place(edits)
            except Refused as refused:
                running = self.running()
                if self.has_stopped():
                    self.hold_back(edits, self.stopped if running is None else running)
                elif isinstance(refused, RefusedAmong):
                    left.add(edits[refused.at].number)
                else:                           # for want of memory: fewer may be done with it
                    break
        return len(self.order)

    def tell_sent(self, edits: Sequence[CellEdit]) -> None:
        """Tells what several edits have brought, but what the cells show."""
        by_id = {shown.id: shown for shown in list(self.shown)}
        for edit in edits:
            shown = by_id.get(edit.number)
            if shown and edit.source is not None:
                self.touch(shown, is_out=self.take_note(shown, edit.source))

    def take_note(self, shown: Shown, source: str) -> bool:
        """Takes away the note of a cell that the program has as it stands; tells whether there was one."""
        has_note = bool(shown.note) and source != HELD
        shown.note = '' if has_note else shown.note
        return has_note

    def hold_back(self, edits: Sequence[CellEdit], running: Optional[int]) -> None:
        """Holds back what stopped edits were to bring: the cell that ran, where it is one of them, else all."""
        brought = [edit for edit in edits if edit.source is not None]
        for edit in [edit for edit in brought if edit.number == running] or brought:
            self.blame[edit.number, edit.source] = 2
            if shown := self.with_id(edit.number):
                self.tell_refused(shown, STOPPED)

    def tell_refused(self, shown: Shown, why: str) -> None:
        """Tells why the program does not have a cell as it stands."""
        is_new = shown.id not in self.sent
        shown.note = f'{why[0].upper()}{why[1:]}.' + ('' if is_new else ' What is shown is of the text before.')
        shown.result = None if is_new else shown.result
        self.touch(shown)

    def sync_cell(self, shown: Shown, source: str, at: int) -> bool:
        """Brings one cell to its place and its source; tells whether the program has it there, in whatever text."""
        is_new = shown.id not in self.sent
        try:
            self.send_cell(shown, source, at)
            self.has_stopped()                  # it had ended before it could be stopped
            had_note = self.take_note(shown, source)
            if is_new:
                shown.result, shown.is_old = self.notebook.show(at), True
            self.touch(shown, is_out=is_new or had_note, has_run=is_new and shown.id in self.unasked)
            if is_new:
                self.unasked.discard(shown.id)
            return True
        except Refused as refused:
            why = words(str(refused)).wrong
            if self.has_stopped():
                self.blame[shown.id, source] = 2
                why = STOPPED
            self.tell_refused(shown, why)
            return not is_new

    def send_cell(self, shown: Shown, source: str, at: int) -> None:
        def send(*edit: Any) -> None:
            self.send(Doing(shown.id, source, [CellEdit(shown.id, edit)]))
        if shown.id not in self.sent:
            send('insert', at, source)
            return
        if self.order[at] != shown.id:
            send('move', self.order.index(shown.id, at), at)
        if self.sent[shown.id] != source:
            send('edit', at, source)

    def sync(self) -> int:
        """Brings the program to the book. Gives how many cells show other texts, refusals or files than before."""
        before = {shown.id: shown.result for shown in self.shown}
        self.ran.clear()
        while True:
            try:
                self.sync_once()
                self.deaths = self.blame[None, None] = 0
                break
            except Died as died:
                self.restart(died)
        self.touch()
        by_id = {shown.id: shown for shown in list(self.shown)}
        return sum(before.get(number) != by_id[number].result for number in self.order if number in by_id)

    def sync_once(self) -> None:
        """Sends what is another, and asks what the cells show that may show something else."""
        self.tells_runs = 'ran' in self.notebook.words
        is_other = self.sync_inputs()
        first = self.sync_cells()
        places: Sequence[int] = [at for at, number in enumerate(self.order) if number in self.unasked]
        if is_other:
            first = min([first, *places[:1]] if self.tells_runs else [0])
        by_id = {shown.id: shown for shown in list(self.shown)}
        shown_now = [by_id.get(number) for number in self.order]
        for shown in filter(None, shown_now[first:]):
            shown.is_old = True                 # a value may be another behind a cell that did not run
            self.set_links(shown, None)
        places = places if self.tells_runs else range(first, len(self.order))
        for at, result in zip(places, self.notebook.show_all(places)):
            if shown := shown_now[at]:
                self.tell_result(shown, result)
        self.unasked.clear()

    def tell_result(self, shown: Shown, result: Result) -> None:
        """Tells what a cell shows that may be another."""
        is_other = shown.result != result
        if is_other:
            shown.result = result
            shown.seen = shown.seen._replace(operands=(), alike='', excerpts=())
        if is_other or self.tells_runs:
            self.touch(shown, is_out=is_other, has_run=self.tells_runs)

    def named(self, number: int) -> str:
        """A cell in words: by its title, or by its line."""
        shown = self.with_id(number)
        if not shown:
            return 'a cell that is gone'
        return f'the cell “{shown.cell.title}”' if shown.cell.title else f'the cell of line {shown.line}'

    def restart(self, died: Died) -> None:
        """After an end of the process. What was stopped, or ended it twice, is not sent again until it is another.
        Raises what it is told where that does not help either."""
        number, what = self.culprit()
        told = died if self.running() is None else died.placed(self.named(number))
        self.last_death = '' if self.is_stopping else str(told)
        self.blame[number, what] += 2 if self.is_stopping else 1
        if isinstance(what, str):
            shown = self.with_id(number) or Shown(number, book.Cell('', ''))
            is_held = self.blame[number, what] > 1
            why = STOPPED + '.' if self.is_stopping else f'The program {died}, twice in this cell.'
            shown.note = why if is_held else ''
            shown.result, shown.seen = None, Seen()
            self.touch(shown)
        self.is_stopping = False
        self.close()
        time.sleep(min(5, 0.05 * 2 ** self.deaths) if self.deaths else 0)
        self.deaths += 1
        self.begin()
        if self.blame[number, what] > 3:
            raise told

    # Stopping a cell that runs.

    def stop(self) -> None:
        """Ends what runs, from any thread: by want of memory, which leaves the notebook as it was, or by its end."""
        notebook, current = self.notebook, self.current
        if current is None:
            return
        self.stopped = self.running()
        self.is_stopping = True
        if current.what is not None and notebook.starve():
            end = time.monotonic() + GRACE
            while time.monotonic() < end and self.is_stopping:
                time.sleep(0.02)
        if not self.is_stopping or self.notebook is not notebook:
            return
        if self.current and self.current[:2] == current[:2]:
            notebook.kill()
        else:                                   # it had ended before it was stopped
            self.has_stopped()

    def has_stopped(self) -> bool:
        """Whether an edit that is answered now was being stopped."""
        if self.is_stopping:
            self.notebook.feed()
            self.is_stopping = False
            return True
        return False

    def release(self, shown: Shown) -> None:
        """Lets a cell run again that was stopped or held back."""
        self.blame.pop((shown.id, shown.cell.source), None)
        shown.note = ''

    # What is shown beside texts.

    def look(self, shown: Shown, has_links: bool = False) -> None:
        """Finds what is seen of one cell beside its texts, between edits, and if that is wanted, what it reads from."""
        shown.is_old = False
        self.current, seen, links = Doing(shown.id, None), Seen(), None
        if self.sent.get(shown.id, HELD) != HELD and self.blame[shown.id, None] < 2:
            at = self.order.index(shown.id)
            try:
                links = self.find_links(at) if has_links else None
                seen = self.find(shown, at, self.sent[shown.id])
            except Refused:                     # for want of memory, or of room for a cell more
                pass
            if self.notebook.count != len(self.order):
                raise Died('could not forget a cell')
        self.current = None
        self.set_links(shown, links)
        if seen != shown.seen:
            shown.seen = seen
            self.touch(shown)

    def find_links(self, at: int) -> Optional[Links]:
        """What a cell reads from, where the program tells it and has the memory for it."""
        try:
            reads = self.notebook.reads(at)
        except Refused:
            return None
        return None if reads is None else Links.of_reads(reads, self.order)

    def find(self, shown: Shown, at: int, source: str) -> Seen:
        figures = pictures.figures(self.notebook, at, book.bound(source))
        refusal = shown.result.refusal if shown.result else None
        if not refusal:
            return Seen(tuple(figures))
        if refusal.fault == TOO_LONG:
            return Seen(tuple(figures), excerpts=tuple(excerpts(self.notebook, at, source, refusal)))
        return Seen(tuple(figures), tuple(operands(self.notebook, at, source, refusal)),
                    alike(self.notebook, at, refusal.fault))

    def saves(self, folder: files.PathLike) -> list[str]:
        """Writes the saved files of all cells, the last of each name; `.npy` is put behind a name as NumPy does."""
        last = {}
        for at, result in enumerate(self.notebook.show_all(range(len(self.order)))):
            for name in result.saves:
                last[name if name.endswith('.npy') else name + '.npy'] = at, name
        Path(folder).mkdir(parents=True, exist_ok=True)
        for file, (at, name) in last.items():
            self.notebook.save(at, name, Path(folder) / file)
        return list(last)


def opened(path: files.PathLike, **options: Any) -> Session:
    """A session of a book; the program does not have its cells yet."""
    session = Session(path, **options)
    session.set_cells(book.parse(book.read(path)))
    return session
