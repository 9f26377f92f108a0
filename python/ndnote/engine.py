"""`Notebook`: one process of the proved program, spoken to by the commands of its scripts. It knows of no books."""
from __future__ import annotations

import errno
import os
import re
import tempfile
from functools import cached_property
from operator import index as whole
from pathlib import Path
from typing import Any, Callable, Iterable, NamedTuple, Optional, Sequence, Union

from .files import PathLike, replace_file
from .process import Process
from .reads import Reads, count_of
from .values import Known, Layout, Type, Value

Part = Union[int, slice]
# ('insert', at, source), ('edit', at, source), ('move', origin, to), ('remove', at): an edit of cells.
Edit = tuple
# What the program calls the errors of the system.
CAUSES = {'NotFound': errno.ENOENT, 'PermissionDenied': errno.EACCES, 'AlreadyExists': errno.EEXIST,
          'NotADirectory': errno.ENOTDIR, 'IsADirectory': errno.EISDIR, 'ReadOnlyFilesystem': errno.EROFS,
          'StorageFull': errno.ENOSPC, 'InvalidFilename': errno.ENAMETOOLONG}
LARGE = 1 << 16         # bytes of an input that are handed over in a file, where the program reads files


class Refused(Exception):
    """An edit or a question that the notebook refused, in its words: 'NoCell 3 3'. Nothing has changed."""


class RefusedAmong(Refused):
    """Several edits that are one, of which the edit `at` was refused, counted from 0."""

    def __init__(self, at: int, why: str) -> None:
        super().__init__(why)
        self.at = at


class Refusal(NamedTuple):
    """Why a cell stopped, and on which of its lines, counted from 1."""
    line: int
    fault: str          # 'Index.OutOfBounds 0 5 3'


class Result(NamedTuple):
    """What a cell printed, why it stopped if it did, and its saved files with their lengths."""
    text: str
    refusal: Optional[Refusal]
    saves: dict[str, int]


class Trial(NamedTuple):
    """What a cell would print, why it would stop if it would, and its saved files."""
    text: str
    refusal: Optional[Refusal]
    files: dict[str, bytes]


def script_source(source: str) -> bytes:
    """The lines of a source as a script takes them: a line '.' would end it, and ' .' means the same to the grammar."""
    lines = source.encode('utf-8', 'replace').split(b'\n')
    return b'\n'.join(b' .' if line == b'.' else line for line in lines)


def list_word(numbers: Sequence[int]) -> str:
    """A list of numbers as one word of a script."""
    return ','.join(map(str, numbers)) or '()'


def asked(name: str, refusal: str) -> bytes:
    """A name as one word of a script. What would be more words, or more lines, has no such name."""
    if not re.fullmatch(r'\S+', name):
        raise Refused(refusal)
    return name.encode('utf-8', 'replace')


def index_word(index: Union[Part, Sequence[Part]]) -> str:
    """An index of whole numbers and slices as one word of a script: '0,1:5,::2'."""
    def limit(number: Any) -> str:
        return '' if number is None else str(whole(number))
    words = []
    for part in index if isinstance(index, tuple) else (index,):
        if isinstance(part, slice):
            step = '' if part.step is None else ':' + limit(part.step)
            words.append(f'{limit(part.start)}:{limit(part.stop)}{step}')
        elif isinstance(part, bool):
            raise TypeError('an index of whole numbers and slices has no Booleans')
        else:
            words.append(str(whole(part)))
    if not words:
        raise TypeError('an index has a part at least')
    return ','.join(words)


def layout_words(layout: Layout) -> str:
    """A layout as the words of a script."""
    if re.search(r'\s', layout.format):
        raise ValueError(f'{layout.format}: a format with spaces is not taken')
    return (f'{layout.format} {layout.itemsize} {list_word(layout.shape)} {list_word(layout.strides)} '
            f'{layout.offset}')


def line_of(edit: Edit) -> bytes:
    """An edit of cells as a command of a script."""
    word, at, *rest = edit
    if word in ('insert', 'edit'):
        return b'%s %d\n%b\n.\n' % (word.encode(), at, script_source(rest[0]))
    return ' '.join([word, str(at), *map(str, rest)]).encode() + b'\n'


class Notebook(Process):
    """A notebook of the program, edited and asked by the commands of its scripts. Cells are counted from 0."""

    def __init__(self, path: Optional[str] = None, memory: Optional[int] = None, progress: bool = False) -> None:
        super().__init__(path, memory, progress)
        self.count = 0

    def __enter__(self) -> 'Notebook':
        return self

    def __exit__(self, *_: object) -> None:
        self.close()

    def _ask(self, *parts: bytes) -> str:
        self._write(parts)
        line = self._line()
        if line.startswith('refused ') or line == 'bad command':
            raise Refused(line.removeprefix('refused '))
        return line

    def _ask_of_file(self, path: PathLike, *parts: bytes) -> None:
        """Asks for what is done with a file. Where that fails an OSError tells why, as of a file of one's own."""
        try:
            self._ask(*parts)
        except Refused as refused:
            word, _, cause = str(refused).partition(' ')
            if word not in ('Unread', 'Unwritten'):
                raise
            number = CAUSES.get(cause, errno.EIO)
            raise OSError(number, os.strerror(number), str(path)) from None

    @cached_property
    def words(self) -> frozenset[str]:
        """The words that this program has beside those of its first scripts; asked for once."""
        try:
            return frozenset(self._ask(b'words\n').split(' ')[1:])
        except Refused:
            return frozenset()

    def said(self, word: str, path: PathLike) -> Optional[bytes]:
        """A path in a line with a word; None where the program has no such word, or no line can have the path."""
        text = str(Path(path).absolute())
        if word not in self.words or re.search(r'[\s\0]' if word == 'raw' else r'[\n\0]', text):
            return None
        try:
            return text.encode('utf-8')
        except UnicodeEncodeError:
            return None

    # Edits.

    def apply(self, edits: Sequence[Edit]) -> None:
        """Does edits of cells; several are one edit, of which all is done or nothing. RefusedAmong tells which of them
        was refused. A program without the word `begin` refuses several."""
        lines = [line_of(edit) for edit in edits]
        if len(lines) > 1:
            self._ask_together(lines)
        elif lines:
            self._ask(*lines)
        words = [edit[0] for edit in edits]
        self.count += words.count('insert') - words.count('remove')

    def _ask_together(self, lines: Sequence[bytes]) -> None:
        if 'begin' not in self.words:
            raise Refused('bad command')
        try:
            self._ask(b'begin\n', *lines, b'end\n')
        except Refused as refused:
            if match := re.fullmatch(r'([0-9]+) (.*)', str(refused)):
                raise RefusedAmong(int(match.group(1)), match.group(2)) from None
            raise

    def insert(self, at: int, source: str) -> None:
        self.apply([('insert', at, source)])

    def edit(self, at: int, source: str) -> None:
        self.apply([('edit', at, source)])

    def move(self, origin: int, to: int) -> None:
        self.apply([('move', origin, to)])

    def remove(self, at: int) -> None:
        self.apply([('remove', at)])

    def input(self, name: str, data: Any, layout: Optional[Layout] = None) -> None:
        """Sets an input. With a layout the bytes are a buffer's memory, or those of the file that a path names. Else
        bytes are those of an NPY file, a path names one, and any object with a buffer (PEP 3118) is handed over as a
        buffer in C order. The program reads files itself if it can."""
        word = asked(name, 'BadInputName')
        if isinstance(data, (str, os.PathLike)):
            if self._input_at(word, data, layout):
                return
            data = Path(data).read_bytes()
        elif not layout and not isinstance(data, (bytes, bytearray)):
            view = memoryview(data)
            layout, data = Layout.of_view(view), view.tobytes('C')
        words = ' buffer ' + layout_words(layout) if layout else ' npy'
        if memoryview(data).nbytes < LARGE or not self._input_by_file(word, data, layout):
            self._ask(b'input ', word, words.encode(), b' ', data.hex().encode() or b'-', b'\n')

    def _input_at(self, word: bytes, path: PathLike, layout: Optional[Layout]) -> bool:
        """Lets the program read the file of an input; tells whether it could be told to."""
        kind = 'raw' if layout else 'file'
        said = self.said(kind, path)
        if not said:
            return False
        words = b' ' + layout_words(layout).encode() if layout else b''
        self._ask_of_file(path, b'input %b %b %b%b\n' % (word, kind.encode(), said, words))
        return True

    def _input_by_file(self, word: bytes, data: Any, layout: Optional[Layout]) -> bool:
        """Hands over bytes in a file of their own; tells whether that could be done."""
        if ('raw' if layout else 'file') not in self.words:
            return False
        try:
            with tempfile.NamedTemporaryFile(prefix='ndnote-') as file:
                file.write(data)
                file.flush()
                return self._input_at(word, file.name, layout)
        except OSError:                         # no room, or the program may not read there
            return False

    def drop(self, name: str) -> None:
        self._ask(b'drop %s\n' % asked(name, f'NoInputNamed {name}'))

    # Questions.

    def _shown(self, of_file: Callable[[int], Any]) -> tuple[str, Optional[Refusal], dict[str, Any]]:
        """What a cell shows: its text, its refusal, and what is made of the length of each saved file."""
        line = self._line()
        if not line.startswith('text '):
            raise Refused(line.removeprefix('refused '))
        text, refusal, files = self._bytes(int(line[5:])).decode(), None, {}
        while (line := self._line()) != 'end':
            word, *rest = line.split(' ', 2)
            if word == 'refused':
                refusal = Refusal(int(rest[0]), rest[1])
            elif word == 'save':
                files[rest[0]] = of_file(int(rest[1]))
        return text, refusal, files

    def _result(self) -> Result:
        return Result(*self._shown(int))

    def _file(self, length: int) -> bytes:
        """The bytes of a file that stand in an answer."""
        return self._bytes(length + 1)[:-1]

    def show(self, at: int) -> Result:
        return self.show_all([at])[0]

    def show_all(self, places: Iterable[int]) -> list[Result]:
        return self._ask_all((b'show %d\n' % at for at in places), self._result)

    def source(self, at: int) -> str:
        text = self._bytes(int(self._ask(b'source %d\n' % at)[7:])).decode()
        self._bytes(1)
        return text

    def names(self, at: int) -> list[str]:
        return [self._line() for _ in range(int(self._ask(b'names %d\n' % at)[6:]))]

    def value(self, at: int, name: str) -> Value:
        return Value.of_answer(self._ask(b'value %d %s\n' % (at, asked(name, f'NoName {name}'))))

    def part(self, at: int, name: str, index: Union[Part, Sequence[Part]]) -> Value:
        """The elements of an array that an index of whole numbers and slices chooses; no others are sent. A program
        without the word is asked by a cell that is tried."""
        word = index_word(index)
        if 'part' not in self.words:
            return self._part_tried(at, name, word)
        return Value.of_answer(self._ask(b'part %d %s %s\n' % (at, asked(name, f'NoName {name}'), word.encode())))

    def _part_tried(self, at: int, name: str, word: str) -> Value:
        if name not in self.names(at):
            raise Refused(f'NoName {name}')
        trial = self.try_cell(at + 1, f"np.save('part', {name}[{word}])")
        if trial.refusal:
            raise Refused(trial.refusal.fault)
        part = Value.of_npy(trial.files['part'])
        if part.shape:
            return part
        if part.type.is_structure:
            return part._replace(kind='row')
        return Value('scalar', Type.of_kind(part.type.native), number=part.elements()[0])

    def ran(self) -> Optional[list[int]]:
        """The places of the cells that ran in the last edit that was done; None where the program does not tell."""
        if 'ran' not in self.words:
            return None
        return [int(word) for word in self._ask(b'ran\n').split(' ')[2:]]

    def reads(self, at: int) -> Optional[Reads]:
        """What a cell read, and the cells in front of it from which it has that; None where the program does not tell.
        A ValueError tells an answer that is none."""
        if 'reads' not in self.words:
            return None
        first = self._ask(b'reads %d\n' % at)
        lines = [self._line() for _ in range(count_of(first))]     # all of them, so that the next answer is the next
        reads = Reads.of_lines(lines)
        if any(place >= at for place in reads.places()):
            raise ValueError(f'cell {at} read from one that does not stand in front: {lines}')
        return reads

    def type(self, at: int, name: str) -> Known:
        """What a name is bound to, without elements. A program without the word tells it with all of them."""
        if 'type' not in self.words:
            return self.value(at, name).known
        return Known.of_answer(self._ask(b'type %d %s\n' % (at, asked(name, f'NoName {name}'))))

    def try_cell(self, at: int, source: str) -> Trial:
        """What a cell would give if it were inserted; the notebook stays as it is. A program without the word is given
        the cell, which is then taken out again."""
        if 'try' in self.words:
            self._write((b'try %d\n' % at, script_source(source), b'\n.\n'))
            return Trial(*self._shown(self._file))
        self.insert(at, source)
        try:
            result = self.show(at)
            return Trial(result.text, result.refusal, {name: self.saved(at, name) for name in result.saves})
        finally:
            if not self.is_over():
                self.remove(at)

    def saved(self, at: int, name: str) -> bytes:
        answer = self._ask(b'saved %d %s\n' % (at, asked(name, f'NoSave {name}')))
        return bytes.fromhex(answer.removeprefix('saved ').replace('-', ''))

    def save(self, at: int, name: str, path: PathLike) -> None:
        """Writes a saved file to a path, in one step. A file that is there keeps its mode, and a link stays one."""
        word, target = asked(name, f'NoSave {name}'), Path(os.path.realpath(path))
        said, mode = self.said('save', target), target.stat().st_mode & 0o777 if target.exists() else None
        is_secret = mode is not None and mode & 0o444 != 0o444      # the program's new file may be read by all
        if not said or is_secret:
            replace_file(path, self.saved(at, name))
            return
        self._ask_of_file(path, b'save %d %s ' % (at, word), said, b'\n')
        if mode is not None:
            os.chmod(target, mode)

    def __getitem__(self, name: str) -> Value:
        """The value of a name after the last cell."""
        if not self.count:
            raise KeyError(name)
        try:
            return self.value(self.count - 1, name)
        except Refused as refused:
            if str(refused).startswith('NoName'):
                raise KeyError(name) from refused
            raise

    def __len__(self) -> int:
        return self.count
