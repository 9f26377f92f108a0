"""The command line: ndnote run, ndnote page, ndnote live."""
from __future__ import annotations

import argparse
import errno
import os
import re
import signal
import sys
from pathlib import Path
from typing import Optional, Sequence

from . import book, files, page
from .excerpt import is_behind
from .faults import column, told, words
from .process import Died
from .session import TOO_LONG, Session, Shown, opened

FINE, REFUSED, WRONG, ENDED, INTERRUPTED = 0, 1, 2, 3, 130
BEGIN = b'# %%\nimport numpy as np\n'
CONTROLS = dict.fromkeys((*range(9), *range(11, 32), *range(127, 160)), '\ufffd')      # all but tabs and newlines


def size(text: str) -> int:
    unit = {'K': 10, 'M': 20, 'G': 30}.get(text[-1:].upper(), 0)
    digits = text[:-1] if unit else text
    if not re.fullmatch('[0-9]{1,18}', digits) or not 0 < int(digits) << unit < 1 << 63:
        raise argparse.ArgumentTypeError(f'{text}: a size is a number of bytes, or one of K, M or G, as 4G')
    return int(digits) << unit


def port(text: str) -> int:
    if not re.fullmatch('[0-9]{1,5}', text) or int(text) > 65535:
        raise argparse.ArgumentTypeError(f'{text}: a port is a number from 0, for a free one, to 65535')
    return int(text)


def assignment(word: str) -> tuple[str, str]:
    name, equal, path = word.partition('=')
    if not equal:
        raise argparse.ArgumentTypeError(f'{word}: an input is given as NAME=PATH')
    if not book.NAME.fullmatch(name):
        raise argparse.ArgumentTypeError(f'{word}: {words("BadInputName").wrong}')
    return name, path


def arguments(given: Optional[Sequence[str]]) -> argparse.Namespace:
    parser = argparse.ArgumentParser(
        prog='ndnote', description='Runs a book of NumPy cells, makes a page of it, or edits it in a browser.')
    commands = parser.add_subparsers(dest='command', required=True)
    for name, text in (('run', 'print what each cell prints'), ('page', 'write one HTML page'),
                       ('live', 'edit the book in a browser')):
        command = commands.add_parser(name, help=text, description=text)
        command.add_argument('book', type=Path, help='a .py file in percent format')
        command.add_argument('inputs', nargs='*', type=assignment, metavar='NAME=PATH', default=[],
                             help='a file for an input, in place of the one beside the book')
        command.add_argument('--memory', type=size, metavar='SIZE', help='a bound on the memory of the program, as 4G')
        if name == 'run':
            command.add_argument('--save', type=Path, metavar='DIR', help='write the saved files there')
            command.add_argument('--titles', action='store_true', help='print titles also where no terminal reads')
        elif name == 'page':
            command.add_argument('-o', '--output', type=Path, metavar='PAGE', help='the page (BOOK.html)')
        else:
            command.add_argument('--port', type=port, default=0, help='the port of the page (a free one)')
            command.add_argument('--no-browser', action='store_true', help='print the address, and open nothing')
    return parser.parse_args(given)


def cause(error: OSError) -> str:
    """What failed, without the number of the error."""
    return f'{error.filename}: {error.strerror}' if error.filename and error.strerror else str(error)


def printable(text: str) -> str:
    """A text of a book that gives a terminal no command."""
    return text.translate(CONTROLS)


def told_refusal(session: Session, shown: Shown) -> str:
    """A refusal, for people: place, sentence, line, operands, and what helps."""
    line, fault = shown.result.refusal
    text = (shown.cell.source.split('\n') + [''] * line)[line - 1]
    at, said = column(fault, text), told(fault, text)
    place = f'{session.path}:{shown.line + line - 1}' + ('' if at is None else f':{at + 1}')
    lines = [f'{place}: {said.wrong} ({fault})', f'    {text}'] + ([] if at is None else [f'    {" " * at}^'])
    lines += [f'    {part.text} is {part.words}' for part in shown.seen.operands]
    meant = f' Is `{shown.seen.alike}` meant?' if shown.seen.alike else ''
    return '\n'.join(lines + [f'    {said.help}{meant}', ''])


def told_ends(session: Session, shown: Shown) -> str:
    """What is said of a text that is too long, whose ends stand in its place."""
    line = shown.result.refusal.line
    place = f'{session.path}:{shown.line + line - 1}'
    lines = [f'{place}: what is shown of this print is an excerpt, cut by ndnote: a cell prints at most a mebibyte '
             f'({TOO_LONG})']
    lines += [f'    {item.text} is {item.words}' for item in shown.seen.excerpts]
    if not is_excerpt(shown):
        lines.append('    The lines of the cell behind it did not run: put them into a cell of their own.')
    return '\n'.join(lines + [''])


def is_excerpt(shown: Shown) -> bool:
    """Whether nothing is wrong with a cell but that the text of its last statement is too long, and its ends are shown."""
    return bool(shown.seen.excerpts) and not is_behind(shown.cell.source, shown.result.refusal)


def is_fine(session: Session) -> bool:
    return not session.problems and not any(
        shown.note or shown.result and shown.result.refusal and not is_excerpt(shown) for shown in session.codes())


def tell_cell(session: Session, shown: Shown, has_titles: bool) -> None:
    dim, plain = ('\x1b[2m', '\x1b[0m') if sys.stdout.isatty() else ('', '')
    if has_titles and shown.cell.title:
        print(f'{dim}── {printable(shown.cell.title)} {"─" * max(3, 60 - len(shown.cell.title))}{plain}')
    if shown.result and shown.result.refusal:
        session.look(shown)
    if shown.result:
        sys.stdout.write(shown.result.text)
        sys.stdout.writelines(f'{item.lines}\n' for item in shown.seen.excerpts)
    sys.stdout.flush()
    if shown.note:
        print(f'{session.path}:{shown.line}: {shown.note}', file=sys.stderr)
    if shown.result and shown.result.refusal:
        sys.stderr.write(printable((told_ends if shown.seen.excerpts else told_refusal)(session, shown)))


def run(session: Session, options: argparse.Namespace) -> None:
    session.sync()
    loaded = {name for shown in session.codes() for name, _ in book.inputs(shown.cell.source)}
    for problem in session.problems.values():
        print(f'ndnote: {problem}', file=sys.stderr)
    for name in session.given:
        if name not in loaded:
            print(f'ndnote: no cell loads {name}; the book loads {", ".join(sorted(loaded)) or "nothing"}', file=sys.stderr)
    for shown in session.codes():
        tell_cell(session, shown, options.titles or sys.stdout.isatty())
    if options.save:
        for name in session.saves(options.save):
            also = ' (the book also reads a file of this name: it saw the one of before)' if name in loaded else ''
            print(f'saved {options.save / name}{also}', file=sys.stderr)


def make_page(session: Session, options: argparse.Namespace) -> None:
    path = options.output or options.book.with_suffix('.html')
    if os.path.realpath(path) == os.path.realpath(options.book):
        raise FileExistsError(errno.EEXIST, 'the page would replace the book: name another file by -o', str(path))
    session.sync()
    for shown in session.codes():
        session.look(shown)
    files.replace_file(path, page.page(session)[0].encode())
    print(path)


def live(session: Session, options: argparse.Namespace) -> None:
    import webbrowser
    from . import server
    with server.Server(session, options.port) as served:
        signal.signal(signal.SIGTERM, lambda *_: sys.exit(FINE))
        print(served.url, flush=True)
        if not options.no_browser:
            webbrowser.open(served.url.replace(served.token + '/', served.ticket))
        try:
            served.serve_forever()
        except KeyboardInterrupt:
            print()


def main(given: Optional[Sequence[str]] = None) -> int:
    options = arguments(given)
    try:
        if options.command == 'live' and not options.book.exists():
            files.replace_file(options.book, BEGIN)
        session = opened(options.book, inputs=options.inputs, memory=options.memory)
    except UnicodeDecodeError:
        print(f'ndnote: {options.book}: a book is UTF-8 text', file=sys.stderr)
        return WRONG
    except OSError as error:
        print(f'ndnote: {cause(error)}', file=sys.stderr)
        return WRONG
    try:
        {'run': run, 'page': make_page, 'live': live}[options.command](session, options)
        return FINE if options.command == 'live' or is_fine(session) else REFUSED
    except BrokenPipeError:
        os.dup2(os.open(os.devnull, os.O_WRONLY), sys.stdout.fileno())
        return REFUSED
    except Died as died:
        bound = '; the bound by --memory may be too low for it' if options.memory else ''
        print(f'ndnote: the program {died}{bound}', file=sys.stderr)
        return ENDED
    except KeyboardInterrupt:
        return INTERRUPTED
    except OSError as error:                    # a page or a saved file cannot be written, or the port is taken
        print(f'ndnote: {cause(error)}', file=sys.stderr)
        return WRONG
    finally:
        session.close()


if __name__ == '__main__':
    sys.stdout.reconfigure(errors='backslashreplace')
    sys.exit(main())
