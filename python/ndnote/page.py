"""A book as HTML: one page that needs nothing else. What comes from cells, files and the program is escaped here."""
from __future__ import annotations

import base64
import hashlib
import re
from html import escape
from pathlib import Path

from .excerpt import is_behind
from .faults import column, told
from .pictures import Figure
from .session import TOO_LONG, Session, Shown

HERE = Path(__file__).parent
MOST_TEXT = 20_000      # characters of a text that are shown
MOST_LINE = 500         # of the line of a refusal


def asset(name: str) -> str:
    return (HERE / name).read_text('utf-8')


# Text cells: the part of Markdown that people use in notebooks.

def inline(text: str) -> str:
    """Code, bold, italic and links of one line."""
    pieces = re.split(r'(`[^`]+`)', escape(text))
    for at in range(0, len(pieces), 2):
        piece = re.sub(r'\[([^\]]+)\]\((https?://[^\s)]+)\)', r'<a href="\2" rel="noreferrer">\1</a>', pieces[at])
        piece = re.sub(r'\*\*(.+?)\*\*', r'<strong>\1</strong>', piece)
        pieces[at] = re.sub(r'(?<![\w*])[*_](\S(?:.*?\S)?)[*_](?![\w*])', r'<em>\1</em>', piece)
    return ''.join(piece if at % 2 == 0 else f'<code>{piece[1:-1]}</code>' for at, piece in enumerate(pieces))


class Lines:
    """The lines of a text, taken from the front."""

    def __init__(self, text: str) -> None:
        self.lines = text.split('\n')
        self.at = 0

    def is_left(self) -> bool:
        return self.at < len(self.lines)

    def take(self) -> str:
        self.at += 1
        return self.lines[self.at - 1]

    def take_all(self, pattern: str) -> list[str]:
        """The lines from here on that match."""
        begin = self.at
        while self.is_left() and re.match(pattern, self.lines[self.at]):
            self.at += 1
        return self.lines[begin:self.at]


def block(lines: Lines) -> str:
    """The next heading, list, code or paragraph."""
    line = lines.lines[lines.at]
    if match := re.match(r'(#{1,6})\s+(.*)', line):
        lines.take()
        level = len(match.group(1))
        return f'<h{level}>{inline(match.group(2))}</h{level}>'
    if line.startswith('```'):
        lines.take()
        code = '\n'.join(lines.take_all(r'(?!```)'))
        lines.at += 1
        return f'<pre>{escape(code)}</pre>'
    for pattern, tag in ((r'[-*] +', 'ul'), (r'\d+\. +', 'ol')):
        if items := lines.take_all(pattern):
            made = ''.join(f'<li>{inline(re.sub("^" + pattern, "", item))}</li>' for item in items)
            return f'<{tag}>{made}</{tag}>'
    if not line.strip():
        lines.take()
        return ''
    words = [lines.take()] + lines.take_all(r'(?!#{1,6}\s|```|[-*] |\d+\. )(?=.*\S)')
    return f'<p>{inline(" ".join(words))}</p>'


def markdown(text: str) -> str:
    lines, made = Lines(text), []
    while lines.is_left():
        made.append(block(lines))
    return ''.join(made)


# What a cell shows.

def preformatted(kind: str, html: str) -> str:
    """A text as it stands: HTML drops a newline that comes first, so one that may be dropped is put there."""
    return f'<pre class="{kind}">\n{html}</pre>'


def clipped(text: str) -> str:
    if len(text) <= MOST_TEXT:
        return escape(text)
    more = f'… {len(text) - MOST_TEXT:,} characters more, left out by ndnote'
    return f'{escape(text[:MOST_TEXT])}<small class="more">{more}</small>'


def refusal(shown: Shown, name: str) -> str:
    """Why a cell stopped: the sentence, its line, what the operands were, what helps, and the program's own words."""
    line, fault = shown.result.refusal
    source = (shown.cell.source.split('\n') + [''] * line)[line - 1]
    at, words = column(fault, source), told(fault, source)
    caret = '\n' + ' ' * at + '^' if at is not None and at < MOST_LINE else ''
    parts = ''.join(f'<li><code>{escape(part.text)}</code> is {escape(part.words)}</li>'
                    for part in shown.seen.operands)
    meant = f' Is <code>{escape(shown.seen.alike)}</code> meant?' if shown.seen.alike else ''
    return (f'<div class="refusal" data-line="{line}"><p>{inline(words.wrong)}</p>'
            f'<pre>{escape(source[:MOST_LINE])}{caret}</pre>' + (f'<ul>{parts}</ul>' if parts else '')
            + f'<p class="help">{inline(words.help)}{meant}</p>'
            f'<small>{escape(name)}:{shown.line + line - 1} · {escape(fault)}</small></div>')


def too_long(shown: Shown) -> str:
    """The ends of a text that the program would not make, and that they are no more."""
    behind = is_behind(shown.cell.source, shown.result.refusal)
    note = ('This text is longer than the mebibyte that a cell may print. ndnote shows its first and last rows.'
            + (' The lines of the cell behind it did not run.' if behind else ''))
    made = [f'<p class="note">{note}</p>']
    for item in shown.seen.excerpts:
        made.append(f'<pre class="text cut">{escape(item.lines)}</pre>'
                    f'<small class="cut">cut by ndnote · <b>{escape(item.text)}</b> {escape(item.words)}</small>')
    return ''.join(made)


def number(item: Figure) -> str:
    kind = ' · '.join(filter(None, (item.kind, item.shape)))
    return f'<span><b>{escape(item.name)}</b>{item.picture}{escape(kind)}</span>'


def figure(item: Figure) -> str:
    words = ' '.join(f'<span>{escape(word)}</span>' for word in (item.kind, item.shape) if word)
    note = f'<small>{escape(item.note)}</small>' if item.note else ''
    return f'<figure>{item.picture}<figcaption><b>{escape(item.name)}</b> {words}{note}</figcaption></figure>'


def saves(shown: Shown, is_live: bool) -> str:
    made = []
    for save, length in shown.result.saves.items():
        name = escape(save)
        file = f'<a href="saved/{shown.id}/{name}" download="{name}">{name}</a>' if is_live else f'<b>{name}</b>'
        made.append(f'<p class="save">{file} <span>{length:,} bytes</span></p>')
    return ''.join(made)


def output(shown: Shown, name: str, is_live: bool = False) -> str:
    """Everything below the source of a cell."""
    if shown.cell.is_text:
        return markdown(shown.cell.source)
    parts = [f'<p class="note">{escape(shown.note)}</p>'] if shown.note else []
    if shown.result and shown.result.text:
        parts.append(preformatted('text', clipped(shown.result.text)))
    if shown.result and shown.result.refusal:
        has_ends = shown.result.refusal.fault == TOO_LONG and shown.seen.excerpts
        parts.append(too_long(shown) if has_ends else refusal(shown, name))
    figures = shown.seen.figures
    numbers = [item for item in figures if item.picture.startswith('<code>')]
    if numbers:
        parts.append(f'<p class="numbers">{"".join(map(number, numbers))}</p>')
    if len(numbers) < len(figures):
        parts.append(f'<div class="figures">{"".join(figure(item) for item in figures if item not in numbers)}</div>')
    return ''.join(parts) + (saves(shown, is_live) if shown.result else '')


def cell(shown: Shown, name: str, is_live: bool = False) -> str:
    kind = 'text' if shown.cell.is_text else 'code'
    title = f'<h3>{escape(shown.cell.title)}</h3>' if shown.cell.title else ''
    source = preformatted('source', escape(shown.cell.source)) if kind == 'code' or is_live else ''
    return (f'<section class="{kind}" id="c{shown.id}">{title}{source}'
            f'<div class="out">{output(shown, name, is_live)}</div></section>')


def heading(session: Session) -> str:
    """The title of a book: its first heading, or its name."""
    for shown in session.shown:
        if shown.cell.is_text and (match := re.search(r'^# (.+)$', shown.cell.source, re.M)):
            return match.group(1)
    return session.path.name


def digest(text: str) -> str:
    return "'sha256-" + base64.b64encode(hashlib.sha256(text.encode()).digest()).decode() + "'"


def policy(style: str, script: str, connect: str) -> str:
    """What a browser lets the page do: its own script and style, images as data, and questions to `connect`."""
    return (f"default-src 'none'; img-src data:; style-src {digest(style)}; script-src {digest(script)}; "
            f"connect-src {connect}; base-uri 'none'; form-action 'none'")


def page(session: Session, is_live: bool = False) -> tuple[str, str]:
    """The whole page, and the policy that lets nothing run in it but its own script."""
    style, script = asset('page.css'), asset('page.js') + (asset('live.js') + asset('links.js') if is_live else '')
    rule = policy(style, script, "'self'" if is_live else "'none'")
    name = session.path.name
    cells = ''.join(cell(shown, name, is_live) for shown in session.shown)
    meta = '' if is_live else f'<meta http-equiv="Content-Security-Policy" content="{rule}">'
    return (f'<!doctype html><html lang="en"><head><meta charset="utf-8">{meta}'
            '<meta name="viewport" content="width=device-width"><meta name="referrer" content="no-referrer">'
            f'<link rel="icon" href="data:,"><title>{escape(heading(session))}</title><style>{style}</style></head>'
            f'<body data-rev="{session.rev}"><header><b>{escape(name)}</b><span id="state"></span>'
            '<button id="hide" title="Show or hide the sources">Code</button></header>'
            f'<main>{cells}</main><script>{script}</script></body></html>'), rule
