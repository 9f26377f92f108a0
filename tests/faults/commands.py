"""commands_of and answers_of: a script's commands, and the answers of a run, each by itself."""
from __future__ import annotations

import re
from typing import List

OPENING = re.compile(rb'(?:insert|edit|try) (0|[1-9][0-9]*)\Z')
LENGTH = re.compile(rb'(text|source|names|reads) ([0-9]+)\Z')


def opens_source(line: bytes) -> bool:
    """Whether the lines below are a cell, up to a line with one dot."""
    found = OPENING.match(line)
    return bool(found) and int(found.group(1)) < 1 << 64


def source_end(lines: List[bytes], at: int) -> int:
    """The number behind the lines of the command that begins at one, with those of its cell."""
    if not opens_source(lines[at]):
        return at + 1
    while at < len(lines) and lines[at] != b'.':
        at += 1
    return at + 1


def command_end(lines: List[bytes], at: int) -> int:
    """The number behind the lines of the command that begins at one, with those of edits that are made as one."""
    if lines[at] != b'begin':
        return source_end(lines, at)
    at += 1
    while at < len(lines) and lines[at] != b'end':
        at = source_end(lines, at)
    return at + 1


def commands_of(script: bytes) -> List[bytes]:
    """The commands that are answered, each with its lines."""
    lines = script.split(b'\n')
    if not lines[-1]:
        lines.pop()
    found, at = [], 0
    while at < len(lines):
        if not lines[at] or lines[at].startswith(b'#'):
            at += 1
            continue
        begin, at = at, command_end(lines, at)
        found.append(b'\n'.join(lines[begin:at]) + b'\n')
    return found


def line_end(output: bytes, at: int) -> int:
    """The byte offset behind the line that begins at an offset."""
    end = output.find(b'\n', at)
    if end < 0:
        raise ValueError(f'an answer has no end: {output[at:][:80]!r}')
    return end + 1


def answer_end(output: bytes, at: int) -> int:
    """The byte offset behind the answer that begins at an offset."""
    end = line_end(output, at)
    found = LENGTH.match(output[at:end - 1])
    if not found:
        return end
    word, count = found.group(1), int(found.group(2))
    if word in (b'names', b'reads'):
        for _ in range(count):
            end = line_end(output, end)
        return end
    if len(output) < end + count:
        raise ValueError(f'an answer is too short: {output[at:][:80]!r}')
    end += count
    if word == b'source':
        return line_end(output, end)
    while True:
        begin, end = end, line_end(output, end)
        if output[begin:end] == b'end\n':
            return end


def answers_of(output: bytes) -> List[bytes]:
    """The answers of a run that came to its end."""
    found, at = [], 0
    while at < len(output):
        end = answer_end(output, at)
        found.append(output[at:end])
        at = end
    return found
