"""What `./ndnote` does not do by itself: finding and making the program, `--version`, `--build` and `check`."""
import sys
from pathlib import Path
from typing import List, Optional

import checked
import preview
import proved
import shipped
import sources

TOP = Path(__file__).resolve().parents[2]
NOT_PROVED = 3


def say(text: str) -> None:
    print(f'ndnote: {text}', file=sys.stderr, flush=True)


def how_to_go_on(top: Path) -> str:
    """What a person can do where there is no proved program of the present sources."""
    count, lanes, seconds = proved.estimate(top)
    return ('  ./ndnote --preview ..  builds it without any proof, in minutes, and keeps it until a source changes\n'
            f'  ./ndnote --build       proves and builds: {count} crates, {lanes} side by side, '
            f'some {proved.span(seconds)}')


def built_sum(top: Path) -> Optional[shipped.Sum]:
    """What the last build here says of itself. A damaged file says nothing."""
    try:
        return shipped.sum_in(top / proved.BUILT_SUM)
    except shipped.Damaged:
        return None


def proved_program(top: Path) -> Path:
    """The proved program of the present sources: what was built here, else what lies in dist/."""
    now, built, path = sources.sum_of(top), built_sum(top), top / proved.BUILT
    if built and built.sources == now and path.is_file():
        if sources.sum_of_file(path) == built.program:
            keep(top, 'proved', path, now)
            return path
    there = shipped.sum_in(top / shipped.SUM)
    if there is None:
        raise preview.NotBuilt(f'no proved program is here: there is no {shipped.SUM}\n{how_to_go_on(top)}')
    if there.sources != now:
        raise preview.NotBuilt(f'what lies here is not yet proved: its sources are not those of {shipped.PACKED}\n'
                               f'{how_to_go_on(top)}')
    found = shipped.unpack(top, there)
    if found.is_temporary:
        say(f'{shipped.UNPACKED} cannot be written: the proved program is unpacked for this run alone')
    elif found.is_new:
        say(f'unpacked the proved program of these sources ({there.toolchain})')
    if not found.is_temporary:
        keep(top, 'proved', found.path, now)
    return found.path


def preview_program(top: Path) -> Path:
    """The program that was built of the present code without proof, or that is built now."""
    path, told = top / preview.PATH, top / f'{preview.PATH}.sum'
    now = sources.sum_of(top, sources.PREVIEWED)
    if not path.is_file() or not told.is_file() or told.read_text() != f'{now} {sources.sum_of_file(path)}\n':
        say('building a preview, without any proof: one to two minutes of a free processor')
        path = preview.build(top)
        if sources.sum_of(top, sources.PREVIEWED) == now:
            sources.write(told, f'{now} {sources.sum_of_file(path)}\n'.encode())
    keep(top, 'preview', path, now)
    return path


def keep(top: Path, kind: str, path: Path, now: str) -> None:
    """Keeps for `./ndnote` that a program of this kind is of the sources of this sum."""
    parts = sources.PREVIEWED if kind == 'preview' else sources.PROVED
    extra = [shipped.SUM, proved.BUILT_SUM] if kind == 'proved' else []
    kept = sources.Kept(top, top / shipped.UNPACKED / f'{kind}.kept')
    kept.keep(path.relative_to(top), parts, now, extra)


def version(top: Path) -> int:
    """One line: the sources by the first digits of their sum, and what proved them."""
    now = sources.sum_of(top)
    told = [it for it in (built_sum(top), shipped.sum_in(top / shipped.SUM)) if it and it.sources == now]
    print(f'ndnote {now[:12]} ({f"proved by {told[0].toolchain}" if told else "not yet proved"})')
    return 0


def main(words: List[str]) -> int:
    verb, rest = words[0], words[1:]
    try:
        if verb == '--version':
            return version(TOP)
        if verb == '--build':
            proved.build(TOP)
        elif verb == 'program':
            print(proved_program(TOP) if rest == ['proved'] else preview_program(TOP))
        elif verb == 'check':
            return checked.main(Path(rest[0]), rest[1:])
        return 0
    except shipped.Damaged as error:
        say(f'{error}\n{how_to_go_on(TOP)}')
    except (preview.NotBuilt, sources.Unreadable, OSError) as error:
        say(str(error))
    except KeyboardInterrupt:
        return 130
    return NOT_PROVED


if __name__ == '__main__':
    sys.exit(main(sys.argv[1:]))
