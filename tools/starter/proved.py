"""`./ndnote --build`: proves the crates below the program, side by side, and builds it."""
import fcntl
import hashlib
import os
import re
import shutil
import subprocess
import sys
import time
from pathlib import Path
from typing import Dict, IO, List, Tuple

import shipped
import sources
from preview import NotBuilt

# Where the program lies that was proved and built, and its sum, relative to the top.
BUILT = 'crates/ndnote/out/ndnote'
BUILT_SUM = 'crates/ndnote/out/ndnote.sum'
# What a check takes, in seconds of one processor: for a crate, a line of code, a line of definitions and proofs.
CRATE_SECONDS, CODE_SECONDS, PROOF_SECONDS = 10.0, 0.12, 0.008
CHECK_BYTES = 2_500_000_000


def lines_in(folder: Path, ending: str) -> int:
    return sum(file.read_bytes().count(b'\n') for file in folder.rglob(f'*{ending}'))


def weights(top: Path) -> Dict[str, float]:
    """The seconds of one processor that the check of each crate is likely to take, lowest crate first."""
    found = {}
    for crate in sources.crates(top):
        folder = top / 'crates' / crate
        code = lines_in(folder / 'src', '.rt')
        proofs = lines_in(folder / 'specs', '.antt') + lines_in(folder / 'proofs', '.antt')
        found[crate] = CRATE_SECONDS + CODE_SECONDS * code + PROOF_SECONDS * proofs
    return found


def seconds_of(weight: Dict[str, float], below: Dict[str, List[str]], done: List[str], lanes: int) -> float:
    """How long the crates that are not done take in lanes, each started once those below it have ended."""
    ended = {crate: 0.0 for crate in done}
    free = [0.0] * max(lanes, 1)
    for crate in weight:
        if crate not in ended:
            lane = min(range(len(free)), key=free.__getitem__)
            start = max([free[lane], *(ended[other] for other in below[crate] if other in ended)])
            free[lane] = ended[crate] = start + weight[crate]
    return max(ended.values(), default=0.0)


def lanes_here() -> int:
    """How many checks run side by side: one for each processor, as far as memory goes."""
    try:
        told = Path('/proc/meminfo').read_text(encoding='ascii')
        free = 1024 * int(re.findall(r'MemAvailable:\s+(\d+)', told)[0])
    except (OSError, IndexError):
        free = CHECK_BYTES
    return max(1, min(len(os.sched_getaffinity(0)), free // CHECK_BYTES))


def span(seconds: float) -> str:
    return f'{seconds:.0f} s' if seconds < 90 else f'{seconds / 60:.0f} minutes'


def estimate(top: Path) -> Tuple[int, int, float]:
    """How many crates a build proves, how many side by side, and how long that is likely to take."""
    weight, lanes = weights(top), lanes_here()
    return len(weight), lanes, seconds_of(weight, sources.below(top), [], lanes)


def room_of(top: Path) -> Path:
    """The folder in which the proof is done. It is kept, so that a build which stopped goes on. It lies outside the
    repository, whose gate refuses a second crates.txt."""
    base = Path(os.environ.get('XDG_CACHE_HOME') or Path.home() / '.cache')
    return base / 'ndnote' / hashlib.sha256(str(top).encode()).hexdigest()[:12]


def copy_sources(top: Path, room: Path) -> None:
    """Makes the sources in the room those of the repository. Files that are the same stay as they are."""
    wanted = {name: (top / name).read_bytes() for name in sources.files(top)}
    crates = sources.crates(top)
    lines = wanted['crates.txt'].decode().splitlines(keepends=True)
    wanted['crates.txt'] = ''.join(it for it in lines if it.partition(':')[0].strip() in crates).encode()
    for folder in sorted((room / 'crates').glob('*')):
        if folder.name not in crates:
            shutil.rmtree(folder)
    for part in sources.PROVED:
        for file in (room / 'crates').glob(f'*/{part}/**/*'):
            if file.is_file() and str(file.relative_to(room)) not in wanted:
                file.unlink()
    for name, data in wanted.items():
        path = room / name
        if not path.is_file() or path.read_bytes() != data:
            path.parent.mkdir(parents=True, exist_ok=True)
            path.write_bytes(data)


class Progress:
    """What is proved so far, as one line on a terminal and as a line for each crate elsewhere."""

    def __init__(self, top: Path, lanes: int) -> None:
        self.weight, self.below, self.lanes = weights(top), sources.below(top), lanes
        self.began = time.monotonic()
        self.done: List[str] = []
        self.is_seen, self.proved = sys.stderr.isatty(), 0

    def end(self, crate: str, is_new: bool) -> None:
        """Tells that a crate is proved: in this build, or by an earlier run of `rt`."""
        if crate not in self.weight or crate in self.done:
            return
        self.done.append(crate)
        self.proved += is_new
        elapsed = time.monotonic() - self.began
        planned = seconds_of(self.weight, self.below, self.done, self.lanes)
        first = seconds_of(self.weight, self.below, [], self.lanes)
        pace = elapsed / (first - planned) if self.proved > 2 and first > planned else 1.0
        line = (f'ndnote: {len(self.done)} of {len(self.weight)} crates, {crate} '
                f'({int(elapsed) // 60}:{int(elapsed) % 60:02d}; some {span(planned * pace)} left)')
        sys.stderr.write(f'\r\x1b[K{line}' if self.is_seen else f'{line}\n')
        sys.stderr.flush()

    def close(self) -> None:
        if self.is_seen:
            print(file=sys.stderr)


def prove_all(room: Path, progress: Progress) -> None:
    """Proves the crates in the room, side by side, and builds the program, as the gate does. What `rt ci` has proved
    on this machine, of the same files, is not proved again."""
    ran = subprocess.Popen(['rt', 'ci'], cwd=room, stdin=subprocess.DEVNULL, stdout=subprocess.PIPE,
                           stderr=subprocess.STDOUT, text=True, errors='replace')
    assert ran.stdout
    told: List[str] = []
    refused: List[str] = []
    for line in ran.stdout:
        told = [line] if line.startswith('== ') else [*told, line]
        ended = re.match(r'rt: (\w+) (proved|is kept: |NOT PROVED)', line)
        if ended and ended[2] == 'NOT PROVED':
            refused += told
        elif ended:
            progress.end(ended[1], ended[2] == 'proved')
    progress.close()
    if ran.wait():
        raise NotBuilt(''.join(refused or told))


def toolchain() -> str:
    """The line by which the toolchain names itself, or nothing where there is none."""
    if not shutil.which('rt'):
        return ''
    return subprocess.run(['rt', 'version'], stdout=subprocess.PIPE, text=True, check=False).stdout.strip()


def lock_of(room: Path) -> IO[bytes]:
    """Waits until no other build works in the room."""
    room.mkdir(parents=True, exist_ok=True)
    lock = open(room / 'lock', 'wb')
    try:
        fcntl.flock(lock, fcntl.LOCK_EX | fcntl.LOCK_NB)
    except BlockingIOError:
        print('ndnote: waiting for another build of this folder', file=sys.stderr)
        fcntl.flock(lock, fcntl.LOCK_EX)
    return lock


def put(top: Path, program: bytes, told: shipped.Sum) -> None:
    """Writes the program, and its sum behind it."""
    for path, data, mode in ((BUILT, program, 0o755), (BUILT_SUM, told.text().encode(), 0o644)):
        if not sources.write(top / path, data, mode):
            raise NotBuilt(f'{path} cannot be written')


def build(top: Path) -> None:
    """Proves and builds the program of the sources as they are at the start."""
    if not shutil.which('rt'):
        raise NotBuilt('a proof needs the Rattle toolchain: there is no `rt` on the PATH')
    room = room_of(top)
    with lock_of(room):
        count, lanes, seconds = estimate(top)
        print(f'ndnote: proving {count} crates, {lanes} side by side; from nothing some {span(seconds)}, in {room}',
              file=sys.stderr)
        copy_sources(top, room)
        proved, line = sources.sum_of(top), toolchain()
        progress = Progress(top, lanes)
        prove_all(room, progress)
        program = (room / BUILT).read_bytes()
        if sources.sum_of(top) != proved:
            raise NotBuilt('a source was changed meanwhile: once more')
        put(top, program, shipped.Sum.of(proved, line, program))
        elapsed = time.monotonic() - progress.began
        print(f'ndnote: {count} crates are proved by {line}, {progress.proved} of them now, in {span(elapsed)}',
              file=sys.stderr)
