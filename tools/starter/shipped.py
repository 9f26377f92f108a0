"""The proved program that lies packed in dist/: written, checked, unpacked."""
import hashlib
import io
import shutil
import subprocess
import tarfile
import tempfile
from pathlib import Path
from typing import NamedTuple, Optional

import sources

try:
    import lzma
except ImportError:         # a Python that was built without it
    lzma = None             # type: ignore[assignment]

PACKED = 'dist/ndnote.tar.xz'
SUM = 'dist/ndnote.sum'
UNPACKED = 'dist/.unpacked'


class Damaged(Exception):
    """What lies in dist/ is not what its sum says, and why."""


class Sum(NamedTuple):
    """What dist/ndnote.sum says: of which sources and by which toolchain the program is, and its sum."""
    sources: str
    toolchain: str
    program: str

    @staticmethod
    def of(sources_sum: str, toolchain: str, program: bytes) -> 'Sum':
        return Sum(sources_sum, toolchain, hashlib.sha256(program).hexdigest())

    def text(self) -> str:
        return f'sources {self.sources}\ntoolchain {self.toolchain}\n{sources.PROGRAM} {self.program}\n'


def sum_in(path: Path) -> Optional[Sum]:
    """What a sum file says, or None where there is none."""
    try:
        lines = path.read_text(encoding='utf-8').splitlines()
    except FileNotFoundError:
        return None
    except (OSError, UnicodeDecodeError) as error:
        raise Damaged(f'{path.parent.name}/{path.name} cannot be read: {error}') from error
    told = dict(line.partition(' ')[::2] for line in lines)
    wanted = ('sources', 'toolchain', sources.PROGRAM)
    if sorted(told) != sorted(wanted):
        raise Damaged(f'{path.parent.name}/{path.name} has other lines than {", ".join(wanted)}')
    return Sum(*(told[name] for name in wanted))


def unpacked_bytes(top: Path, wanted: Sum) -> bytes:
    """The program, once its bytes are those of the sum."""
    try:
        packed = (top / PACKED).read_bytes()
        if lzma:
            whole = lzma.decompress(packed)
        else:
            ran = subprocess.run(['xz', '--decompress', '--stdout'], input=packed, stdout=subprocess.PIPE, check=True)
            whole = ran.stdout
        with tarfile.open(fileobj=io.BytesIO(whole), mode='r:') as tar:
            files = {entry.name: tar.extractfile(entry).read() for entry in tar}
    except Exception as error:      # of lzma, of the file, of xz, of tar
        raise Damaged(f'{PACKED} cannot be unpacked: {error}') from error
    program = files.get(sources.PROGRAM, b'')
    if len(files) != 1 or hashlib.sha256(program).hexdigest() != wanted.program:
        raise Damaged(f'{PACKED} does not hold the program that {SUM} names, and it alone')
    return program


class Unpacked(NamedTuple):
    """Where the program lies, whether it was unpacked by this call, and whether it is for one run alone."""
    path: Path
    is_new: bool
    is_temporary: bool


def unpack(top: Path, wanted: Sum) -> Unpacked:
    """The program of this sum as a file that can be run. Several starts may unpack at once: each writes a file of its
    own and puts it in its place whole."""
    path = top / UNPACKED / f'{sources.PROGRAM}-{wanted.program[:16]}'
    if path.is_file() and sources.sum_of_file(path) == wanted.program:
        return Unpacked(path, False, False)
    program = unpacked_bytes(top, wanted)
    if sources.write(path, program, 0o755):
        for other in path.parent.glob(f'{sources.PROGRAM}-*'):
            if other != path:
                other.unlink()
        return Unpacked(path, True, False)
    room = Path(tempfile.mkdtemp(prefix='ndnote-for-one-run-'))
    path = room / sources.PROGRAM
    if not sources.write(path, program, 0o755):
        shutil.rmtree(room, ignore_errors=True)
        raise Damaged('the program can be unpacked neither into dist/ nor into a temporary folder')
    return Unpacked(path, True, True)


def archive(program: bytes) -> bytes:
    """A tar file of the program, which is the same for the same one."""
    whole = io.BytesIO()
    with tarfile.open(fileobj=whole, mode='w', format=tarfile.USTAR_FORMAT) as tar:
        entry = tarfile.TarInfo(sources.PROGRAM)
        entry.size, entry.mode = len(program), 0o755
        tar.addfile(entry, io.BytesIO(program))
    return whole.getvalue()


def pack(top: Path, program: bytes, told: Sum) -> None:
    """Writes dist/: the packed program first, so that a sum never stands before its program."""
    if not lzma:
        raise Damaged('this Python has no lzma')
    packed = lzma.compress(archive(program), preset=9 | lzma.PRESET_EXTREME)
    for path, data in ((PACKED, packed), (SUM, told.text().encode())):
        if not sources.write(top / path, data):
            raise Damaged(f'{path} cannot be written')
