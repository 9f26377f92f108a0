"""What a person meets at ./ndnote: words, statuses, the shipped program, a changed source, `check`."""
import hashlib
import io
import lzma
import os
import pty
import shutil
import subprocess
import sys
import tarfile
import tempfile
import time
import unittest
from pathlib import Path
from typing import Dict, List, Optional

TOP = Path(__file__).resolve().parents[1]
sys.path.insert(0, str(TOP / 'tools' / 'starter'))

import checked      # noqa: E402
import proved       # noqa: E402
import shipped      # noqa: E402
import sources      # noqa: E402

# Answers scripts as the program does, as far as the tests go: a cell with a line `bad` is refused there.
STAND_IN = r'''#!/usr/bin/env python3
import sys
words, script, cells = sys.argv[1:], sys.stdin.buffer, []
while words:
    word = words.pop(0)
    if word == '--script' and words:
        try:
            script = open(words.pop(0), 'rb')
        except OSError:
            sys.exit(1)
    elif '=' in word:
        try:
            open(word.partition('=')[2], 'rb').close()
        except OSError:
            print('ndnote: input', word, file=sys.stderr)
            sys.exit(3)
    else:
        sys.exit(2)
def say(text):
    sys.stdout.write(text + '\n')
    sys.stdout.flush()
for line in script:
    line = line.rstrip(b'\n').decode()
    verb, *numbers = line.split(' ')
    if not line or line.startswith('#'):
        continue
    if verb in ('insert', 'edit') and len(numbers) == 1 and numbers[0].isdigit():
        source = []
        for below in script:
            if below.rstrip(b'\n') == b'.':
                break
            source.append(below.rstrip(b'\n').decode())
        else:
            say('bad command')
            continue
        at = int(numbers[0])
        if at > len(cells) - (verb == 'edit'):
            say(f'refused NoCell {at} {len(cells)}')
            continue
        cells[at:at + (verb == 'edit')] = [source]
        say('ok')
    elif verb in ('remove', 'show') and len(numbers) == 1 and numbers[0].isdigit():
        at = int(numbers[0])
        if at >= len(cells):
            say(f'refused NoCell {at} {len(cells)}')
        elif verb == 'remove':
            del cells[at]
            say('ok')
        else:
            say('text 3\nend')
            say(f'refused {cells[at].index("bad") + 1} Stmt.Unbound' if 'bad' in cells[at] else 'ok')
            say('end')
    elif line == 'count':
        say(f'count {len(cells)}')
    else:
        say('bad command')
'''


FAKE_RT = r'''
import os, shutil, subprocess, sys
open(tools['log'], 'a').write(' '.join(sys.argv[1:2]) + '\n')
if sys.argv[1:] == ['version']:
    print(os.environ.get('FAKE_TOOLCHAIN', 'a toolchain'))
elif sys.argv[1:] == ['ci']:
    names = sorted(os.listdir('crates'))
    for name in names:
        if name == tools['kept']:
            print(f'rt: {name} is kept: an earlier run on this machine proved the same files over the same libraries')
            continue
        fails = name == tools['fails']
        print('==', name)
        print('the goal stays open' if fails else 'logic=proved functions=3 sum=0')
        print(f'rt: {name} {"NOT PROVED" if fails else "proved"}')
    if tools['fails'] in names:
        print('0 passed, 1 failed')
        sys.exit(1)
    os.makedirs('crates/ndnote/out', exist_ok=True)
    open('crates/ndnote/out/ndnote', 'w').write(tools['stand_in'])
elif sys.argv[1:2] == ['try'] and tools['fails']:
    print('src/main.rt:1: a fault of the text')
    sys.exit(1)
elif sys.argv[1:2] == ['try']:
    program = os.environ['TMPDIR'] + '/program'
    shutil.copy(shutil.which('cat'), program)
    subprocess.run([program, sys.argv[-1]])
'''


def real_program() -> Optional[str]:
    """The program that $NDNOTE_PROGRAM names, or the one that is built here."""
    for path in (os.environ.get('NDNOTE_PROGRAM', ''), str(TOP / 'crates/ndnote/out/ndnote')):
        if path and os.path.isfile(path):
            return os.path.abspath(path)
    return None


class Tree(unittest.TestCase):
    """A small repository in a folder of its own, with the starter of this one and a stand-in for the program."""

    def setUp(self) -> None:
        room = tempfile.TemporaryDirectory(prefix='ndnote-test-')
        self.addCleanup(room.cleanup)
        self.top = Path(room.name).resolve() / 'top'
        cached = shutil.ignore_patterns('__pycache__')
        shutil.copytree(TOP / 'tools' / 'starter', self.top / 'tools' / 'starter', ignore=cached)
        shutil.copy2(TOP / 'ndnote', self.top / 'ndnote')
        self.put('python/ndnote/tunables', (TOP / 'python/ndnote/tunables').read_text())
        self.put('crates.txt', 'base:   # lowest\ndesk: base\nndnote: desk std\nother: base\n')
        self.put('HANDLES', 'Handles allowed: none.\n')
        for name in ('base/src/lib.rt', 'base/proofs/f/Proof.antt', 'desk/src/lib.rt', 'ndnote/src/main.rt',
                     'other/src/lib.rt'):
            self.put(f'crates/{name}', f'{name}\n')
        self.put('first.ndn', 'insert 0\nx = 1\n.\nshow 0\n')

    def put(self, name: str, text: str) -> Path:
        path = self.top / name
        path.parent.mkdir(parents=True, exist_ok=True)
        path.write_bytes(text.encode())
        return path

    def ship(self, text: str = STAND_IN) -> None:
        program = text.encode()
        shipped.pack(self.top, program, shipped.Sum.of(sources.sum_of(self.top), 'a toolchain', program))

    def start(self, *words: str, given: bytes = b'', cwd: Optional[Path] = None, env: Optional[Dict[str, str]] = None
              ) -> 'subprocess.CompletedProcess[bytes]':
        how = {'stdout': subprocess.PIPE, 'stderr': subprocess.PIPE, 'timeout': 120}
        return subprocess.run([str(self.top / 'ndnote'), *words], input=given, cwd=cwd or self.top,
                              env={**os.environ, **(env or {})}, check=False, **how)

    def fake_rt(self, fails: str = '', kept: str = '') -> Dict[str, str]:
        """A toolchain that refuses one crate, has kept another, and links the stand-in. Its preview is `cat`."""
        tools = {'stand_in': STAND_IN, 'fails': fails, 'kept': kept, 'log': str(self.top.parent / 'rt.log')}
        self.put('bin/rt', f'#!/usr/bin/env python3\ntools = {tools!r}\n{FAKE_RT}').chmod(0o755)
        return {'PATH': f'{self.top}/bin:{os.environ["PATH"]}', 'XDG_CACHE_HOME': str(self.top.parent / 'cache')}

    def calls(self) -> List[str]:
        """The calls of the toolchain, but those that ask for its name."""
        log = self.top.parent / 'rt.log'
        return [line for line in log.read_text().splitlines() if line != 'version'] if log.exists() else []

    def unpacked(self) -> List[str]:
        return sorted(path.name for path in (self.top / shipped.UNPACKED).glob('ndnote*-*') if path.suffix != '.kept')

    def put_module(self) -> None:
        """A front end that tells the program that it is given, by its answer to `count`, and its words."""
        self.put('python/ndnote/__init__.py', '')
        self.put('python/ndnote/__main__.py', 'import os, subprocess, sys\n'
                 'ran = subprocess.run([os.environ["NDNOTE_PROGRAM"]], input=b"count\\n", stdout=subprocess.PIPE)\n'
                 'print(ran.stdout, *sys.argv[1:])\n')


class Words(Tree):
    def test_help_needs_no_program(self) -> None:
        for word in ('help', '--help', '-h'):
            ran = self.start(word)
            self.assertEqual((ran.returncode, ran.stderr), (0, b''))
            for told in ('run BOOK', 'page BOOK', 'live BOOK', 'check SCRIPT', '--script PATH', '--preview', '--build'):
                self.assertIn(f'  ./ndnote {told}'.replace(' --script', ' [NAME=PATH..] --script').encode(), ran.stdout)
        self.assertTrue(all(len(line) <= 120 for line in ran.stdout.split(b'\n')))

    def test_version(self) -> None:
        ran = self.start('--version')
        self.assertEqual(ran.returncode, 0)
        self.assertEqual(ran.stdout.decode(), f'ndnote {sources.sum_of(self.top)[:12]} (not yet proved)\n')
        self.ship()
        self.assertIn(b'proved by a toolchain', self.start('--version').stdout)

    def test_no_words(self) -> None:
        self.ship()
        master, slave = pty.openpty()
        ran = subprocess.run([str(self.top / 'ndnote')], stdin=slave, stdout=subprocess.PIPE, timeout=60, check=False)
        os.close(master), os.close(slave)
        self.assertEqual((ran.returncode, ran.stdout), (0, self.start('help').stdout))
        self.assertEqual(self.start(given=b'count\n').stdout, b'count 0\n')

    def test_no_program(self) -> None:
        ran = self.start('--script', 'first.ndn')
        self.assertEqual((ran.returncode, ran.stdout), (3, b''))
        for told in (b'no proved program', b'--preview', b'--build', b'3 crates'):
            self.assertIn(told, ran.stderr)

    def test_words_and_statuses_are_the_program_s(self) -> None:
        self.ship()
        self.assertEqual(self.start('--script', 'first.ndn').stdout, b'ok\ntext 3\nend\nok\nend\n')
        for status, words in ((1, '--script missing'), (2, '--frob'), (3, 'a=missing'), (0, 'a=first.ndn')):
            self.assertEqual(self.start(*words.split()).returncode, status, words)

    def test_the_allocator_is_told_how_to_keep_memory(self) -> None:
        self.ship('#!/bin/sh\necho "$GLIBC_TUNABLES"\n')
        told = (TOP / 'python/ndnote/tunables').read_bytes()
        self.assertEqual(self.start('a=1').stdout, told)
        self.assertEqual(self.start('a=1', env={'GLIBC_TUNABLES': 'x=1'}).stdout, b'x=1\n')

    def test_a_word_that_is_no_command_says_what_is(self) -> None:
        for word, told in (('chek', b'./ndnote help'), ('b.py', b'./ndnote run b.py'), ('s.ndn', b'--script s.ndn')):
            ran = self.start(word)
            self.assertEqual((ran.returncode, ran.stdout), (2, b''))
            self.assertIn(told, ran.stderr)

    def test_relative_paths_are_those_of_the_caller(self) -> None:
        self.ship()
        self.put('far away/sub/s.ndn', 'count\n')
        self.put('far away/data.npy', '')
        cwd = self.top / 'far away' / 'sub'
        ran = self.start('g=../data.npy', '--script', './s.ndn', cwd=cwd)
        self.assertEqual((ran.returncode, ran.stdout), (0, b'count 0\n'))
        (self.top.parent / 'link').symlink_to(self.top / 'ndnote')
        ran = subprocess.run(['../../../link', '--script', 's.ndn'], cwd=cwd, stdout=subprocess.PIPE, check=False)
        self.assertEqual(ran.stdout, b'count 0\n')

    def test_books_get_the_program(self) -> None:
        self.ship()
        self.put_module()
        for word in ('run', 'page', 'live'):
            ran = self.start(word, 'book.py', '--titles', cwd=self.top.parent)
            self.assertEqual(ran.stdout.decode(), f"b'count 0\\n' {word} book.py --titles\n")
        self.put('s.ndn', 'count\n')
        self.assertEqual(self.start('check', 's.ndn').stdout, b'count 0\n')
        self.assertEqual(len(self.unpacked()), 1)


class Shipped(Tree):
    def test_unpacked_once_and_said_once(self) -> None:
        self.ship()
        first, second = self.start(given=b'count\n'), self.start(given=b'count\n')
        self.assertEqual((first.stdout, second.stdout), (b'count 0\n', b'count 0\n'))
        self.assertIn(b'unpacked the proved program', first.stderr)
        self.assertEqual(second.stderr, b'')
        self.assertEqual(len(self.unpacked()), 1)

    def test_a_changed_source_is_not_proved(self) -> None:
        self.ship()
        base = 'crates/base'
        for name in (f'{base}/src/lib.rt', f'{base}/proofs/f/Proof.antt', 'crates.txt', 'crates/ndnote/specs/N.antt',
                     'crates/desk/src/lib.rt'):
            with self.subTest(name):
                path = self.top / name
                before = path.read_bytes() if path.is_file() else None
                self.assertEqual(self.start(given=b'').returncode, 0)
                self.put(name, 'base:\ndesk:\nndnote: base desk\nother:\n')
                ran = self.start(given=b'count\n')
                self.assertEqual((ran.returncode, ran.stdout), (3, b''))
                self.assertIn(b'not yet proved', ran.stderr)
                path.write_bytes(before) if before is not None else path.unlink()
                self.assertEqual(self.start(given=b'count\n').stdout, b'count 0\n')

    def test_other_crates_and_editors_files_do_not_count(self) -> None:
        self.ship()
        self.put('crates/other/src/lib.rt', 'changed\n')
        self.put('crates/base/src/.lib.rt.swp', '')
        self.put('crates/base/src/lib.rt~', '')
        self.assertEqual(self.start(given=b'count\n').stdout, b'count 0\n')

    def test_what_is_kept_is_never_stale(self) -> None:
        self.ship()
        self.start()
        kept = self.top / 'dist/.unpacked/proved.kept'
        self.assertFalse(kept.exists(), 'sources that changed just now may change again')
        time.sleep(sources.SETTLED + 0.2)
        self.start()
        self.assertTrue(kept.exists())
        path = self.top / 'crates/base/src/lib.rt'
        was, text = path.stat(), path.read_bytes()
        path.write_bytes(text.upper())
        os.utime(path, ns=(was.st_atime_ns, was.st_mtime_ns))
        self.assertEqual(self.start().returncode, 3, 'the size and the time of the change were put back')
        path.write_bytes(text)
        time.sleep(sources.SETTLED + 0.2)
        self.assertEqual(self.start().returncode, 0)
        self.assertTrue(kept.exists())
        program = self.top / shipped.UNPACKED / self.unpacked()[0]
        program.write_text('#!/bin/sh\necho other\n')
        self.assertEqual(self.start(given=b'count\n').stdout, b'count 0\n')

    def test_what_is_kept_is_for_books_and_for_scripts(self) -> None:
        self.ship()
        self.put_module()
        time.sleep(sources.SETTLED + 0.2)
        for _ in range(2):
            self.assertIn(b'count 0', self.start('run', 'b.py').stdout)
            self.assertEqual(self.start(given=b'count\n').stdout, b'count 0\n')
        self.assertEqual([path.name for path in (self.top / shipped.UNPACKED).glob('*.kept')], ['proved.kept'])
        self.put('crates/desk/src/lib.rt', 'changed\n')
        for words in (('run', 'b.py'), ()):
            self.assertEqual(self.start(*words, given=b'count\n').returncode, 3)

    def test_damaged(self) -> None:
        packed, told = shipped.PACKED, shipped.SUM
        no_tar = lzma.compress(b'no tar')
        for name, text in ((packed, b'no xz'), (packed, b''), (packed, no_tar), (told, b'sources x\n'), (packed, None)):
            with self.subTest(name=name, text=text):
                shutil.rmtree(self.top / 'dist', ignore_errors=True)
                self.ship()
                (self.top / name).write_bytes(text) if text is not None else (self.top / name).unlink()
                ran = self.start(given=b'count\n')
                self.assertEqual((ran.returncode, ran.stdout), (3, b''))
                self.assertIn(b'dist/ndnote', ran.stderr)
                self.assertNotIn(b'Traceback', ran.stderr)
                self.assertEqual(self.unpacked(), [])

    def pack(self, files: Dict[str, bytes]) -> None:
        """Puts files in the place of what is shipped."""
        whole = io.BytesIO()
        with tarfile.open(fileobj=whole, mode='w') as tar:
            for name, data in files.items():
                entry = tarfile.TarInfo(name)
                entry.size = len(data)
                tar.addfile(entry, io.BytesIO(data))
        (self.top / shipped.PACKED).write_bytes(lzma.compress(whole.getvalue()))

    def test_another_program_in_the_pack(self) -> None:
        self.ship()
        right, other = STAND_IN.encode(), b'#!/bin/sh\necho other\n'
        for files in ({'ndnote': other}, {'other': right}, {'ndnote': right, 'more': right}, {}):
            self.pack(files)
            ran = self.start(given=b'count\n')
            self.assertEqual((ran.returncode, ran.stdout), (3, b''))
            self.assertIn(b'does not hold the program', ran.stderr)
        self.pack({'ndnote': right})
        self.assertEqual(self.start(given=b'count\n').stdout, b'count 0\n')

    def test_many_starts_at_once(self) -> None:
        self.ship()
        how = {'stdin': subprocess.PIPE, 'stdout': subprocess.PIPE, 'stderr': subprocess.PIPE}
        ran = [subprocess.Popen([str(self.top / 'ndnote')], **how) for _ in range(6)]
        self.assertEqual({it.communicate(b'count\n', timeout=120)[0] for it in ran}, {b'count 0\n'})
        self.assertEqual({it.returncode for it in ran}, {0})
        self.assertEqual(len(self.unpacked()), 1)
        self.assertEqual([it.name for it in (self.top / shipped.UNPACKED).glob('.ndnote*')], [])

    def test_a_folder_that_cannot_be_written(self) -> None:
        self.ship()
        self.put(shipped.UNPACKED, 'a file, and no folder')
        room = self.top.parent / 'tmp'
        room.mkdir()
        for words, status in (((), 0), (('--frob',), 2)):
            ran = self.start(*words, given=b'count\n', env={'TMPDIR': str(room)})
            self.assertEqual((ran.returncode, ran.stdout), (status, b'' if status else b'count 0\n'))
            self.assertIn(b'for this run alone', ran.stderr)
            self.assertEqual(list(room.iterdir()), [])

    def test_a_build_of_these_sources_is_taken_before_the_pack(self) -> None:
        self.ship()
        built = STAND_IN.replace("f'count {len(cells)}'", "'count built'").encode()
        told = shipped.Sum.of(sources.sum_of(self.top), 'a toolchain', built)
        proved.put(self.top, built, told)
        self.put_module()
        self.assertEqual(self.start(given=b'count\n').stdout, b'count built\n')
        self.assertIn(b'count built', self.start('run', 'b.py').stdout)
        sources.write(self.top / proved.BUILT_SUM, told._replace(sources='0').text().encode())
        self.assertEqual(self.start(given=b'count\n').stdout, b'count 0\n')


class Building(Tree):
    def test_crates_lowest_first(self) -> None:
        self.assertEqual(sources.crates(self.top), ['base', 'desk', 'ndnote'])
        for text in ('ndnote: a\na: ndnote\n', 'other:\n'):
            self.put('crates.txt', text)
            with self.assertRaises(sources.Unreadable):
                sources.crates(self.top)

    def test_the_sum_is_that_of_sha256sum(self) -> None:
        names = list(sources.files(self.top))
        self.assertEqual(names, ['HANDLES', 'crates.txt', 'crates/base/proofs/f/Proof.antt', 'crates/base/src/lib.rt',
                                 'crates/desk/src/lib.rt', 'crates/ndnote/src/main.rt'])
        told = subprocess.run(['sha256sum', *names], cwd=self.top, stdout=subprocess.PIPE, check=True).stdout
        self.assertEqual(sources.sum_of(self.top), hashlib.sha256(told).hexdigest())

    def test_time_in_lanes(self) -> None:
        weight, below = {'a': 1.0, 'b': 2.0, 'c': 2.0, 'd': 1.0}, {'a': [], 'b': ['a'], 'c': ['a'], 'd': ['b', 'c']}
        self.assertEqual([proved.seconds_of(weight, below, [], lanes) for lanes in (1, 2)], [6.0, 4.0])
        self.assertEqual(proved.seconds_of(weight, below, ['a', 'b'], 2), 3.0)

    def test_a_build(self) -> None:
        env = self.fake_rt()
        ran = self.start('--build', env=env)
        self.assertEqual((ran.returncode, ran.stdout), (0, b''), ran.stderr)
        self.assertIn(b'3 crates are proved by a toolchain, 3 of them now', ran.stderr)
        self.put_module()
        self.assertEqual(self.start(given=b'count\n').stdout, b'count 0\n')
        self.assertIn(b'count 0', self.start('run', 'b.py').stdout)
        room = next((self.top.parent / 'cache/ndnote').iterdir())
        self.assertEqual(sorted(os.listdir(room / 'crates')), ['base', 'desk', 'ndnote'])

    def test_what_is_kept_is_told(self) -> None:
        ran = self.start('--build', env=self.fake_rt(kept='base'))
        self.assertEqual(ran.returncode, 0, ran.stderr)
        self.assertIn(b'3 of 3 crates', ran.stderr)
        self.assertIn(b'3 crates are proved by a toolchain, 2 of them now', ran.stderr)

    def test_a_refused_crate(self) -> None:
        ran = self.start('--build', env=self.fake_rt('base'))
        self.assertEqual(ran.returncode, 3)
        self.assertIn(b'the goal stays open', ran.stderr)
        self.assertIn(b'base NOT PROVED', ran.stderr)
        self.assertFalse((self.top / proved.BUILT).exists())

    def test_no_toolchain(self) -> None:
        paths = os.environ['PATH'].split(os.pathsep)
        bare = {'PATH': os.pathsep.join(it for it in paths if not os.path.exists(f'{it}/rt'))}
        for word in ('--build', '--preview'):
            ran = self.start(word, env=bare)
            self.assertEqual(ran.returncode, 3, ran.stderr)
            self.assertIn(b'no `rt` on the PATH', ran.stderr)
        self.ship()
        self.assertEqual(self.start(given=b'count\n', env=bare).stdout, b'count 0\n')

    def test_a_preview_is_kept_until_the_code_changes(self) -> None:
        env = self.fake_rt()
        for name, calls in (('HANDLES', 1), ('crates/base/proofs/f/Proof.antt', 1), ('crates/base/src/lib.rt', 2)):
            self.put(name, 'changed\n')
            for _ in range(2):
                ran = self.start('--preview', given=b'what cat is given\n', env=env)
                self.assertEqual((ran.returncode, ran.stdout), (0, b'what cat is given\n'), ran.stderr)
                self.assertIn(b'rests on no proof', ran.stderr)
                self.assertEqual(len(self.calls()), calls)

    def test_a_preview_is_for_books_and_for_scripts(self) -> None:
        env = self.fake_rt()
        self.put_module()
        for name, calls in (('HANDLES', 1), ('crates/desk/src/lib.rt', 2), ('crates/ndnote/src/main.rt', 3)):
            self.put(name, 'changed\n')
            for words in (('run', 'b.py'), ()):
                ran = self.start('--preview', *words, given=b'count\n', env=env)
                self.assertIn(b'count', ran.stdout, ran.stderr)
                self.assertEqual(len(self.calls()), calls, name)

    def test_a_preview_that_is_not_built(self) -> None:
        ran = self.start('--preview', '--script', 'first.ndn', env=self.fake_rt('base'))
        self.assertEqual((ran.returncode, ran.stdout), (3, b''))
        self.assertIn(b'a fault of the text', ran.stderr)


class Release(Tree):
    def setUp(self) -> None:
        super().setUp()
        shutil.copy2(TOP / 'tools' / 'release', self.top / 'tools' / 'release')
        for script in sorted((TOP / 'examples').glob('*.ndn'))[:3]:
            self.put(f'examples/{script.name}', script.read_text())
        self.env = self.fake_rt()

    def build(self, text: str = STAND_IN) -> None:
        sources.write(self.top / proved.BUILT, text.encode(), 0o755)

    def release(self, *words: str, **env: str) -> 'subprocess.CompletedProcess[str]':
        return subprocess.run([str(self.top / 'tools' / 'release'), *words], env={**os.environ, **self.env, **env},
                              stdout=subprocess.PIPE, stderr=subprocess.PIPE, text=True, timeout=120, check=False)

    def assertTells(self, status: int, told: str, *words: str, **env: str) -> None:
        ran = self.release(*words, **env)
        self.assertEqual((ran.returncode, ran.stderr, ran.stdout.count('\n')), (status, '', 1), ran.stdout)
        self.assertIn(told, ran.stdout)

    def test_release_and_check(self) -> None:
        self.assertTells(1, 'there is no crates/ndnote/out/ndnote')
        self.build()
        self.assertTells(1, 'there is no dist/ndnote.sum', '--check')
        self.assertTells(0, f'the sources {sources.sum_of(self.top)[:12]}')
        self.assertTells(0, 'byte for byte', '--check')
        self.assertEqual(self.start(given=b'count\n').stdout, b'count 0\n')
        self.assertEqual(self.release('--frob').returncode, 2)

    def test_what_check_refuses(self) -> None:
        self.build()
        self.release()
        alike = 'answers the 3 examples'
        self.assertTells(0, alike, '--check', FAKE_TOOLCHAIN='another')
        self.build(STAND_IN + '# other bytes\n')
        self.assertTells(1, 'not, byte for byte, crates/ndnote/out/ndnote:', '--check')
        self.assertTells(0, alike, '--check', FAKE_TOOLCHAIN='another')
        self.build('#!/bin/sh\necho another answer\n')
        self.assertTells(1, 'answers atomic.ndn otherwise', '--check', FAKE_TOOLCHAIN='another')
        self.build()
        self.put('crates/base/src/lib.rt', 'changed\n')
        self.assertTells(1, 'the sources are not those', '--check')
        self.assertTells(1, 'crates/base/src/lib.rt is younger')


class Checks(Tree):
    def setUp(self) -> None:
        super().setUp()
        self.ship()

    def check(self, script: str) -> 'subprocess.CompletedProcess[bytes]':
        self.put('s.ndn', script)
        plain, ran = self.start('--script', 's.ndn'), self.start('check', 's.ndn')
        self.assertEqual(ran.stdout, plain.stdout)
        return ran

    def told(self, script: str) -> List[str]:
        ran = self.check(script)
        self.assertEqual(ran.returncode, 4)
        return ran.stderr.decode().splitlines()[-20:]

    def test_nothing_to_tell(self) -> None:
        for script in ('', '# a comment\n\ninsert 0\nx = 1\n.\nshow 0\ncount\n', 'count',
                       'insert 0\nx\n.\nedit 0\nbad\n.\nremove 0\n'):
            ran = self.check(script)
            self.assertEqual((ran.returncode, ran.stderr.count(b's.ndn')), (0, 0), ran.stderr)

    def test_bad_line_and_refused_edit(self) -> None:
        self.assertEqual(self.told('frob\ncount\n'), ['s.ndn:1: bad command'])
        self.assertEqual(self.told('# x\n\nedit 2\ny\n.\ncount\n'), ['s.ndn:3: refused NoCell 2 0'])

    def test_refused_cells_also_where_none_is_shown(self) -> None:
        told = ['s.ndn:7: the cell is refused here: Stmt.Unbound']
        script = 'count\ninsert 0\na\n.\ninsert 1\nb\nbad\n.\n'
        self.assertEqual(self.told(script), told)
        self.assertEqual(self.told(f'{script}show 1\n'), told)
        self.assertEqual(self.told(f'{script}show 1\nremove 0\n'), told)

    def test_carriage_returns(self) -> None:
        told = self.told('insert 0\r\nx\r\n.\r\n')
        self.assertEqual(told[0], 's.ndn:1: a carriage return: lines of a script end with a newline alone')
        self.assertEqual(told[1:], [f's.ndn:{line}: bad command' for line in (1, 2, 3)])

    def test_unended_cell(self) -> None:
        told = ['s.ndn:6: the script ends inside this cell']
        self.assertEqual(self.told('insert 0\nx\n.\n\n\ninsert 1\ny\ncount'), told)
        told = self.told('insert 0\nbad\n.\n\n\nedit 0\ny\n')
        self.assertEqual(told[0], 's.ndn:2: the cell is refused here: Stmt.Unbound')

    def test_statuses(self) -> None:
        self.assertEqual(self.start('check').returncode, 2)
        self.assertEqual(self.start('check', 'missing.ndn').returncode, 1)
        self.assertEqual(self.start('check', 'first.ndn', 'a=missing').returncode, 3)
        self.assertEqual(self.start('check', '-', given=b'frob\n').returncode, 4)

    def test_nobody_reads_the_answers(self) -> None:
        self.put('s.ndn', 'count\n' * 50000)
        ran = subprocess.run('./ndnote check s.ndn | head -n 1', shell=True, cwd=self.top, stdout=subprocess.PIPE,
                             stderr=subprocess.PIPE, timeout=120, check=False)
        self.assertEqual(ran.stdout, b'count 0\n')
        self.assertNotIn(b'tools/starter', ran.stderr, 'no trace of the starter')

    def test_many_places_are_cut(self) -> None:
        self.assertEqual(self.told('frob\n' * 30)[-1], 's.ndn: and 10 more')

    def test_commands(self) -> None:
        found = checked.commands_of(b'insert 0\na\n.\n# no\n\ninsert 00\n.\nedit 18446744073709551616\nshow 0')
        self.assertEqual([it.line for it in found if it.is_whole], [1, 6, 7, 8, 9])


@unittest.skipUnless(real_program(), 'no program: NDNOTE_PROGRAM, or crates/ndnote/out/ndnote')
class Real(Tree):
    """The starter with the program itself."""

    def setUp(self) -> None:
        super().setUp()
        program = Path(real_program() or '').read_bytes()
        proved.put(self.top, program, shipped.Sum.of(sources.sum_of(self.top), 'a toolchain', program))

    def test_examples(self) -> None:
        for script in sorted((TOP / 'examples').glob('*.ndn')):
            wanted = script.with_suffix('.out').read_bytes()
            self.assertEqual(self.start('--script', str(script)).stdout, wanted, script.name)
            ran = self.start('check', str(script))
            self.assertEqual(ran.stdout, wanted, script.name)
            is_refused = b'\nrefused ' in wanted or b'bad command' in wanted
            self.assertEqual(ran.returncode, 4 if is_refused else 0, ran.stderr)

    def test_places(self) -> None:
        self.put('s.ndn', 'insert 0\nx = np.arange(3)\nprint(x[5])\n.\nfrob\n')
        ran = self.start('check', 's.ndn')
        self.assertEqual((ran.returncode, ran.stdout), (4, b'ok\nbad command\n'))
        self.assertEqual(ran.stderr.decode().splitlines()[-2:],
                         ['s.ndn:5: bad command', 's.ndn:3: the cell is refused here: Index.OutOfBounds 0 5 3'])

    def test_faults_name_what_they_are_about(self) -> None:
        missing = 'No such file or directory (os error 2)'
        for words, status, told in (
                (('a=no.npy',), 3, f'ndnote: input a: no.npy: {missing}'),
                (('?=first.ndn',), 3,
                 "ndnote: input ?: first.ndn: a name has 1 to 64 digits, letters, '-', '.' or '_'"),
                (('--script', 'no.ndn'), 1, f'ndnote: script no.ndn: {missing}'),
                (('--script', 'crates'), 1, 'ndnote: script crates: the script could not be read'),
                (('first.ndn',), 2, 'ndnote: first.ndn: a script is run by ./ndnote --script first.ndn')):
            ran = self.start(*words)
            self.assertEqual((ran.returncode, ran.stdout, ran.stderr.decode().splitlines()[-1]), (status, b'', told))

    def test_words_for_front_ends_are_asked_for(self) -> None:
        self.put('s.ndn', 'words\ncount\n')
        self.assertEqual(self.start('--script', 's.ndn').stdout, b'bad command\ncount 0\n')
        for words in (('--desk', '--script', 's.ndn'), ('--script', 's.ndn', '--desk', '--progress')):
            ran = self.start(*words)
            self.assertEqual((ran.returncode, ran.stdout[:6], ran.stdout[-8:]), (0, b'words ', b'count 0\n'))
        ran = self.start('--script', 's.ndn', '--progress')
        self.assertEqual((ran.returncode, ran.stdout), (2, b''))
        self.assertIn(b'--desk', ran.stderr)

    def test_the_program_s_own_help_is_a_refused_command_line(self) -> None:
        words = [str(self.top / proved.BUILT), '--help']
        ran = subprocess.run(words, stdout=subprocess.PIPE, stderr=subprocess.PIPE, timeout=60, check=False)
        self.assertEqual((ran.returncode, ran.stdout), (2, b''))
        self.assertIn(b'NAME=PATH', ran.stderr)
        self.assertIn(b'Usage: ndnote ', self.start('--frob').stderr)


if __name__ == '__main__':
    ran = unittest.main(exit=False).result
    print(f'{ran.testsRun} tests run, {len(ran.skipped)} of them skipped')
    sys.exit(not ran.wasSuccessful())
