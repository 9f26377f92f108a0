"""The judges of this folder refuse falsified answers: an edit that is kept, half a value, a write fault passed over."""
from __future__ import annotations

import dataclasses
import errno
import random
import unittest
from typing import Callable, List, Optional

import test_random_scripts
import test_reads_and_writes as streams
from setting import program, refusals, shim
from broken import Found, file_fault, format_fault, found, front_fault, named_faults
from commands import answers_of, commands_of
from judging import WANT, Fault
from notebook import FOLDER, Notebook
from numpy_side import file_difference, needs_numpy
from steered import KEEP, NONE, Steered, Step
from test_broken_inputs import FILE, HEADER, LOAD, STRUCTURES, answers_to
from trials import Trials, try_commands

BOOK = FOLDER / 'overlapping_views.ndn'


class Keeping(Steered):
    """Says that an edit was refused, and carries it out."""

    def step(self, script: bytes, first: int = KEEP, count: int = 1) -> Step:
        step = super().step(script, first, count)
        if step.output == WANT:
            super().step(script, NONE)
        return step


class Halving(Steered):
    """Gives half of each value once an allocation was refused."""

    wants = False

    def step(self, script: bytes, first: int = KEEP, count: int = 1) -> Step:
        step = super().step(script, first, count)
        self.wants = self.wants or step.output == WANT
        lines = [line[:-16] if self.wants and line.startswith(b'array ') else line for line in step.output.split(b'\n')]
        return dataclasses.replace(step, output=b'\n'.join(lines))


class Refusing(Steered):
    """Answers with want of memory where nothing was refused."""

    def step(self, script: bytes, first: int = KEEP, count: int = 1) -> Step:
        step = super().step(script, first, count)
        is_edit = step.output == b'ok\n' and first == KEEP
        return dataclasses.replace(step, output=WANT) if is_edit else step


class Silent(Steered):
    """Ends without a message."""

    def ended(self, output: bytes, status: int) -> Step:
        return dataclasses.replace(super().ended(output, status), errors=b'')


class Allocations(unittest.TestCase):
    def fault_of(self, kind: Callable[[str, str], Steered]) -> Optional[str]:
        notebook, steered = Notebook(BOOK, program(), shim()), kind(program(), shim())
        self.addCleanup(notebook.close)
        self.addCleanup(steered.close)
        try:
            for _ in try_commands(Trials(notebook, steered), 6, random.Random(1)):
                pass
        except Fault as fault:
            return str(fault)
        return None

    def test_the_program_is_right(self) -> None:
        self.assertIsNone(self.fault_of(Steered))

    def test_falsified_programs(self) -> None:
        for kind, told in ((Keeping, 'all questions'), (Halving, 'all questions'), (Refusing, 'given again'),
                           (Silent, 'it ended and said')):
            self.assertIn(told, self.fault_of(kind) or 'nothing', kind.__name__)


class Answers(unittest.TestCase):
    """Transcripts of a script, some of them falsified."""

    def setUp(self) -> None:
        self.notebook = Notebook(BOOK, program(), shim())
        self.addCleanup(self.notebook.close)
        self.script = self.notebook.script
        self.wanted = self.notebook.told(self.notebook.commands).answers

    def refuses(self, answers: List[bytes], has_ended: bool = False) -> bool:
        try:
            self.script.judged(b''.join(answers), has_ended)
        except Fault:
            return True
        return False

    def test_right_ones(self) -> None:
        commands, wanted = self.notebook.commands, list(self.wanted)
        self.assertEqual(self.script.judged(b''.join(wanted), False), frozenset())
        at = next(at for at, it in enumerate(commands) if it.startswith(b'edit '))
        without = list(self.notebook.told(commands[:at] + commands[at + 1:]).answers)
        self.assertFalse(self.refuses(without[:at] + [WANT] + without[at:]))
        whole = b''.join(wanted)
        for length in range(len(whole)):
            self.assertFalse(self.refuses([whole[:length]], True))

    def test_falsified_ones(self) -> None:
        commands, wanted = self.notebook.commands, list(self.wanted)
        at = next(at for at, it in enumerate(commands) if it.startswith(b'edit '))
        shown = next(at for at, it in enumerate(commands) if it.startswith(b'show '))
        for falsified in (
                wanted[:at] + [WANT] + wanted[at + 1:],             # the edit was refused, and its source kept
                wanted[:shown] + [WANT] + wanted[shown + 1:],       # no edit, and no question that may want memory
                wanted[:-1], wanted + wanted[-1:], wanted[1:],
                wanted[:shown] + [wanted[shown].replace(b'11', b'12')] + wanted[shown + 1:]):
            self.assertTrue(self.refuses(falsified), falsified)
            self.assertTrue(self.refuses([b''.join(falsified) + b'?'], True))

    def test_answers_are_cut(self) -> None:
        answers = [b'ok\n', b'text 4\nend\n\nrefused 1 Stmt.NoName x\nsave s 8\nend\n', b'names 2\nend\nok\n',
                   b'source 3\na\nb\n', b'names 0\n', b'text 0\nok\nend\n']
        self.assertEqual(answers_of(b''.join(answers)), answers)
        for cut in (b'text 9\nok\nend\n', b'names 2\nx\n', b'ok', b'source 2\na', b'text 0\nok\n'):
            self.assertRaises(ValueError, answers_of, cut)

    def test_commands_are_cut(self) -> None:
        script = b'\n# no\ninsert 0\nx\n..\n.\ninsert 01\nx = 1\n.\nedit 18446744073709551616\ncount\ninsert 7\n#'
        self.assertEqual(commands_of(script), [b'insert 0\nx\n..\n.\n', b'insert 01\n', b'x = 1\n', b'.\n',
                                               b'edit 18446744073709551616\n', b'count\n', b'insert 7\n#\n'])


class Streams(unittest.TestCase):
    """A failed read or write that is passed over, retried, or told wrongly."""

    def setUp(self) -> None:
        self.wanted = streams.run().output
        self.faults = refusals.Faults(write_bytes=7, failed_write=3, write_error=errno.EIO)
        self.ran = streams.run(self.faults)

    def fault_of(self, **changes: object) -> str:
        return streams.fault_of(dataclasses.replace(self.ran, **changes), 'write', self.wanted)

    def test_the_program_is_right(self) -> None:
        self.assertEqual(self.fault_of(), '')
        self.assertEqual(len(self.ran.output), streams.written_before(self.wanted, self.faults))

    def test_falsified_runs(self) -> None:
        cut = len(self.ran.output)
        for changes in ({'output': self.wanted[:cut] + self.wanted[cut + 7:]}, {'status': 0}, {'errors': b''},
                        {'output': self.wanted[:cut] + b'?'}, {'status': -11}, {'status': None},
                        {'errors': streams.CAUSES['read']}):
            self.assertNotEqual(self.fault_of(**changes), '', changes)


class Inputs(unittest.TestCase):
    """A header length that is trusted, a fault without a name, elements from elsewhere."""

    def test_falsified_files(self) -> None:
        whole, named = answers_to(LOAD, [b'npy ' + FILE.hex().encode()])[0][1], named_faults()
        self.assertEqual(file_fault(HEADER, FILE, HEADER, whole), '')
        self.assertNotEqual(front_fault(len(FILE) - 1, HEADER, whole), '')
        self.assertNotEqual(front_fault(8, HEADER, Found('Npy.BadHeader', (0,), b'')), '')
        self.assertNotEqual(file_fault(0, FILE, HEADER, whole), '')
        self.assertNotEqual(file_fault(9, FILE, HEADER, dataclasses.replace(whole, elements=b'\x66')), '')
        self.assertNotEqual(file_fault(30, FILE, HEADER, Found('Npy.BadHeader', (19,), b'')), '')
        self.assertNotEqual(file_fault(HEADER, FILE, HEADER, Found('Npy.BadDescr', (), b'')), '')
        self.assertNotEqual(format_fault(b'T{', Found('Format.Unclosed', (3,), b'')), '')
        for shown, value in ((b'text 0\nok\nend\n', b'array B 1 2,3 0002\n'), (b'text 0\nok\nend\n', b'refused NoName x\n'),
                             (b'text 0\nrefused 1 Npy.Bad\nend\n', b'refused NoName x\n'),
                             (b'text 0\nrefused 1 Npy.BadHeader\nend\n', b'refused NoName x\n'),
                             (b'text 0\nrefused 1 Npy.BadKeys\nend\n', b'array B 1 1 00\n'), (b'ok\n', b'ok\n')):
            self.assertIsNone(found(shown, value, named), (shown, value))

    def test_a_length_that_is_trusted(self) -> None:
        longer = FILE[:8] + b'\xff' + FILE[9:]
        self.assertEqual(file_fault(8, longer, HEADER, Found('Npy.Truncated', (), b'')), '')
        self.assertNotEqual(file_fault(8, longer, HEADER, Found('Npy.BadHeader', (57,), b'')), '')

    @needs_numpy
    def test_falsified_beside_numpy(self) -> None:
        right = answers_to(LOAD, [b'npy ' + STRUCTURES.hex().encode()])[0][1]
        self.assertEqual(file_difference(STRUCTURES, right), '')
        self.assertEqual(file_difference(STRUCTURES, Found('Npy.BadDescr', (), b'')), '')
        for falsified in (dataclasses.replace(right, elements=right.elements[::-1]),
                          dataclasses.replace(right, layout=right.layout.replace('<', '>')),
                          dataclasses.replace(right, layout=right.layout + ',1'),
                          Found('Npy.Truncated', (), b'')):
            self.assertNotEqual(file_difference(STRUCTURES, falsified), '', falsified)

    def test_the_documents_name_faults(self) -> None:
        named = named_faults()
        self.assertEqual((named['Npy.BadHeader'], named['Npy.BadMagic'], named['Format.Unclosed']), (1, 0, 1))


class RandomScripts(unittest.TestCase):
    def test_falsified_runs(self) -> None:
        script, right = b'insert 0\nprint(1)\n.\nshow 0\n', b'ok\ntext 2\n1\nok\nend\n'
        self.assertEqual(test_random_scripts.fault_of(script, 0, right, b''), '')
        for status, output, errors in ((-11, right, b''), (0, right[:-4], b''), (0, right + b'ok\n', b''),
                                       (0, right, b'?'), (1, right, b''), (0, b'ok\nno form\n', b''),
                                       (0, b'ok\narray B 1 2 00\n', b'')):
            self.assertNotEqual(test_random_scripts.fault_of(script, status, output, errors), '')


if __name__ == '__main__':
    unittest.main()
