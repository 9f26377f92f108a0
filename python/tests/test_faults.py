"""Sentences for refusals: every fault word of the program has one, and each says what to do."""
import re
import unittest
from pathlib import Path

from ndnote.faults import FAULTS, column, told, words

TOP = Path(__file__).resolve().parents[2]


def texts(path):
    """The words that a source file of the program appends to an answer or returns."""
    source = path.read_text('utf-8')
    return set(re.findall(r'"([A-Z][A-Za-z]+)(?: [^"]*)?"', re.sub(r'ensures \{.*?\n\{', '', source, flags=re.S)))


class Faults(unittest.TestCase):
    def test_every_fault_of_a_cell_has_a_sentence(self):
        """The functions of fault.rt write one group each; a group's names follow its word."""
        path, = (path for path in TOP.glob('crates/*/src/fault.rt') if 'push_cell_fault' in path.read_text('utf-8'))
        source = path.read_text('utf-8')
        groups = set(re.findall(r'push_text\(out, "([A-Z][a-z]+)\."\)', source)) | {'Shape', 'View'}
        self.assertEqual(groups, {'Parse', 'Format', 'Npy', 'View', 'Index', 'Shape', 'Ufunc', 'Reduce', 'Stmt'})
        said = {name.split('.')[1] for name in FAULTS if '.' in name}
        found = texts(path) - groups
        self.assertGreater(len(found), 45)
        self.assertEqual(found - said, set())
        self.assertEqual(said - found, set())

    def test_every_fault_of_a_group_has_a_sentence(self):
        """The definitions have a list for each group, as `view_text OutOfBlock = codes "OutOfBlock"`."""
        lists = (TOP / 'crates/nd_model/specs/Text/FaultText.antt').read_text('utf-8')
        for front, name in re.findall(r'^(\w+)_text .* = codes "([A-Z]\w*) ?"', lists, re.M):
            if front in ('edit_fault', 'query_fault'):
                self.assertIn(name, FAULTS)
            else:
                self.assertIn(f'{front.capitalize()}.{name}', FAULTS)

    def test_every_fault_of_an_edit_or_a_question_has_a_sentence(self):
        path, = (path for path in TOP.glob('crates/*/src/answer.rt') if 'EditFault' in path.read_text('utf-8'))
        found = texts(path)
        self.assertIn('NoCell', found)
        self.assertEqual(found - set(FAULTS), set())

    def test_sentences(self):
        self.assertEqual(words('Index.OutOfBounds 0 7 5').wrong, 'index 7 is outside axis 0, which has length 5')
        self.assertEqual(words('Index.NoField a b').wrong, 'no field is called a b')
        self.assertEqual(words('Future.Fault 1').wrong, 'the program refused this')
        self.assertEqual(words('NoCell 3 2').wrong, 'there is no cell 3: the notebook has 2')
        for name, fault in FAULTS.items():
            self.assertNotIn('{', words(name + ' 1 2 3').wrong)
            self.assertNotIn('{', words(name).wrong.replace('{0}', '').replace('{1}', '').replace('{2}', ''))
            self.assertRegex(fault.help, r'^[A-Z].*\.$')
            self.assertNotRegex(fault.wrong, r'\.$')

    def test_tokens_and_columns_are_of_characters(self):
        self.assertEqual(column('Parse.BadToken 6', "x='é$'"), 4)
        self.assertIsNone(column('Stmt.NoName 3', 'abc'))
        self.assertEqual(told('Parse.UnknownCall 8', 'x = np.sort(y)').wrong,
                         '`sort` is no function or attribute of this language')
        self.assertIn('the end of the statement', told('Parse.Unexpected 8', 'x = 1 +').wrong)


if __name__ == '__main__':
    unittest.main()
