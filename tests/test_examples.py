"""The examples of the documentation: what the program answers is what stands there, and a changed answer is told."""
import importlib.util
import io
import os
import sys
import tempfile
import unittest
from contextlib import redirect_stderr, redirect_stdout
from importlib.machinery import SourceFileLoader
from pathlib import Path
from types import ModuleType
from typing import List, Tuple

TOP = Path(__file__).resolve().parent.parent


def tool() -> ModuleType:
    sys.dont_write_bytecode = True
    loader = SourceFileLoader("examples", str(TOP / "tools/examples"))
    module = importlib.util.module_from_spec(importlib.util.spec_from_loader("examples", loader))
    loader.exec_module(module)
    return module


EXAMPLES = tool()
SCRIPT = "```ndn\ncount\n```\nIt is answered\n```answers\ncount 0\n```\n"
DESK = ("```desk\ninsert 0\nnp.save('f', 1)\n.\nsave 0 f f.npy\ninput f file f.npy\ntype 0 x\n```\n"
        "```answers\nok\nok\nok\nrefused NoName x\n```\n")
NOTEBOOK = """# One
```cell
x = np.arange(3)
print(x)
```
```answers
[0 1 2]
```
```cell
print(x.sum())
y = x[9]
```
```answers
3
refused 2 Index.OutOfBounds 0 9 3
```
```edit 0
x = np.arange(4)
np.save('x', x)
```
```answers
save x 160
```
```answers 1
6
refused 2 Index.OutOfBounds 0 9 4
```
"""
TABLE = """## Two
```cell
x = np.arange(4).reshape(2, 2)
```
| Example | Form | Gives |
|---|---|---|
| `x` | an expression | `[[0 1]`<br>` [2 3]]` |
| `y = x \\| 4`<br>`y[0]` | | `[4 5]` |
| `y = x[2]` | | `Index.OutOfBounds 0 2 2` |
| `x[0] = 9` | done | |
| `input b buffer B 1 2 1 0 0102`<br>`buffer('b')` | | `[1 2]` |
| (none) | | |
"""


def run(*paths: Path) -> Tuple[int, List[str]]:
    out = io.StringIO()
    with redirect_stdout(out), redirect_stderr(out):
        status = EXAMPLES.main([str(path) for path in paths])
    return status, out.getvalue().splitlines()


class Written(unittest.TestCase):
    """Documents that are written for a test."""

    def setUp(self) -> None:
        folder = tempfile.TemporaryDirectory()
        self.addCleanup(folder.cleanup)
        self.path = Path(folder.name) / "page.md"

    def run_text(self, text: str) -> Tuple[int, List[str]]:
        self.path.write_text(text, encoding="utf-8")
        return run(self.path)

    def test_right_answers_pass(self) -> None:
        for text, count in ((SCRIPT, 1), (DESK, 1), (NOTEBOOK, 4), (TABLE, 5), (SCRIPT + NOTEBOOK + TABLE, 10)):
            self.assertEqual(self.run_text(text), (0, [f"{count} passed, 0 failed"]))

    def test_each_changed_answer_is_told_with_its_line(self) -> None:
        for text, old, new, line in (
                (SCRIPT, "count 0", "count 1", 5), (DESK, "NoName x\n```", "NoName y\n```", 9),
                (NOTEBOOK, "[0 1 2]", "[0 1 3]", 6),
                (NOTEBOOK, "\n3\n", "\n4\n", 13), (NOTEBOOK, "Bounds 0 9 3", "Bounds 0 9 4", 13),
                (NOTEBOOK, "save x 160", "save x 161", 21),
                (NOTEBOOK, "Bounds 0 9 4", "Bounds 0 9 5", 24), (TABLE, "` [2 3]]`", "` [2 4]]`", 7),
                (TABLE, "`[4 5]`", "`[4 5 6]`", 8), (TABLE, "Bounds 0 2 2", "Bounds 1 2 2", 9),
                (TABLE, "`x[0] = 9`", "`x[9] = 9`", 10), (TABLE, "`[1 2]`", "`Stmt.NoInput b`", 11)):
            status, lines = self.run_text(text.replace(old, new))
            self.assertEqual((status, len(lines)), (1, 2), (old, lines))
            self.assertRegex(lines[0], rf"page\.md:{line}: ")
            self.assertRegex(lines[1], r"^\d+ passed, 1 failed$")

    def test_the_first_difference_is_told(self) -> None:
        _, lines = self.run_text(SCRIPT.replace("count 0", "count 0\ncount 1"))
        self.assertIn("line 2 of the answers: written 'count 1', answered '(nothing more)'", lines[0])

    def test_a_heading_ends_the_notebook(self) -> None:
        status, lines = self.run_text(NOTEBOOK + "# Other\n```cell\nprint(x)\n```\n```answers\n[0 1 2 3]\n```\n")
        self.assertEqual(status, 1)
        self.assertIn("answered 'refused 1 Stmt.NoName x'", lines[0])

    def test_what_is_written_wrongly_is_told(self) -> None:
        for text, told in (
                ("```ndn\ncount\n```\n", "this script has no answers"), ("```ndn\ncount\n", "this fence does not end"),
                ("```answers\n1\n```\n", "there is no cell -1"), ("```edit 3\nx = 1\n```\n", "there is no cell 3"),
                ("| Example | Gives |\n|---|---|\n| `x` |\n", "this row has 1 cells"),
                ("| Example | Gives |\n|---|---|\n| `input b npy -` | |\n", "this row has no cell")):
            status, lines = self.run_text(text)
            self.assertEqual(status, 1)
            self.assertIn(told, lines[0])

    def test_an_edit_that_is_refused_is_no_answer(self) -> None:
        status, lines = self.run_text("```cell\n" + "#" * 65537 + "\n```\n```answers\n```\n")
        self.assertEqual(status, 1)
        self.assertIn("refused CellTooLong", lines[0])

    def test_an_input_that_is_not_there_is_told(self) -> None:
        status, lines = self.run_text("```cell x=none.npy\nx = 1\n```\n```answers\n```\n")
        self.assertEqual(status, 1)
        self.assertIn("the program ended with 3", lines[0])

    def test_a_file_that_is_not_there_is_told(self) -> None:
        status, lines = run(self.path)
        self.assertEqual(status, 2)
        self.assertIn("page.md", lines[0])


class Documents(unittest.TestCase):
    """The documents and the scripts of the repository."""

    def test_all_examples_have_their_answers(self) -> None:
        status, lines = run()
        self.assertEqual(status, 0, "\n" + "\n".join(lines))

    def test_each_document_has_examples(self) -> None:
        for name in EXAMPLES.DOCUMENTS:
            examples = list(EXAMPLES.markdown_examples((TOP / name).read_text(encoding="utf-8")))
            self.assertGreater(len(examples), 1, name)

    def test_each_refusal_has_an_example(self) -> None:
        texts = (TOP / "crates/nd_model/specs/Text/FaultText.antt").read_text(encoding="utf-8")
        groups = {group: name for group, name in EXAMPLES.re.findall(r'codes "([A-Z]\w+)\." \+\+ (\w+_text)', texts)}
        self.assertEqual(len(groups), 9)
        page = (TOP / "docs/SCRIPT.md").read_text(encoding="utf-8")
        for group, table in groups.items():
            for name in EXAMPLES.re.findall(rf'^{table} .*= codes "(\w+)', texts, EXAMPLES.re.MULTILINE):
                with self.subTest(refusal=f"{group}.{name}"):
                    self.assertRegex(page, rf"(?m)^\| `{group}\.{name}[ `]")

    def test_a_script_has_its_answers_beside_it(self) -> None:
        self.assertEqual(run(TOP / "examples/first.ndn"), (0, ["1 passed, 0 failed"]))


if __name__ == "__main__":
    os.chdir(TOP)
    unittest.main()
