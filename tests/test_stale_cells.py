"""Tests of `stale_cells`: notebooks whose stale cells and reads follow from the definition of what a cell reads."""
import sys
import unittest
from typing import List

sys.dont_write_bytecode = True
from random_edits import Book, Edit, Input, is_read  # noqa: E402
from stale_cells import Pass, Told  # noqa: E402


def book_of(texts: List[str], rule: str = "python") -> Book:
    book = Book()
    book.make(Edit("rule", name=rule))
    for at, text in enumerate(texts):
        book.make(Edit("insert", at, text=text))
    return book


def pass_of(book: Book) -> Pass:
    return Pass().then(book.cells, book.inputs, is_read, book.rule)


def stale_after(texts: List[str], edit: Edit, rule: str = "python") -> int:
    """How many cells an edit makes stale in a notebook of these texts under a rule."""
    book = book_of(texts, rule)
    before = pass_of(book)
    book.make(edit)
    return len(before.then(book.cells, book.inputs, is_read, book.rule).stale)


class StaleCells(unittest.TestCase):
    def test_another_element_is_written(self) -> None:
        texts = ["x = np.arange(4)", "x[0] = 5", "print(x[1:])"]
        self.assertEqual(stale_after(texts, Edit("edit", 1, text="x[0] = 6")), 1)

    def test_an_element_that_is_printed_is_written(self) -> None:
        texts = ["x = np.arange(4)", "x[0] = 7", "x[3] = 9", "print(x)"]
        self.assertEqual(stale_after(texts, Edit("edit", 1, text="x[0] = 8")), 2)

    def test_an_array_that_no_other_cell_reads(self) -> None:
        texts = ["x = np.arange(3)", "y = np.arange(3)", "print(x)"]
        self.assertEqual(stale_after(texts, Edit("edit", 1, text="y = np.arange(4)")), 1)

    def test_a_buffer_has_more_bytes_than_its_array(self) -> None:
        book = book_of(["x = buffer('b')", "y = x", "print(y)"])
        for data, stale in ((b"\x05\x02", [0, 1, 2]), (b"\x05\x02\x03", [0, 1, 2]), (b"\x05\x02\x04", [0])):
            before = pass_of(book)
            book.make(Edit("input", name="b", input=Input("buffer", "", tuple(data), "int8", 2)))
            self.assertEqual(before.then(book.cells, book.inputs, is_read).stale, stale)

    def test_the_last_cell_is_removed(self) -> None:
        self.assertEqual(stale_after(["x = np.arange(3)", "print(x)"], Edit("remove", 1)), 0)

    def test_a_value_is_read_before_its_target_is_refused(self) -> None:
        texts = ["x = np.arange(3)", "y = np.arange(3)", "x[1] = 5", "y[9] = x"]
        self.assertEqual(stale_after(texts, Edit("edit", 2, text="x[1] = 6")), 2)

    def test_a_text_that_is_no_cell_reads_nothing(self) -> None:
        texts = ["x = np.arange(3)", "print(x)\nx = 1 +"]
        self.assertEqual(stale_after(texts, Edit("edit", 0, text="x = np.arange(2)")), 1)

    def test_a_refused_cell_and_its_reader_where_the_rule_changes(self) -> None:
        texts = ["x = np.arange(3)", "x[0] = 5\nnp.save('a', x)\nprint(x[0])\nprint(q)", "print(x)", "print(x[1:])"]
        for rule, other in (("python", "atomic"), ("atomic", "python")):
            self.assertEqual(stale_after(texts, Edit("rule", name=other), rule), 2)

    def test_the_present_rule_is_set(self) -> None:
        for rule in ("python", "atomic"):
            self.assertEqual(stale_after(["x = np.arange(3)", "x[0] = 5\nprint(q)"], Edit("rule", name=rule), rule), 0)

    def test_cells_that_are_not_refused_where_the_rule_changes(self) -> None:
        texts = ["x = np.arange(6)", "y = x[1:4]", "y += 10", "print(x)"]
        self.assertEqual(stale_after(texts, Edit("rule", name="atomic")), 0)

    def test_a_text_that_is_no_cell_where_the_rule_changes(self) -> None:
        self.assertEqual(stale_after(["x = 1 +", "x = 1"], Edit("rule", name="atomic")), 1)

    def test_a_cell_is_refused_and_what_it_wrote_is_undone(self) -> None:
        texts = ["x = np.arange(3)", "x[0] = 5", "print(x)"]
        edit = Edit("edit", 1, text="x[0] = 5\nprint(q)")
        self.assertEqual([stale_after(texts, edit, rule) for rule in ("python", "atomic")], [1, 2])

    def test_a_refused_cell_runs_again_and_leaves_nothing_again(self) -> None:
        texts = ["x = np.arange(3)", "x[0] = x[2]\nprint(q)", "print(x[:2])"]
        edit = Edit("edit", 0, text="x = np.arange(3)\nx[2] = 9")
        self.assertEqual([stale_after(texts, edit, rule) for rule in ("python", "atomic")], [3, 2])


class WhoReadsWhom(unittest.TestCase):
    def told(self, texts: List[str], rule: str = "python") -> Told:
        """What the last cell of these texts read."""
        return pass_of(book_of(texts, rule)).told(len(texts) - 1)

    def test_through_a_view_the_last_that_wrote_what_was_read(self) -> None:
        texts = ["x = np.arange(6)", "y = x[2:4]", "x[2] = 5", "x[0] = 7", "print(y[0])"]
        self.assertEqual(self.told(texts), Told({"y": 1}, set(), {(0, 2)}))

    def test_a_name_that_is_gone_or_never_was(self) -> None:
        self.assertEqual(self.told(["x = 1", "del x", "a = x"]), Told({"x": 1}, set(), set()))
        self.assertEqual(self.told(["y = 1", "a = x"]), Told({"x": None}, set(), set()))

    def test_what_a_cell_made_or_bound_itself_is_not_read(self) -> None:
        self.assertEqual(self.told(["x = np.arange(3)", "x = np.arange(2)\nprint(x)"]), Told({}, set(), set()))

    def test_elements_of_a_view_are_read_behind_the_value(self) -> None:
        texts = ["x = np.arange(6)", "x[0] = 7", "x[:2] ^= q"]
        self.assertEqual(self.told(texts), Told({"x": 0, "q": None}, set(), {(0, 0)}))
        self.assertEqual(self.told([*texts[:2], "q = 1", texts[2]]).arrays, {(0, 1)})

    def test_an_element_is_read_before_the_value(self) -> None:
        self.assertEqual(self.told(["x = np.arange(6)", "x[0] = 7", "x[0] += q"]).arrays, {(0, 1)})

    def test_a_place_that_is_not_there_is_refused_before_the_value(self) -> None:
        self.assertEqual(self.told(["x = np.arange(6)", "x[9] += q"]).names, {"x": 0})
        self.assertEqual(self.told(["x = np.arange(6)", "x[9] = q"]).names, {"q": None})

    def test_an_index_is_read_whole_and_its_elements_where_they_are_copied(self) -> None:
        texts = ["x = np.arange(6)", "y = np.arange(2)", "x[1] = 7", "x[5] = 7", "y[0] = 1"]
        self.assertEqual(self.told([*texts, "x[y] = 3"]).arrays, {(0, 0), (1, 4)})
        self.assertEqual(self.told([*texts, "print(x[y])"]).arrays, {(0, 2), (1, 4)})
        self.assertEqual(self.told([*texts, "x[y] += q"]).arrays, {(0, 2), (1, 4)})
        self.assertEqual(self.told([*texts, "a = 3", "a[y] = x"]).arrays, {(0, 3), (1, 4)})

    def test_inputs(self) -> None:
        self.assertEqual(self.told(["x = np.load('none')"]), Told({}, {"none"}, set()))

    def test_a_refused_cell_that_left_nothing_is_no_writer(self) -> None:
        texts = ["x = np.arange(3)", "x[0] = 5\nprint(q)", "print(x[0])"]
        self.assertEqual(self.told(texts).arrays, {(0, 1)})
        self.assertEqual(self.told(texts, "atomic").arrays, {(0, 0)})


if __name__ == "__main__":
    unittest.main()
