"""Tests of what the tools read and write: no prover and no program is run. python3 -m unittest discover tests"""
from __future__ import annotations

import contextlib
import io
import os
import sys
import unittest
from concurrent.futures import ThreadPoolExecutor

TOOLS = os.path.join(os.path.dirname(os.path.dirname(os.path.realpath(__file__))), "tools")
sys.path.insert(0, TOOLS)

import edits  # noqa: E402
import opening  # noqa: E402
import statements  # noqa: E402
import toolchain  # noqa: E402

wrong_bodies = toolchain.loaded("wrong_bodies", f"{TOOLS}/wrong-bodies")
profile = toolchain.loaded("tool_profile", f"{TOOLS}/profile")
bench = toolchain.loaded("bench", f"{TOOLS}/bench")
definitions = toolchain.loaded("definitions", f"{TOOLS}/definitions")

SOURCE = """\
//! A module.

const MOST: usize = 3;

impl Meter {
    /// Counts.
    pub fn runs(&self) -> u64
        ensures { result ≡ self.now }
    {
        self.runs
    }

    pub fn advance(&mut self) {
        self.runs += 1;
    }
}

fn half(x: u64) -> u64 {
    x / 2
}

fn quarter(x: u64) -> u64 {
    half(half(x))
}
"""
PATH = "src/meter.rt"


def edit(name: str, *pairs: tuple[str, str]) -> wrong_bodies.Edit:
    text = "\n".join([f"file: {PATH}", *(line for old, new in pairs for line in (f"old: {old}", f"new: {new}"))])
    return wrong_bodies.edit_of("nd_meter", name, text, lambda _: SOURCE)


LOW = """\
-- What is counted.
use Rattle.std.specs.Prelude.{ℕ, suc}

-- a kind of thing
pub data Thing : Type 0 where
  Plain : Thing
  -- with how many
  Many : ℕ → Thing

infixl 10 ◌plus◌
abbrev pub ◌plus◌ : ℕ → ℕ → ℕ
(suc n) plus m = suc (n plus m)
n plus m = m

abbrev mutual
  pub even : ℕ → ℕ
  even (suc n) = odd n

  pub odd : ℕ → ℕ
  odd (suc n) = even n

abbrev pub unused : Thing
unused = Plain
"""
HIGH = """\
use Rattle.low.specs.Counts.{Thing, Many as Some, ◌plus◌}
use Rattle.low.specs.Counts as counts

abbrev pub count : Thing → ℕ
count (Some n) = n plus n

abbrev pub parity : Thing → ℕ
parity t = counts.even (count t)
"""
CALL = """\
ghost use Rattle.high.specs.Parity.{parity};

/// Counts.
pub fn told(thing: &Thing) -> u64
    // count
    ensures { result ≡ parity thing.now }
{
    count(thing)
}
"""


class Definitions(unittest.TestCase):
    """Definitions are read from their files, and those that a contract reaches are found."""

    def setUp(self):
        texts = {"Rattle.low.specs.Counts": LOW, "Rattle.high.specs.Parity": HIGH}
        self.modules = {name: definitions.read_module(f"{name}.antt", text) for name, text in texts.items()}

    def lines(self, text):
        found = definitions.reached(self.modules, [definitions.contract(text, "told")])
        return {path: sum(it.lines for it in found if it.path == path) for path in {it.path for it in found}}

    def test_a_file_has_its_definitions_with_their_lines(self):
        low = self.modules["Rattle.low.specs.Counts"].definitions
        self.assertEqual({name: it.lines for name, it in low.items()},
                         {"Thing": 3, "Plain": 3, "Many": 3, "◌plus◌": 3, "even": 2, "odd": 2, "unused": 2})
        self.assertIs(low["Many"], low["Thing"])

    def test_a_contract_reaches_what_its_clauses_name_and_what_these_name(self):
        self.assertEqual(self.lines(CALL), {"Rattle.high.specs.Parity.antt": 4, "Rattle.low.specs.Counts.antt": 10})

    def test_a_body_and_a_comment_reach_nothing(self):
        self.assertEqual(self.lines(CALL.replace("parity thing.now", "thing.now")), {})

    def test_a_contract_that_is_not_there_is_told(self):
        with self.assertRaises(ValueError):
            definitions.contract(CALL, "untold")

    def test_the_page_has_what_the_promise_reaches_now(self):
        with open(f"{definitions.ROOT}/{definitions.PAGE}", encoding="utf-8") as file:
            page = file.read()
        self.assertEqual(page, definitions.written(page, definitions.table(definitions.parts())))


class Edits(unittest.TestCase):
    """Wrong bodies are read and put into the text."""

    def test_functions_have_their_lines_and_owners(self):
        found = wrong_bodies.functions_of("nd_meter", PATH, SOURCE.split("\n"))
        self.assertEqual([(it.owner, it.name) for it in found],
                         [("Meter", "runs"), ("Meter", "advance"), ("", "half"), ("", "quarter")])
        self.assertTrue(found[0].is_named("nd_meter::meter::Meter::runs"))
        self.assertTrue(found[2].is_named("nd_meter::meter::half"))
        self.assertFalse(found[2].is_named("nd_meter::other::half"))

    def test_an_edit_names_the_functions_that_it_changes(self):
        one = edit("half_is_a_third", ("x / 2", "x / 3"))
        self.assertEqual([it.name for it in one.functions], ["half"])
        self.assertTrue(one.is_local)
        two = edit("runs_halved", ("self.runs += 1;", "*self = 1;"), ("        self.runs", "        self.runs / 2"))
        self.assertEqual({it.name for it in two.functions}, {"runs", "advance"})

    def test_an_edit_outside_functions_is_not_local(self):
        one = edit("more", ("const MOST: usize = 3;", "const MOST: usize = 4;"))
        self.assertFalse(one.is_local)

    def test_old_text_must_stand_once(self):
        with self.assertRaisesRegex(wrong_bodies.BadEdit, "2 times"):
            edit("twice", ("x: u64", "y: u64"))
        with self.assertRaisesRegex(wrong_bodies.BadEdit, "0 times"):
            edit("gone", ("x / 3", "x / 4"))

    def test_new_must_stand_behind_old(self):
        with self.assertRaisesRegex(wrong_bodies.BadEdit, "before"):
            wrong_bodies.pairs_of("file: src/a.rt\nnew: x")
        with self.assertRaisesRegex(wrong_bodies.BadEdit, "0 files"):
            wrong_bodies.pairs_of("")

    def test_hunks_of_several_edits_are_applied_together(self):
        both = [edit("a", ("x / 2", "x / 3")), edit("b", ("self.runs += 1;", "self.runs += 2;"))]
        text = "\n".join(wrong_bodies.applied([hunk for it in both for hunk in it.hunks], SOURCE.split("\n")))
        self.assertEqual(text, SOURCE.replace("x / 2", "x / 3").replace("+= 1", "+= 2"))

    def test_a_group_takes_each_function_once_and_ten_edits_at_most(self):
        half, again = edit("a", ("x / 2", "x / 3")), edit("b", ("x / 2", "x / 4"))
        other = edit("c", ("half(half(x))", "half(x)"))
        self.assertEqual([it.name for it in wrong_bodies.group_of([half, again, other])], ["a", "c"])
        functions = [wrong_bodies.Function(at, at, "c", "", f"f{at}") for at in range(25)]
        many = [wrong_bodies.Edit("c", it.name, PATH, [], [it]) for it in functions]
        self.assertEqual(len(wrong_bodies.group_of(many)), wrong_bodies.MOST_EDITS)

    def test_the_table_names_crate_function_and_edit(self):
        rows = wrong_bodies.table([edit("half_is_a_third", ("x / 2", "x / 3")), edit("more", ("= 3;", "= 4;"))])
        self.assertEqual(rows[2], "| `nd_meter` | `half` | half is a third |")
        self.assertEqual(rows[3], "| `nd_meter` | `src/meter.rt` | more |")


class Verdicts(unittest.TestCase):
    """What a check says is a reason only where it is the function's own."""

    def setUp(self):
        self.half = edit("a", ("x / 2", "x / 3"))
        self.quarter = edit("b", ("half(half(x))", "half(x)"))
        self.lines_of = {PATH: wrong_bodies.functions_of("nd_meter", PATH, SOURCE.split("\n"))}

    def judged(self, one, *said):
        return wrong_bodies.judged(one, list(said), self.lines_of)

    def test_an_open_goal_is_a_reason(self):
        said = ("fn nd_meter::meter::half: no proof: expected answers in ./proofs/meter/half/Answers.antt; "
                "`search` did not prove `returns`")
        self.assertEqual(self.judged(self.half, said), wrong_bodies.REFUSED)

    def test_a_proved_function_is_tried_alone(self):
        self.assertEqual(self.judged(self.half, "fn nd_meter::meter::half: proved"), wrong_bodies.ALONE)

    def test_a_caller_of_what_is_not_proved_waits(self):
        said = "fn nd_meter::meter::quarter: no proof: it calls `nd_meter::meter::half`, which is not proved"
        self.assertEqual(self.judged(self.quarter, said), wrong_bodies.WAITS)

    def test_an_error_in_its_own_proof_is_a_reason(self):
        said = ["./proofs/meter/quarter/Answers.antt:29:14: error: `returns`: the two types differ",
                "fn nd_meter::meter::quarter: not proved; it calls `nd_meter::meter::half`, which is not proved"]
        self.assertEqual(self.judged(self.quarter, *said), wrong_bodies.REFUSED)
        self.assertEqual(self.judged(self.half, said[0], "fn nd_meter::meter::half: not proved"), wrong_bodies.ALONE)

    def test_a_proof_that_names_what_is_gone_is_no_reason(self):
        said = ["./proofs/meter/half/Answers.antt:7:41: error: `returns`: module `Goals` has no `then` to be named",
                "./proofs/meter/half/Answers.antt:8:1: error: `returns` was not admitted",
                "fn nd_meter::meter::half: not proved"]
        self.assertEqual(self.judged(self.half, *said), wrong_bodies.ALONE)

    def test_a_warning_is_no_reason(self):
        said = ["src/meter.rt:18:5: warning: unused variable `x`", "note: src/meter.rt:18:5: the value is not used",
                "fn nd_meter::meter::half: not proved"]
        self.assertEqual(self.judged(self.half, *said), wrong_bodies.ALONE)

    def test_a_goal_at_a_line_is_the_reason_of_the_function_that_has_the_line(self):
        told = ["note: src/meter.rt:19:5: it is not proved that what the function ensures holds (`returns`)",
                "fn nd_meter::meter::half: not proved",
                "fn nd_meter::meter::quarter: not proved; it calls `x`, which is not proved"]
        self.assertEqual(self.judged(self.half, *told), wrong_bodies.REFUSED)
        self.assertEqual(self.judged(self.quarter, *told), wrong_bodies.WAITS)

    def test_a_text_that_cannot_be_read_is_told(self):
        self.assertTrue(wrong_bodies.unread(["src/meter.rt:3:1: error: expected the end of the item"]))
        self.assertTrue(wrong_bodies.unread(["specs/A.antt:3:1: error: `f`: `g` is not in scope"]))
        self.assertFalse(wrong_bodies.unread(["specs/A.antt:3:1: error: `f`: the two types differ"]))
        self.assertFalse(wrong_bodies.unread(["src/meter.rt:3:1: warning: unused", "proofs/A.antt:3:1: error: x"]))

    def test_the_last_line_counts(self):
        answers = {"c/a": "refused", "c/b": "refused"}
        self.assertEqual(wrong_bodies.last_line(answers), "2 refused, 0 not refused")
        answers.update({"c/d": "not refused", "c/e": "not judged"})
        self.assertEqual(wrong_bodies.last_line(answers), "2 refused, 1 not refused, 1 not judged: c/d c/e")


class Fake(wrong_bodies.Aside):
    """A crate whose check is a rule: `slow` passes the bound, `bad` can't be read, `b` calls `a`, `p` is proved."""

    def __init__(self):
        self.checked = []

    def only(self, edits):
        return tuple(it.functions[0].name for it in edits if it.functions)

    def check(self, edits, only):
        names = [it.name for it in edits]
        self.checked.append(names)
        if "slow" in names:
            return toolchain.Ran([], -24), {}
        if "bad" in names:
            return toolchain.Ran(["src/a.rt:1:1: error: expected the end"], 1), {}
        said = [f"fn c::m::{it}: no proof: expected answers in F; `search` did not prove `returns`" for it in names]
        if "a" in names and "b" in names:
            said[names.index("b")] = "fn c::m::b: no proof: it calls `c::m::a`, which is not proved"
        if "p" in names:
            said[names.index("p")] = "fn c::m::p: proved"
        last = "logic=proved functions=1" if names == ["p"] else "logic=not-proved"
        return toolchain.Ran([*said, last], 0 if names == ["p"] else 1), {}


def named(name: str, is_local: bool = True) -> wrong_bodies.Edit:
    functions = [wrong_bodies.Function(0, 1, "c::m", "", name)] if is_local else []
    return wrong_bodies.Edit("c", name, "src/m.rt", [], functions, is_local)


class Tries(unittest.TestCase):
    """Edits are tried in groups, in halves, again and alone."""

    def answers(self, *edits):
        fake = Fake()
        with ThreadPoolExecutor(1) as pool:
            found, alone = wrong_bodies.try_edits(fake, list(edits), pool)
        return {label.removeprefix("c/"): it for label, it in found.items()}, alone, fake.checked

    def test_a_caller_is_tried_in_the_next_group(self):
        found, alone, checked = self.answers(named("a"), named("b"))
        self.assertEqual((found, alone), ({"a": "refused", "b": "refused"}, 0))
        self.assertEqual(checked, [["a", "b"], ["b"]])

    def test_what_passes_the_bound_is_tried_in_halves(self):
        found, alone, checked = self.answers(named("x"), named("y"), named("slow"), named("z"))
        self.assertEqual(found, {"x": "refused", "y": "refused", "slow": "not judged", "z": "refused"})
        self.assertEqual((alone, checked[1:]), (0, [["x", "y"], ["slow", "z"], ["slow"], ["z"]]))

    def test_what_cannot_be_read_harms_no_other(self):
        with contextlib.redirect_stdout(io.StringIO()) as said:
            found, alone, _ = self.answers(named("x"), named("bad"))
        self.assertEqual((found, alone), ({"x": "refused", "bad": "not refused"}, 1))
        self.assertIn("BAD EDIT: c/bad", said.getvalue())

    def test_what_is_proved_is_tried_alone_and_not_refused(self):
        found, alone, checked = self.answers(named("x"), named("p"))
        self.assertEqual((found, alone), ({"x": "refused", "p": "not refused"}, 1))
        self.assertEqual(checked, [["x", "p"], ["p"]])

    def test_a_text_outside_functions_is_tried_alone(self):
        found, alone, checked = self.answers(named("x"), named("spec", is_local=False))
        self.assertEqual((found, alone), ({"x": "refused", "spec": "refused"}, 1))
        self.assertEqual(checked, [["x"], ["spec"]])


class Repository(unittest.TestCase):
    """The tools read the repository as it stands."""

    def test_each_named_crate_has_a_folder(self):
        names = toolchain.crate_names()
        self.assertEqual(len(names), len(set(names)))
        for name in names:
            self.assertTrue(os.path.isdir(f"{toolchain.ROOT}/crates/{name}/src"), name)

    def test_each_wrong_body_fits_its_crate(self):
        for name in toolchain.crate_names():
            found, faults = wrong_bodies.edits_of(toolchain.ROOT, name, ["wrong-bodies", "must-fail"])
            self.assertEqual(faults, [])
            self.assertEqual(len(found), len({it.name for it in found}), name)


class Profile(unittest.TestCase):
    """Modules are counted for the functions that they are made of."""

    def test_time_lies_between_samples(self):
        samples = [(0.0, 0.0), (10.0, 0.0), (12.0, 4.0)]
        self.assertEqual([profile.clock_at(samples, it) for it in (9.0, 11.0, 13.0)], [0.0, 2.0, 4.0])

    def test_parts_are_of_the_longest_function(self):
        modules = [(1.0, "specs.Types", 1), (2.0, "proofs.types.f.Lts", 5_000_000),
                   (3.0, "proofs.types.f.Lts.Given", 9), (4.0, "proofs.types.f.Proof", 1),
                   (6.0, "proofs.types.f.Answers", 1), (7.0, "proofs.types.f", 1)]
        costs = profile.costs_of(modules, [(0.0, 0.0), (10.0, 10.0)])
        self.assertEqual(set(costs), {profile.NO_FUNCTION, "types::f"})
        self.assertEqual(dict(costs["types::f"].parts), {"walk": 2.0, "goals": 1.0, "answers": 2.0, "rest": 1.0})
        self.assertEqual(profile.above(costs), ["types::f"])

    def test_each_function_of_a_cycle_has_a_row(self):
        modules = [(1.0, "proofs.eval.+value.Code.+value_of", 1), (2.0, "proofs.eval.+value.Code", 1),
                   (4.0, "proofs.eval.+value.Lts-value", 7), (5.0, "proofs.eval.+value.Lts-value.Given", 1),
                   (15.0, "proofs.eval.+value.Lts-value_of", 8), (16.0, "proofs.eval.+value.Kinds-value_of-5-0", 1),
                   (20.0, "proofs.eval.+value.Proof", 1), (21.0, "proofs.eval.+value.Answers", 1),
                   (22.0, "proofs.eval.+value", 1), (24.0, "proofs.eval.value.Proof", 1)]
        costs = profile.costs_of(modules, [(0.0, 0.0), (32.0, 32.0)])
        self.assertEqual(dict(costs["eval::value"].parts), {"walk": 3.0, "goals": 2.0})
        self.assertEqual(dict(costs["eval::value_of"].parts), {"walk": 10.0, "rest": 2.0})
        self.assertEqual(dict(costs["eval::+value (cycle)"].parts), {"goals": 4.0, "answers": 1.0, "rest": 2.0})
        self.assertEqual([costs[f"eval::{it}"].walk for it in ("value", "value_of", "+value (cycle)")], [7, 8, 0])
        self.assertEqual(profile.above(costs), ["eval::value_of"])

    def test_a_cycle_is_held_against_the_number_of_its_functions(self):
        modules = [(1.0, "proofs.+f.Lts-f", 1), (2.0, "proofs.+f.Lts-g", 1), (23.0, "proofs.+f.Tie", 1)]
        costs = profile.costs_of(modules, [(0.0, 0.0), (32.0, 32.0)])
        self.assertEqual(profile.above(costs), ["+f (cycle)"])

    def test_a_function_that_calls_itself_is_one_row(self):
        modules = [(1.0, "proofs.lists.+f.Lts-f", 6), (3.0, "proofs.lists.+f.Goals", 1), (4.0, "proofs.lists.+f", 1)]
        costs = profile.costs_of(modules, [(0.0, 0.0), (10.0, 10.0)])
        self.assertEqual(set(costs), {"lists::f"})
        self.assertEqual((costs["lists::f"].walk, costs["lists::f"].seconds), (6, 4.0))


class Bench(unittest.TestCase):
    """Statements, notebooks and tables are well made."""

    def test_each_statement_can_be_read(self):
        found = statements.all_statements()
        self.assertEqual(len(found), 212)
        for size in (100, 10_000, 1_000_000, 10_000_000):
            compile(statements.written(statements.SETUP, size), "setup", "exec")
            for it in found:
                text = statements.written(it.text, size)
                compile(text if it.copy else "o = " + text, it.text, "exec")
                self.assertNotRegex(text, r"\b[NRCPQ]\b")

    def test_what_people_write_most_is_measured(self):
        self.assertEqual(len(set(statements.COMMON)), 20)
        self.assertLessEqual(set(statements.COMMON), {it.text for it in statements.all_statements()})

    def test_rows_divide(self):
        self.assertEqual([statements.rows_of(it) for it in (100, 10_000, 1_000_000)], [10, 100, 1000])

    def test_the_second_smallest_counts(self):
        self.assertEqual([statements.second([3.0, 1.0, 2.0]), statements.second([3.0])], [2.0, 3.0])

    def test_a_ratio_above_one_is_faster(self):
        self.assertEqual(statements.Measured(statements.Statement("g", "x"), ours=1.0, theirs=2.0).ratio, 2.0)

    def test_the_summary_counts(self):
        one = statements.Statement("g", "x")
        found = [statements.Measured(one, 1.0, it) for it in (2.0, 1.0, 0.4, 0.2)]
        found.append(statements.Measured(one, refusal="E"))
        self.assertEqual(bench.summary(found, 1000), "4 statements of 1,000 elements: median ratio 0.70, "
                         "2 at 1.0 or above, 2 below 0.5, 1 below 0.3, 1 refused.")
        self.assertEqual(bench.worst_of(found)[0].theirs, 0.2)

    def test_a_table_has_a_rule_and_escapes_bars(self):
        rows = bench.statement_rows([statements.Measured(statements.Statement("g", "x | y"), 0.001, 0.002)])
        self.assertEqual(bench.markdown(bench.STATEMENT_COLUMNS, rows),
                         ["| Statement | ours, ms | NumPy, ms | ratio |", "|---|---:|---:|---:|",
                          "| `x \\| y` | 1.000 | 2.000 | 2.00 |"])

    def test_the_short_table_has_the_medians_and_the_means(self):
        def costs(shape: str, mean: float) -> edits.Costs:
            found = [edits.Cost(f"another value in the {it} cell", 0.001, mean, 0.9) for it in ("middle", "first")]
            return edits.Costs(shape, 10_000, whole=1.5, bytes_each=5, edits=found, peak=7)

        one = statements.Statement("g", "x")
        measured = [statements.Measured(one, 1.0, it) for it in (2.0, 1.0, 0.2)]
        measured.append(statements.Measured(one, refusal="E"))
        figures = bench.Figures(["Commit `c`; a machine."], {1000: measured},
                                {10: [], 10_000: [costs("independent", 0.0002), costs("star", 0.25)]}, [],
                                opening.Opening(0.1, 0.2, 0.3))
        lines = bench.short_report(figures)
        self.assertTrue(lines[0].startswith("Commit `c`; a machine."))
        self.assertEqual(lines[4:], [
            "| NumPy's time by ours, the median of 3 statements of 1,000 elements | 1.00 |",
            "| how many of them have a ratio below 0.3 | 1 |",
            "| another value in one of 10,000 cells, which no other reads | 0.200 ms; inserting all takes 1,500 ms |",
            "| another value in one of 10,000 cells, which all others read | 250.0 ms; inserting all takes 1,500 ms |"])

    def test_notebooks_have_as_many_cells_and_other_texts(self):
        for shape in edits.shapes(200):
            fixed = {"large": 51, "large sums": 51, "many names": 10, "input": 100}
            self.assertEqual((len(shape.cells), shape.is_fixed), (fixed.get(shape.name, 200), shape.name in fixed))
            for at in (0, len(shape.cells) // 2, len(shape.cells) - 1):
                self.assertNotEqual(shape.other(at, 5), shape.cells[at])
                compile(shape.other(at, 5), shape.name, "exec")
            for cell in shape.cells:
                compile(cell, shape.name, "exec")

    def test_the_images_are_fifty_arrays(self):
        cells = next(it for it in edits.shapes(10_000) if it.name == "images").cells
        self.assertEqual(len({it.split(" = ")[0] for it in cells if it.startswith("i") and "np.zeros" in it}), 50)

    def test_an_input_is_an_npy_file(self):
        file = edits.npy([1, -1])
        self.assertEqual(file[:8], b"\x93NUMPY\x01\x00")
        self.assertEqual((10 + int.from_bytes(file[8:10], "little")) % 64, 0)
        self.assertEqual(file[-8:], b"\xff" * 8)


if __name__ == "__main__":
    unittest.main()
