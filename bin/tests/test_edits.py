"""How bin/try-edits --together judges an edit by what a check says, and the log of tries. The words are those of checks of a crate with
three functions: `low`, and `high` and `higher`, which call it.

    python3 -m unittest discover -s bin/tests
"""
import os
import re
import subprocess
import sys
import unittest

TOP = os.path.dirname(os.path.dirname(os.path.dirname(os.path.realpath(__file__))))
sys.path.insert(0, os.path.dirname(os.path.dirname(os.path.realpath(__file__))))
import edit_rounds

OPEN_GOAL = "note: src/lib.rt:13:1: it is not proved that what the function ensures holds when it returns (`returns`)\n"
# An error over two lines; a file of the proof then names what the edit took away.
TAKEN_AWAY = """./proofs/high/Answers.antt:5:36: error: `returns`: this projects from `c`, whose type is record `Rattle.spike.proofs.high.Given`
  has no field `low-first`
"""
GONE_GOAL = "./proofs/high/Answers.antt:4:15: error: `returns-in_if`: `goal.returns-in_if` is not in scope: not a local variable, nor a definition admitted earlier\n"
NOT_PROVED = "fn spike::high: not proved"
LOW = """note: src/lib.rt:6:1: it is not proved that what the function ensures holds when it returns (`returns`)
fn spike::low: no proof: expected answers in ./proofs/low/Answers.antt; `search` did not prove `returns`
"""


class Crate:
    """Stands for a copy whose checks say what is given here, each in its turn, and which tells what was asked of it."""

    name, folder = "spike", ""

    def __init__(self, *said):
        self.said, self.asked = list(said), []

    def check(self, texts, functions, seed):
        self.asked.append(functions)
        self.stdout = self.said.pop(0)
        return self

    def alone(self, edit, seed):
        self.asked.append("the crate")
        return True, "must-fail spike: refused, as it must be"


class Rounds(unittest.TestCase):
    def judged(self, said, function="spike::high"):
        return edit_rounds.judged(Crate(), said, function)

    def tried(self, crate, *functions):
        planted, edit_rounds.edit_files.planted = edit_rounds.edit_files.planted, lambda folder, edits: ({"src/lib.rt": ""}, "")
        try:
            return edit_rounds.try_round(crate, [(f"{it}.edit", [f"spike::{it}"]) for it in functions], "")
        finally:
            edit_rounds.edit_files.planted = planted

    def test_an_open_goal_of_its_own_is_a_refusal(self):
        is_refused, line = self.judged(f"{OPEN_GOAL}fn spike::high: no proof: expected answers; `search` did not prove `returns`")
        self.assertTrue(is_refused)
        self.assertIn("src/lib.rt:13:1", line)

    def test_a_function_that_is_still_proved_is_not_refused(self):
        self.assertEqual(self.judged("fn spike::high: proved")[0], False)

    def test_a_function_that_calls_one_without_a_proof_is_not_judged(self):
        self.assertIsNone(self.judged(f"{LOW}fn spike::high: no proof: it calls `spike::low`, which is not proved"))

    def test_nor_is_it_by_an_error_in_its_proof(self):
        said = f"./proofs/high/Answers.antt:5:36: error: `returns`: these two differ\n{LOW}fn spike::high: not proved; it calls `spike::low`, which is not proved"
        self.assertIsNone(self.judged(said))

    def test_nor_by_a_goal_that_is_open(self):
        self.assertIsNone(self.judged(f"{LOW}{OPEN_GOAL}fn spike::high: no proof: expected answers; it calls `spike::low`, which is not proved"))

    def test_the_called_one_is_judged_all_the_same(self):
        self.assertTrue(self.judged(f"{LOW}fn spike::high: no proof: it calls `spike::low`, which is not proved", "spike::low")[0])

    def test_a_closure_of_its_own_is_no_other_function(self):
        said = f"{OPEN_GOAL}fn spike::fn::high::0: no proof: expected answers\nfn spike::high: no proof: it calls `spike::fn::high::0`, which is not proved"
        self.assertTrue(self.judged(said)[0])

    def test_an_error_of_an_answer_is_a_refusal(self):
        is_refused, line = self.judged(f"./proofs/high/Answers.antt:5:36: error: `returns`: these two differ:\n  1 and 2\n{NOT_PROVED}")
        self.assertTrue(is_refused)
        self.assertIn("these two differ: 1 and 2", line)

    def test_so_is_one_with_a_remark_on_a_name_that_it_shows(self):
        remark = "`k` is not in scope here, so what is shown does not paste back as it stands"
        said = f"./proofs/high/Answers.antt:5:36: error: `returns`: these two differ:\n  `k` and 2\n  {remark}\n{NOT_PROVED}"
        self.assertNotIn("only since", self.judged(said)[1])

    def test_an_error_over_two_lines_that_tells_of_a_missing_field_says_little(self):
        is_refused, line = self.judged(f"{TAKEN_AWAY}{NOT_PROVED}")
        self.assertTrue(is_refused)
        self.assertIn("only since a proof names", line)
        self.assertIn("has no field `low-first`", line)

    def test_beside_it_an_open_goal_of_its_own_is_a_refusal(self):
        said = f"{TAKEN_AWAY}note: src/lib.rt:14:5: it is not proved that what `low` requires holds at this call (`low-requires`)\nfn spike::high: no proof"
        self.assertIn("low-requires", self.judged(said)[1])

    def test_an_open_goal_whose_answer_has_another_name_says_little(self):
        said = f"{GONE_GOAL}{OPEN_GOAL}fn spike::high: no proof: expected answers; `search` did not prove `returns`"
        self.assertIn("only since a proof names", self.judged(said)[1])

    def test_so_do_those_of_a_loop_whose_invariant_has_another_name(self):
        said = GONE_GOAL.replace("Answers", "Invariants").replace("returns-in_if", "invariant-loop-x") + f"{OPEN_GOAL}fn spike::high: no proof: expected answers"
        self.assertIn("only since a proof names", self.judged(said)[1])

    def test_an_open_goal_of_another_kind_or_clause_is_a_refusal(self):
        for goal in ("low-requires", "overflow_add-sum", "returns-clause-told"):
            left = OPEN_GOAL.replace("`returns`", f"`{goal}`")
            said = f"{GONE_GOAL.replace('in_if', 'clause-kept')}{left}fn spike::high: no proof: expected answers"
            self.assertIn(f"(`{goal}`)", self.judged(said)[1])

    def test_answers_and_goals_of_one_kind_may_be_one(self):
        pairs = [
            ("sync-requires", "write-requires-2"),
            ("loop-i-preserved", "loop-j-preserved"),
            ("bounds-s-i", "bounds-s-j"),
            ("returns-a-clause-kept", "returns-b-clause-kept"),
            ("returns-clause-kept", "returns-2"),
        ]
        self.assertEqual([it for it in pairs if not edit_rounds.may_be_one(*it)], [])

    def test_an_error_of_a_function_that_ends_in_the_same_name_is_not_its_own(self):
        said = f"./proofs/other/high/Answers.antt:5:36: error: `returns`: these two differ\n{NOT_PROVED}"
        self.assertIn("only since a proof names", self.judged(said)[1])

    def test_one_of_its_type_and_one_of_its_cycle_of_calls_are(self):
        for place, function in (("stores/Store/put", "Store::put"), ("+high", "spike::high"), ("low/+high", "spike::low::high")):
            name = function if function.startswith("spike") else f"spike::stores::{function}"
            said = f"./proofs/{place}/Answers.antt:5:36: error: `returns`: these two differ\nfn {name}: not proved"
            self.assertIn("these two differ", self.judged(said, function)[1])

    def test_a_limit_of_the_prover_is_told_as_one(self):
        said = "./proofs/high/Answers.antt:5:1: error: `returns`: antt ran out of stack\nfn spike::high: could not tell"
        self.assertIn("only by a limit", self.judged(said)[1])

    def test_of_an_edit_in_two_functions_the_refusal_that_says_most_is_told(self):
        said = f"{TAKEN_AWAY}{NOT_PROVED}\n{OPEN_GOAL}fn spike::higher: no proof: expected answers"
        planted, edit_rounds.edit_files.planted = edit_rounds.edit_files.planted, lambda folder, edits: ({"src/lib.rt": ""}, "")
        try:
            results = edit_rounds.try_round(Crate(said), [("both.edit", ["spike::high", "spike::higher"])], "")
        finally:
            edit_rounds.edit_files.planted = planted
        self.assertIn("(`returns`)", results[0][1])

    def test_an_edit_that_waits_is_tried_alone(self):
        said = f"{LOW}fn spike::high: no proof: it calls `spike::low`, which is not proved"
        crate = Crate(said, "fn spike::high: proved")
        results = self.tried(crate, "low", "high")
        self.assertEqual(crate.asked, [["spike::low", "spike::high"], ["spike::high"]])
        self.assertEqual([it for it, _ in results], [True, False])

    def test_an_edit_that_waits_alone_too_is_tried_by_the_whole_crate(self):
        crate = Crate("fn spike::high: no proof: it calls `spike::low`, which is not proved")
        self.assertEqual([it for it, _ in self.tried(crate, "high")], [True])
        self.assertEqual(crate.asked, [["spike::high"], "the crate"])


class Functions(unittest.TestCase):
    def function(self, head):
        text = f"use x;\n\n{head} {{\n    pub fn first(&self) {{}}\n\n    pub fn second(&self) {{\n        here();\n    }}\n}}\n"
        return edit_rounds.function_at(text, text.index("here"), "spike::stores")

    def test_a_method_is_named_as_a_check_tells_it(self):
        heads = {
            "impl<K: Keeper> Store<K>": "Store::second",
            "impl Store": "Store::second",
            "impl Store<Shelf>": "Store+Shelf::second",
            "impl<'a> Store<'a>": "Store::second",
            "impl<K: Keeper> Source for Store<K>": "StoreSource::second",
            "impl From<Shelf> for Store": "StoreFromShelf::second",
            "pub trait Stores": "Stores::second",
        }
        self.assertEqual({head: self.function(head) for head in heads}, heads)

    def test_a_function_of_a_module_has_its_module(self):
        text = "pub(crate) fn low() {\n    here();\n}\n"
        self.assertEqual(edit_rounds.function_at(text, text.index("here"), "spike::stores"), "spike::stores::low")


class Listed(unittest.TestCase):
    def test_each_wrong_body_that_edits_readme_lists_stands(self):
        with open(f"{TOP}/edits/README.md", encoding="utf-8") as file:
            rows = [line for line in file.read().split("\n") if line.startswith("| ") and not line.startswith("| what ")]
        named = re.findall(r"`([\w/]+)`", "".join(rows))
        self.assertTrue(rows and all("`" in row for row in rows))
        self.assertEqual([it for it in named if not os.path.isfile(f"{TOP}/edits/{it}.edit")], [])


class Log(unittest.TestCase):
    def run_script(self, *words):
        return subprocess.run([f"{TOP}/bin/edits-tried", *words], stdout=subprocess.PIPE, stderr=subprocess.PIPE, text=True)

    def test_each_row_is_of_a_crate_and_of_edits_that_stand(self):
        ran = self.run_script("--check")
        self.assertEqual((ran.stdout, ran.stderr, ran.returncode), ("", "", 0))

    def test_the_last_tries_of_a_crate_are_told(self):
        ran = self.run_script("ak_undo")
        self.assertTrue(ran.stdout.startswith("ak_undo: "), ran.stdout)
        self.assertIn("2026-11-29, together", ran.stdout)

    def test_an_unknown_crate_and_an_unknown_word_are_refused(self):
        self.assertEqual([self.run_script(it).returncode for it in ("ak_nothing", "--nothing")], [2, 2])


if __name__ == "__main__":
    unittest.main()
