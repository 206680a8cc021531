"""That docs/CAUSES.md names what stands, and what bin/causes refuses. All but the first test work on a copy of one crate of sources and one of cases.

    python3 -m unittest discover -s bin/tests
"""
import os
import shutil
import subprocess
import tempfile
import unittest

TOP = os.path.dirname(os.path.dirname(os.path.dirname(os.path.realpath(__file__))))
SOURCE = """pub fn serve(at: u64) -> u64
    ensures known { result ≡ at }
    // Why it fails.
    ensures cause { result ≡ 1 }
{
}

pub fn law()
    ensures { (n : ℕ) → n ≡ n }
{
}
"""
HEAD = "# Why\n\n| call | ends with | when | clause or law | shown by |\n|---|---|---|---|---|\n"
ROW = "| `serve` | 503 | only if | `one::serve`: `cause`; `one::law` | `cases_one`: `serve 1` → `503 keeper` |\n"


def run(top, *words):
    return subprocess.run([f"{top}/bin/causes", *words], stdout=subprocess.PIPE, stderr=subprocess.PIPE, text=True)


class Here(unittest.TestCase):
    def test_each_clause_and_case_stands(self):
        ran = run(TOP, "--check")
        self.assertEqual((ran.stdout, ran.stderr, ran.returncode), ("", "", 0))


class Copy(unittest.TestCase):
    def setUp(self):
        self.top = tempfile.mkdtemp(prefix="kuldraff-test-")
        self.addCleanup(shutil.rmtree, self.top)
        os.mkdir(f"{self.top}/bin")
        for name in ("causes", "contract_names.py"):
            shutil.copy(f"{TOP}/bin/{name}", f"{self.top}/bin/{name}")
        self.put("crates/one/src/lib.rt", SOURCE)
        self.put("crates/cases_one/stdin", "# serve 2\nserve 1 a|b\nserve 1\n")
        self.put("crates/cases_one/stdout", "# serve 2\n200 ok\n503 keeper failed\n")
        self.put("deploy/try_one.py", "")

    def put(self, path, text):
        os.makedirs(os.path.dirname(f"{self.top}/{path}"), exist_ok=True)
        with open(f"{self.top}/{path}", "w", encoding="utf-8") as file:
            file.write(text)

    def check(self, *rows):
        self.put("docs/CAUSES.md", HEAD + "".join(rows) + "\nMore.\n\n| a | b |\n|---|---|\n| not | a row |\n")
        return run(self.top, "--check")

    def assertRefused(self, row, flaw):
        ran = self.check(row)
        self.assertEqual((ran.stdout, ran.returncode), ("", 1))
        self.assertIn(flaw, ran.stderr)

    def test_what_stands_is_told_with_its_places(self):
        self.assertEqual(self.check(ROW).stderr, "")
        self.assertEqual(run(self.top).stdout.split("\n"), [
            "`serve`: 503", "    one::serve crates/one/src/lib.rt:2", "    cause crates/one/src/lib.rt:4", "    one::law crates/one/src/lib.rt:9",
            "    serve 1 → 503 keeper crates/cases_one/stdin:3", "",
        ])

    def test_a_bar_is_written_behind_a_backslash_and_a_gap_is_any_text(self):
        self.assertEqual(self.check(ROW.replace("`serve 1` → `503 keeper`", "`serve .. a\\|b` → `200`")).returncode, 0)

    def test_a_script_or_a_reason_may_stand_for_a_case(self):
        for shown in ("`deploy/try_one.py`", "none: it never comes"):
            self.assertEqual(self.check(ROW.replace("`cases_one`: `serve 1` → `503 keeper`", shown)).returncode, 0)

    def test_a_clause_that_is_gone_is_refused(self):
        self.assertRefused(ROW.replace("`cause`", "`causes`"), "one::serve: causes does not stand in the sources")

    def test_a_function_that_is_gone_is_refused(self):
        self.assertRefused(ROW.replace("one::law", "one::laws"), "one::laws does not stand in the sources")

    def test_a_function_without_its_clause_is_refused(self):
        self.assertRefused(ROW.replace("`one::serve`: `cause`", "`one::serve`"), "of one::serve no clause is named")

    def test_a_line_that_is_gone_is_refused(self):
        self.assertRefused(ROW.replace("`serve 1`", "`serve 3`"), "no line of cases_one begins with serve 3")

    def test_a_line_that_is_answered_otherwise_is_refused(self):
        self.assertRefused(ROW.replace("503 keeper", "503 memory"), "is answered 503 memory")

    def test_a_crate_without_cases_is_refused(self):
        self.assertRefused(ROW.replace("cases_one", "cases_two"), "no line of cases_two")

    def test_a_script_that_is_gone_is_refused(self):
        self.assertRefused(ROW.replace("`cases_one`: `serve 1` → `503 keeper`", "`deploy/try_two.py`"), "there is no deploy/try_two.py")

    def test_a_row_without_a_case_says_why(self):
        self.assertRefused(ROW.replace("`cases_one`: `serve 1` → `503 keeper`", "nothing"), "it has no case, and does not say why")

    def test_a_row_without_a_function_and_one_of_other_cells_are_refused(self):
        self.assertRefused(ROW.replace("`one::serve`: `cause`; `one::law`", "nobody says it"), "it names no function")
        self.assertRefused(ROW.replace("| 503 ", ""), "it has 4 cells")

    def test_a_page_without_a_table_is_refused(self):
        self.put("docs/CAUSES.md", "# Why\n")
        self.assertIn("no table of causes", run(self.top, "--check").stderr)


if __name__ == "__main__":
    unittest.main()
