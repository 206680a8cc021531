"""What bin/map draws of crates.txt and docs/boxes.txt, and what it refuses. All but the first test work on a copy of three crates.

    python3 -m unittest discover -s bin/tests
"""
import os
import shutil
import subprocess
import tempfile
import unittest

TOP = os.path.dirname(os.path.dirname(os.path.dirname(os.path.realpath(__file__))))
CRATES = "one: serde\ntwo: one\nthree: one two serde\n"
BOXES = """# A remark.

[ground] What all use
one | the lowest | all of it

[house] What uses it
two | the middle | half of it
three | the highest |
"""
PAGE = "# Map\n\n<!-- bin/map makes what follows -->\n<!-- bin/map made what stands above -->\n\nMore.\n"


def run(top, *words):
    return subprocess.run([f"{top}/bin/map", *words], stdout=subprocess.PIPE, stderr=subprocess.PIPE, text=True)


class Here(unittest.TestCase):
    def test_each_crate_has_its_box_and_the_map_is_not_stale(self):
        ran = run(TOP, "--check")
        self.assertEqual((ran.stdout, ran.stderr, ran.returncode), ("", "", 0))


class Copy(unittest.TestCase):
    def setUp(self):
        self.top = tempfile.mkdtemp(prefix="kuldraff-test-")
        self.addCleanup(shutil.rmtree, self.top)
        os.mkdir(f"{self.top}/docs")
        os.mkdir(f"{self.top}/bin")
        for name in ("map", "edit_files.py"):
            shutil.copy(f"{TOP}/bin/{name}", f"{self.top}/bin/{name}")
        for path, text in (("crates.txt", CRATES), ("docs/boxes.txt", BOXES), ("docs/ARCHITECTURE.md", PAGE)):
            self.put(path, text)

    def put(self, path, text):
        with open(f"{self.top}/{path}", "w", encoding="utf-8") as file:
            file.write(text)

    def page(self):
        with open(f"{self.top}/docs/ARCHITECTURE.md", encoding="utf-8") as file:
            return file.read()

    def flaw(self):
        ran = run(self.top, "--check")
        self.assertEqual(ran.returncode, 1)
        return ran.stderr

    def test_a_box_stands_above_what_it_uses(self):
        self.assertEqual(run(self.top).returncode, 0)
        page = self.page()
        self.assertLess(page.index("| HOUSE, 2 crates "), page.index("| GROUND, 1 crates "))
        self.assertIn("| What uses it ", page)
        self.assertIn("| on ground ", page)

    def test_a_box_that_promises_nothing_has_a_table_alone(self):
        self.put("crates.txt", CRATES + "four: two\n")
        self.put("docs/boxes.txt", BOXES + "\n[cases] What tries it\nfour | lines |\n")
        self.assertEqual(run(self.top).returncode, 0)
        self.assertNotIn("CASES", self.page())
        self.assertIn("### Cases\n\nWhat tries it.\n\n| crate | its job | stands on |\n", self.page())

    def test_a_crate_names_what_nothing_else_of_it_uses(self):
        run(self.top)
        self.assertIn("| `three` | the highest | `two` |  |\n", self.page())
        self.assertIn("| `one` | the lowest | `serde` | all of it |\n", self.page())

    def test_what_stands_around_the_map_stays(self):
        run(self.top)
        self.assertTrue(self.page().startswith("# Map\n\n") and self.page().endswith("\n\nMore.\n"))
        first = self.page()
        run(self.top)
        self.assertEqual(self.page(), first)
        self.assertEqual(run(self.top, "--check").returncode, 0)

    def test_a_crate_without_a_box_is_refused(self):
        self.put("crates.txt", CRATES + "four: one\n")
        self.assertIn("no line for four", self.flaw())

    def test_a_box_with_an_unknown_crate_is_refused(self):
        self.put("docs/boxes.txt", BOXES + "four | none |\n")
        self.assertIn("four is no crate", self.flaw())

    def test_a_crate_in_two_boxes_is_refused(self):
        self.put("docs/boxes.txt", BOXES + "one | again |\n")
        self.assertIn("one stands in two boxes", self.flaw())

    def test_an_arrow_upward_is_refused(self):
        self.put("crates.txt", "two:\none: two\nthree: one two\n")
        self.assertIn("one of the box ground uses two of house", self.flaw())

    def test_a_stale_page_is_refused(self):
        run(self.top)
        self.put("docs/boxes.txt", BOXES.replace("the middle", "the second"))
        self.assertIn("stale", self.flaw())

    def test_a_page_without_its_marks_is_refused(self):
        self.put("docs/ARCHITECTURE.md", "# Map\n")
        self.assertIn("has not its two marks", self.flaw())


if __name__ == "__main__":
    unittest.main()
