"""What bin/definitions prints and tests. Each test that changes something works on a copy of two crates.

    python3 -m unittest discover -s bin/tests
"""
import os
import shutil
import subprocess
import tempfile
import unittest

TOP = os.path.dirname(os.path.dirname(os.path.dirname(os.path.realpath(__file__))))
FIRST = """-- Parts of a line.

-- a word of the line
abbrev pub word : List Char → Word
word = first

-- a line that ends
pub record Ends (line : List Char) : Type 0 where
  -- its end
  pub end : ends line
"""
SECOND = """-- Words of a text.

-- a word of the text
abbrev pub word : Text → Word
"""


def run(top, *words):
    return subprocess.run([f"{top}/bin/definitions", *words], stdout=subprocess.PIPE, stderr=subprocess.PIPE, text=True)


class Here(unittest.TestCase):
    def test_the_page_and_the_names_that_stand_twice_are_those_of_the_sources(self):
        ran = run(TOP, "--check")
        self.assertEqual((ran.stdout, ran.stderr, ran.returncode), ("", "", 0))

    def test_a_crates_page_is_its_chapter(self):
        with open(f"{TOP}/docs/DEFINITIONS.md", encoding="utf-8") as file:
            chapter = file.read().partition("\n## ak_undo\n")[2].partition("\n## ")[0]
        self.assertEqual(run(TOP, "ak_undo").stdout.strip(), f"## ak_undo\n{chapter}".strip())


class Copy(unittest.TestCase):
    def setUp(self):
        self.top = tempfile.mkdtemp(prefix="kuldraff-test-")
        self.addCleanup(shutil.rmtree, self.top)
        for folder in ("bin", "docs", "crates/ak_one/specs", "crates/ak_two/specs"):
            os.makedirs(f"{self.top}/{folder}")
        shutil.copy(f"{TOP}/bin/definitions", f"{self.top}/bin/definitions")
        self.put("crates.txt", "ak_one:\nak_two: ak_one\n")
        self.put("crates/ak_one/specs/Lines.antt", FIRST)
        self.put("crates/ak_two/specs/Words.antt", SECOND)
        self.put("docs/names-twice.txt", "# why\nword: of a line; of a text\n")

    def put(self, path, text):
        with open(f"{self.top}/{path}", "w", encoding="utf-8") as file:
            file.write(text)

    def faults(self):
        run(self.top)
        return run(self.top, "--check").stderr

    def test_a_crate_is_printed_with_the_fields_of_its_records(self):
        printed = run(self.top, "ak_one").stdout
        self.assertIn("- `word : List Char → Word`: a word of the line\n", printed)
        self.assertIn("- `Ends (line : List Char)`: a line that ends\n  - `end : ends line`: its end\n", printed)
        self.assertNotIn("Text", printed)

    def test_a_name_is_printed_with_each_place(self):
        printed = run(self.top, "word").stdout
        self.assertEqual(printed.count("crates/ak_one/specs/Lines.antt\n") + printed.count("crates/ak_two/specs/Words.antt\n"), 2)

    def test_what_is_no_name_is_told(self):
        ran = run(self.top, "nothing")
        self.assertEqual((ran.stdout, ran.returncode), ("", 2))
        self.assertIn("nothing is no crate", ran.stderr)

    def test_nothing_is_written_by_a_look(self):
        run(self.top, "ak_one")
        self.assertFalse(os.path.exists(f"{self.top}/docs/DEFINITIONS.md"))

    def test_a_name_that_stands_twice_must_be_listed(self):
        self.assertEqual(self.faults(), "")
        self.put("docs/names-twice.txt", "")
        self.assertIn("word stands in ak_one/specs/Lines.antt and ak_two/specs/Words.antt", self.faults())

    def test_a_listed_name_must_stand_twice(self):
        self.put("docs/names-twice.txt", "word: of a line; of a text\nEnds: a line\n")
        self.assertIn("Ends doesn't stand twice", self.faults())

    def test_a_listed_name_must_have_a_reason(self):
        self.put("docs/names-twice.txt", "word:\n")
        self.assertIn("word has no reason", self.faults())

    def test_a_stale_page_is_told(self):
        run(self.top)
        self.put("crates/ak_two/specs/Words.antt", SECOND.replace("of the text", "of a text"))
        self.assertIn("stale", run(self.top, "--check").stderr)


if __name__ == "__main__":
    unittest.main()
