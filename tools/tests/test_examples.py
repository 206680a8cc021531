"""Scripts of a lab and what they print: `examples/losses.lab` with its page, `examples/upload-and-download.lab`, and the cases of labs. Beside the program they go through lab_rules.py, which was made
from the rules alone."""
import functools
import json
import os
import re
import subprocess
import unittest

from tools.tests import lab_rules
from tools.tests.support import TOP

FIRST = "# Losses, repeats, crossings, replays and resends in a lab."


def read(name):
    with open(os.path.join(TOP, name), encoding="utf-8") as text:
        return text.read()


def cases():
    """The scripts of labs among the cases, from the first of losses on, each with what is stored as its answer."""
    asked, answered = (read("crates/cases_runs/" + name).split("\n") for name in ("stdin", "stdout"))
    first = next(place for place, line in enumerate(asked) if line.startswith(FIRST))
    for line, answer in list(zip(asked, answered))[first:]:
        if line.startswith('run [["lab"],'):
            yield json.loads(line[4:])[1], answer


def answer_of(printed, status):
    return 'status %d faults 0 0 "%s"' % (status, "".join(line + "\\n" for line in printed))


@functools.lru_cache(maxsize=None)
def program():
    """The program in dist/, or the one that ANKI_PROGRAM names. None is built for these tests."""
    return os.environ.get("ANKI_PROGRAM") or os.path.join(TOP, "dist", "anki")


def printed_by_program(script):
    ran = subprocess.run([program(), "-", "-", "lab"], input=script.encode(), stdout=subprocess.PIPE, stderr=subprocess.DEVNULL, check=False)
    return ran.stdout.decode().split("\n")[:-1], ran.returncode


class Losses(unittest.TestCase):
    def setUp(self):
        self.script = read("examples/losses.lab")
        self.page = read("docs/LOSSES.md")
        self.shown = re.findall("(?m)^    (.*)$", self.page.partition("It prints:")[2])

    def test_the_page_shows_what_the_rules_print(self):
        self.assertEqual((self.shown, 0), lab_rules.run(self.script))

    def test_it_is_a_case_with_this_answer(self):
        self.assertIn((self.script, answer_of(self.shown, 0)), list(cases()))

    def test_the_program_prints_it(self):
        self.assertEqual((self.shown, 0), printed_by_program(self.script))

    def test_each_line_is_told_in_its_order(self):
        told = [word for line in self.page.split("\n") if line.startswith("| `") for word in line.split("|")[1].strip(" `").split("`, `")]
        self.assertEqual([line for line in self.script.split("\n") if line and not line.startswith("#")], told)

    def test_the_printed_lines_of_the_tables_are_those_that_are_shown(self):
        cells = [line.split("|")[3] for line in self.page.split("\n") if line.startswith("| `")]
        told = [word for cell in cells for word in re.findall("`([^`]*)`", cell) * (3 if "three times" in cell else 1)]
        self.assertEqual(len(self.shown), len(told))
        for line, word in zip(self.shown, told):
            self.assertTrue(line == word or word.endswith(" ..") and line.startswith(word[:-2]), (line, word))


class Transfers(unittest.TestCase):
    def test_the_example_prints_what_it_says(self):
        script = read("examples/upload-and-download.lab")
        said = [line[2:] for line in script.partition("# It prints:\n")[2].split("\n") if line.startswith("# ")]
        self.assertEqual((said, 0), lab_rules.run(script))
        self.assertEqual((said, 0), printed_by_program(script))


class Cases(unittest.TestCase):
    def test_the_rules_give_each_answer_that_is_stored(self):
        known = []
        for script, answer in cases():
            try:
                told = lab_rules.run(script)
            except lab_rules.Unknown:
                continue
            known.append(script)
            self.assertEqual(answer, answer_of(*told), script)
        self.assertGreater(len(known), 100)
        self.assertGreater(len([script for script in known if "break " in script]), 20)

    def test_the_program_prints_what_the_rules_do(self):
        for script, _ in cases():
            try:
                told = lab_rules.run(script)
            except lab_rules.Unknown:
                continue
            self.assertEqual(told, printed_by_program(script), script)


class Breaks(unittest.TestCase):
    """A break meets the first request that asks the server's keeper: one that is answered by the kept reply does not ask it, unless it is a download."""

    def test_the_rules_and_the_program_print_it(self):
        synced, downloaded = "device A\nreview A 5 3 1\nsync A\nbreak server\nreplay A 0 %d 1\nsync A\nsync A\n", "device A\ndownload A\nbreak server\nreplay A 0 %d 1\nsync A\nsync A\n"
        refused, spared = ["sync A: refused 503 keeper", "sync A: no changes"], ["sync A: no changes", "sync A: no changes"]
        for script, first, rest in ((synced % 6, "sync", refused), (synced % 5, "sync", spared), (synced % 0, "sync", spared), (downloaded % 1, "download", spared)):
            wanted = ["%s A: finished" % first, *rest], 0
            self.assertEqual(wanted, lab_rules.run(script), script)
            self.assertEqual(wanted, printed_by_program(script), script)


if __name__ == "__main__":
    unittest.main()
