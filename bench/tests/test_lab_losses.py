"""What bench/lab_losses.py measures and prints, over stand-ins for a program whose labs lose messages: they are made of the rules in tools/tests/lab_rules.py.

    python3 -m unittest discover -s bench/tests
"""
import contextlib
import io
import os
import shutil
import sys
import tempfile
import unittest

TOP = os.path.dirname(os.path.dirname(os.path.dirname(os.path.realpath(__file__))))
sys.dont_write_bytecode = True
sys.path.insert(0, os.path.join(TOP, "bench"))

import lab_losses  # noqa: E402

STAND_IN = '''
import sys
sys.dont_write_bytecode = True
sys.path.insert(0, %r)
from tools.tests import lab_rules
script = sys.stdin.read()
printed, status = lab_rules.run(script)
print("\\n".join(printed))
raise SystemExit(status)
''' % TOP


class Losses(unittest.TestCase):
    def setUp(self):
        self.room = tempfile.mkdtemp(prefix="anki-bench-test-")
        self.addCleanup(shutil.rmtree, self.room)
        self.anki = os.path.join(self.room, "anki")

    def stand_in(self, text):
        """A program whose lab is this script."""
        with open(os.path.join(self.room, "lab.py"), "w") as file:
            file.write(text)
        with open(self.anki, "w") as file:
            file.write('#!/bin/sh\nexec "%s" -E -s "%s/lab.py"\n' % (sys.executable, self.room))
        os.chmod(self.anki, 0o755)

    def run_it(self, *words):
        printed, said = io.StringIO(), io.StringIO()
        with contextlib.redirect_stdout(printed), contextlib.redirect_stderr(said):
            status = lab_losses.main(["--anki", self.anki, "--runs", "1", *words])
        return status, printed.getvalue(), said.getvalue()

    def refused(self, was, becomes, wanted):
        """A program in which this of the stand-in is another thing ends the measurement."""
        self.assertIn(was, STAND_IN)
        self.stand_in(STAND_IN.replace(was, becomes))
        status, printed, said = self.run_it("--syncs", "8")
        self.assertEqual((1, ""), (status, printed), becomes)
        self.assertIn(wanted, said)

    def test_a_table_of_all_numbers_is_printed(self):
        self.stand_in(STAND_IN)
        status, printed, said = self.run_it("--syncs", "6,12")
        self.assertEqual((0, ""), (status, said))
        rows = [[cell.strip() for cell in line.split("|")[1:-1]] for line in printed.splitlines() if line.startswith("| ")]
        self.assertEqual(["6 syncs", "12 syncs", "growth"], rows[0][1:])
        for row in rows[1:]:
            for cell in row[1:3]:
                self.assertRegex(cell, r"^[\d,.]+ ms, [\d,.]+ ms, \d+ MB$")
        self.assertEqual([work[0] for work in lab_losses.WORKS], [row[0] for row in rows[1:]])
        self.assertEqual(len(lab_losses.WORKS), printed.count(": 12 syncs by 6: "))

    def test_each_script_has_so_many_syncs(self):
        for work in lab_losses.WORKS:
            for syncs in (2, 10, 2_000):
                self.assertEqual(syncs + 2, len(lab_losses.Script(work, syncs).ends), work[0])

    def test_a_loss_that_is_not_met_ends_it(self):
        self.refused("run(script)", 'run(script.replace("\\nlose ", "\\n#"))', "finished, and not sync A: lost")

    def test_a_crossing_that_does_not_come_ends_it(self):
        self.refused("run(script)", 'run(script.replace("\\ncross ", "\\n#"))', "and not sync B: finished")

    def test_another_count_at_the_end_ends_it(self):
        self.refused("print(", "printed[-1:] = [it.replace('reviews ', 'reviews 1') for it in printed[-1:]]; print(", "the end: ")

    def test_a_program_without_such_lines_ends_it(self):
        self.stand_in('print("line 9: bad line"); raise SystemExit(3)\n')
        status, printed, said = self.run_it("--syncs", "8")
        self.assertEqual((1, ""), (status, printed))
        self.assertIn("bad line", said)

    def test_words_out_of_range_are_refused(self):
        for words in (["--syncs", "0"], ["--syncs", "3"], ["--syncs", "20,10"], ["--syncs", "10,10"], ["--syncs", "1000002"], ["--runs", "0"]):
            with contextlib.redirect_stderr(io.StringIO()), self.assertRaises(SystemExit):
                lab_losses.arguments(words)


if __name__ == "__main__":
    unittest.main()
