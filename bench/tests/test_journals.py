"""What bench/journals.py measures and prints, over a stand-in for a program that takes journals.

    python3 -m unittest discover -s bench/tests
"""
import contextlib
import io
import os
import shutil
import sys
import tempfile
import unittest

TOP = os.path.dirname(os.path.dirname(os.path.dirname(os.path.realpath(__file__))))
sys.dont_write_bytecode = True
sys.path.insert(0, os.path.join(TOP, "bench"))

import bench  # noqa: E402
import journals  # noqa: E402

STAND_IN = os.path.join(TOP, "deploy", "tests", "journal_program.py")


class Journals(unittest.TestCase):
    def setUp(self):
        self.room = tempfile.mkdtemp(prefix="anki-bench-test-")
        self.addCleanup(shutil.rmtree, self.room)
        self.anki = os.path.join(self.room, "anki")
        with open(self.anki, "w") as file:
            file.write('#!/bin/sh\nexec "%s" -E -s "%s" "$@"\n' % (sys.executable, STAND_IN))
        os.chmod(self.anki, 0o755)

    def test_a_table_of_both_ways_is_printed(self):
        printed, day = io.StringIO(), bench.DAY
        bench.DAY = 3
        self.addCleanup(setattr, bench, "DAY", day)
        with contextlib.redirect_stdout(printed):
            status = journals.main(["--anki", self.anki, "--notes", "5", "--days", "2", "--runs", "1", "--room", self.room])
        self.assertEqual(0, status)
        rows = [[cell.strip() for cell in line.split("|")[1:-1]] for line in printed.getvalue().splitlines() if line.startswith("| ")]
        self.assertEqual(["what", "journal", "SQLite"], rows[0])
        self.assertEqual(["a day of 3 answers, a commit each, after the opening: processor, elapsed", "bytes that this day adds to the files"], [row[0] for row in rows[1:3]])
        self.assertEqual("6 answers in one run: processor, elapsed", rows[4][0])
        # Three commits of some 400 bytes each.
        self.assertTrue(900 < int(rows[2][1].replace(",", "")) < 3000, rows[2])
        self.assertEqual(9, len(rows))
        self.assertEqual(["anki"], os.listdir(self.room))

    def test_a_line_that_is_not_answered_ends_it(self):
        with open(self.anki, "w") as file:
            file.write('#!/bin/sh\ncase $1 in journal:*) exit 0 ;; esac\nexec "%s/dist/anki" "$@"\n' % TOP)
        told = io.StringIO()
        with contextlib.redirect_stderr(told):
            self.assertEqual(1, journals.main(["--anki", self.anki, "--notes", "5", "--days", "1", "--runs", "1", "--room", self.room]))
        self.assertIn("192 lines were answered by 0", told.getvalue())

    def test_words_out_of_range_are_refused(self):
        for words in (["--notes", "0"], ["--notes", "20001"], ["--days", "0"], ["--runs", "0"]):
            with contextlib.redirect_stderr(io.StringIO()), self.assertRaises(SystemExit):
                journals.arguments(words)


if __name__ == "__main__":
    unittest.main()
