"""How bin/try-drops judges what the compiler says of a state that is let go, and that each of its edits still applies.

    python3 -m unittest discover -s bin/tests
"""
import importlib.machinery
import importlib.util
import os
import subprocess
import sys
import tempfile
import unittest

TOP = os.path.dirname(os.path.dirname(os.path.dirname(os.path.realpath(__file__))))
sys.dont_write_bytecode = True
sys.path.insert(0, os.path.dirname(os.path.dirname(os.path.realpath(__file__))))

LOADER = importlib.machinery.SourceFileLoader("try_drops", f"{TOP}/bin/try-drops")
drops = importlib.util.module_from_spec(importlib.util.spec_from_loader("try_drops", LOADER))
LOADER.exec_module(drops)

TOLD = "is let go where its block ends, and `Started<"
REFUSED = "src/states.rt:17:19: error[linear-value-let-go]: `self` is let go where its block ends, and `Started<K, W>` is not `Drop`"


class Compiler:
    """Stands for a crate of a copy, whose compiler says what its file holds."""

    def __init__(self, folder):
        self.folder = folder

    def compiled(self):
        return drops.edit_files.text_of(f"{self.folder}/src.rt")


class Drops(unittest.TestCase):
    def test_the_refusal_that_is_told_is_one(self):
        self.assertEqual(drops.judged(REFUSED, TOLD), "")

    def test_a_crate_that_compiles_refuses_nothing(self):
        self.assertTrue(drops.judged("", TOLD).startswith("NOT REFUSED"))

    def test_an_error_in_the_edit_itself_is_no_refusal(self):
        self.assertIn("unknown name", drops.judged("note: ..\nsrc/states.rt:1:1: error: unknown name", TOLD))

    def test_the_copy_is_as_it_was_after_each_try(self):
        with tempfile.TemporaryDirectory() as folder:
            drops.write(folder, {"src.rt": "was"})
            self.assertEqual(drops.said_with(Compiler(folder), {"src.rt": "edited"}), "edited")
            self.assertEqual(drops.edit_files.text_of(f"{folder}/src.rt"), "was")

    def test_each_drop_applies_and_names_its_refusal(self):
        ran = subprocess.run([f"{TOP}/bin/try-drops", "--applies"], stdout=subprocess.PIPE, text=True)
        self.assertEqual(ran.returncode, 0, ran.stdout)
        self.assertRegex(ran.stdout, r"\Adrops: [1-9]\d*, of which not refused or not tried: 0\n\Z")

    def test_an_unknown_crate_and_an_unknown_word_are_refused(self):
        how = {"stdout": subprocess.DEVNULL, "stderr": subprocess.DEVNULL}
        self.assertEqual([subprocess.run([f"{TOP}/bin/try-drops", it], **how).returncode for it in ("ak_nothing", "--nothing")], [2, 2])


if __name__ == "__main__":
    unittest.main()
