"""What bin/anki and bin/ship do with the program in dist/, and what bin/ says of a toolchain that it was not written for. Each test works on a
copy of this repository and, if it needs the toolchain, on a stand-in for `rt`.

    python3 -m unittest discover -s bin/tests
"""
import os
import shutil
import subprocess
import tempfile
import unittest
import unittest.mock

TOP = os.path.dirname(os.path.dirname(os.path.dirname(os.path.realpath(__file__))))
FIRST_SYNC = """sync A: finished
sync B: finished
[1700000000000,5,0,3,0,0,0,0,0]
[1700000000000,5,0,3,0,0,0,0,0]
[1700000000000,5,0,3,0,0,0,0,0]
"""
SOURCE = "crates/ak_base/src/lib.rt"


def told_of_shipped(key):
    with open(f"{TOP}/dist/anki.txt", encoding="utf-8") as file:
        return next(line.partition(": ")[2].strip() for line in file if line.startswith(f"{key}: "))


class Programs(unittest.TestCase):
    def setUp(self):
        self.room = tempfile.mkdtemp(prefix="kuldraff-test-")
        self.addCleanup(shutil.rmtree, self.room)
        self.top = f"{self.room}/copy"
        shutil.copytree(TOP, self.top, ignore=shutil.ignore_patterns("out", ".git", "docs", "edits", "stdin", "stdout"))
        # Commands of the system, and no rt but the one that a test puts here.
        self.path = f"{self.room}/bin"
        os.mkdir(self.path)

    def run_in_copy(self, *words, given=""):
        paths = [self.path, *(it for it in os.environ["PATH"].split(":") if not os.path.exists(f"{it}/rt"))]
        how = {"env": {**os.environ, "PATH": ":".join(paths)}, "cwd": self.room, "input": given}
        return subprocess.run([f"{self.top}/{words[0]}", *words[1:]], stdout=subprocess.PIPE, stderr=subprocess.PIPE, text=True, **how)

    def put_rt(self, text):
        with open(f"{self.path}/rt", "w", encoding="utf-8") as file:
            file.write(text)
        os.chmod(f"{self.path}/rt", 0o755)

    def change(self, path, at, byte):
        with open(f"{self.top}/{path}", "r+b") as file:
            file.seek(at)
            file.write(byte)

    def first_sync(self):
        with open(f"{TOP}/examples/first-sync.lab", encoding="utf-8") as file:
            return self.run_in_copy("bin/anki", "-", "-", "lab", given=file.read())

    def test_the_program_in_dist_runs_without_the_toolchain(self):
        ran = self.first_sync()
        self.assertEqual((ran.stdout, ran.stderr, ran.returncode), (FIRST_SYNC, "", 0))

    def test_bin_anki_tells_which_program_runs(self):
        self.assertEqual(self.run_in_copy("bin/anki", "--program").stdout, f"{self.top}/dist/anki\n")

    def test_the_program_takes_memory_in_pages_of_2_mb_unless_told_otherwise(self):
        with open(f"{self.top}/tools/run", "w", encoding="utf-8") as file:
            file.write('#!/bin/sh\necho "$GLIBC_TUNABLES"\n')
        for given, seen in ((None, "glibc.malloc.hugetlb=1\n"), ("glibc.malloc.arena_max=1", "glibc.malloc.arena_max=1\n"), ("", "\n")):
            with unittest.mock.patch.dict(os.environ):
                os.environ.pop("GLIBC_TUNABLES", None)
                if given is not None:
                    os.environ["GLIBC_TUNABLES"] = given
                self.assertEqual(self.run_in_copy("bin/anki", "-", "-", "lab").stdout, seen)

    def test_a_program_in_dist_with_another_byte_is_not_run(self):
        self.change("dist/anki", 100_000, b"\x7f\x00\x7f")
        ran = self.first_sync()
        self.assertEqual((ran.stdout, ran.returncode), ("", 100))
        self.assertEqual(self.run_in_copy("bin/ship", "--fresh").returncode, 1)

    def test_a_program_of_other_sources_is_not_run(self):
        self.change(SOURCE, 0, b"//!")
        ran = self.first_sync()
        self.assertEqual((ran.stdout, ran.returncode), ("", 100))
        self.assertEqual(self.run_in_copy("bin/ship", "--fresh").returncode, 1)

    def test_a_program_that_does_not_start_is_told_of(self):
        with open(f"{self.top}/dist/anki", "wb") as file:
            file.write(b"\x7fELF of another machine")
        told = subprocess.run(["sha256sum", f"{self.top}/dist/anki"], stdout=subprocess.PIPE, text=True).stdout.split()[0]
        with open(f"{self.top}/dist/anki.txt", encoding="utf-8") as file:
            text = file.read()
        with open(f"{self.top}/dist/anki.txt", "w", encoding="utf-8") as file:
            file.write(text.replace(told_of_shipped("sha256"), told))
        ran = self.first_sync()
        self.assertEqual((ran.stdout, ran.returncode), ("", 100))
        self.assertIn("can't be started here", ran.stderr)

    def test_sources_that_the_program_is_not_made_of_make_no_difference(self):
        with open(f"{self.top}/crates/cases_lines/src/lib.rt", "a", encoding="utf-8") as file:
            file.write("// more\n")
        self.assertEqual(self.run_in_copy("bin/ship", "--fresh").returncode, 0)

    def test_a_check_compares_with_what_the_gate_built(self):
        self.put_rt(f"#!/bin/sh\necho '{told_of_shipped('toolchain')}'\n")
        for program in ("anki", "ankid"):
            os.makedirs(f"{self.top}/crates/{program}/out")
            shutil.copyfile(f"{self.top}/dist/{program}", f"{self.top}/crates/{program}/out/{program}")
        self.assertEqual(self.run_in_copy("bin/ship", "--check").returncode, 0)
        self.change("crates/anki/out/anki", 100_000, b"\x7f\x00\x7f")
        ran = self.run_in_copy("bin/ship", "--check")
        self.assertEqual(ran.returncode, 1)
        self.assertIn("not what the gate builds", ran.stderr)

    def test_another_version_of_the_toolchain_is_told_in_a_sentence(self):
        self.put_rt("#!/usr/bin/env python3\nif __name__ == '__main__':\n    print('rattle-kit-99z logic 0')\n")
        ran = self.run_in_copy("bin/gate-seconds", "ak_base")
        self.assertEqual(ran.returncode, 2)
        self.assertEqual(ran.stderr.strip().count("\n"), 0, ran.stderr)
        self.assertIn("rattle-kit-99z logic 0: its rt has no main", ran.stderr)
        os.remove(f"{self.path}/rt")
        self.assertIn("not on the PATH", self.run_in_copy("bin/gate-seconds", "ak_base").stderr)

    def test_the_toolchain_here_has_each_name_that_is_used(self):
        if not shutil.which("rt"):
            self.skipTest("no toolchain here")
        ran = subprocess.run(["python3", "-c", "import gate_tool; gate_tool.toolchain()"], cwd=f"{TOP}/bin", stderr=subprocess.PIPE, text=True)
        self.assertEqual((ran.returncode, ran.stderr), (0, ""))


if __name__ == "__main__":
    unittest.main()
