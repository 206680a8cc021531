import os
import re
import subprocess

from front.program import ROOT
from front.tests.files import FileCase, has_command

TUTORIAL = os.path.join(ROOT, "docs", "TUTORIAL.md")
MOST_NOT_RUN = 3

# Blocks that need a command of a newer program, by their kind, and what is asked to learn whether it has it.
NEEDS = {"sh needs import": ("import", "1", "1"), "sh needs export": ("export", "1")}

# What stands before the first block: `anki` is the program that the tests run.
BEFORE = """
anki() { "$ANKI_PROGRAM" "$@"; }
"""


def blocks(text):
    """The blocks of commands with the text that each is to print: (commands, printed)."""
    found = []
    for kind, body in re.findall(r"^```(\S[^\n]*)\n(.*?)^```$", text, re.MULTILINE | re.DOTALL):
        if kind.startswith("sh"):
            found.append([kind, body, ""])
        elif kind == "text":
            found[-1][2] = body
        else:
            raise AssertionError("a block of the kind %s" % kind)
    return found


def without_ids(text):
    """A text with its ids replaced, but those of the lab, whose clock stands."""
    return re.sub(r"\b(?!1700)\d{13}\b", "ID", text)


class Tutorial(FileCase):
    def test_every_block_runs_in_order_and_prints_what_stands_there(self):
        with open(TUTORIAL, encoding="utf-8") as file:
            found = blocks(file.read())
        self.assertLessEqual({block[0] for block in found}, {"sh", "sh not-run", *NEEDS})
        self.assertLessEqual(sum(block[0] == "sh not-run" for block in found), MOST_NOT_RUN)
        missing = sorted(kind for kind, command in NEEDS.items() if not has_command(self.program, *command))
        run = [block for block in found if block[0] != "sh not-run" and block[0] not in missing]
        self.assertGreater(len(run), 10)
        # One shell runs them all, so that a folder and a variable last. A mark that no block prints parts their outputs.
        mark = "-- end of a block 6f1c --"
        script = BEFORE + "".join("%s\nprintf '\\n%s\\n'\n" % (commands, mark) for _, commands, _ in run)
        environment = dict(os.environ, ANKI_PROGRAM=self.program, TZ="UTC", COLUMNS="80", LC_ALL="C.UTF-8")
        environment["PATH"] = os.path.join(ROOT, "bin") + os.pathsep + environment["PATH"]
        made = subprocess.run(["/bin/sh", "-e"], input=script.encode(), cwd=self.folder, stdout=subprocess.PIPE, stderr=subprocess.PIPE, env=environment)
        self.assertEqual((made.returncode, made.stderr.decode()), (0, ""))
        printed = made.stdout.decode().split("\n%s\n" % mark)
        self.assertEqual(len(printed), len(run) + 1)
        for (_, commands, wanted), got in zip(run, printed):
            self.assertEqual(without_ids(got), without_ids(wanted), commands)
        if missing:
            self.skipTest("the others print what stands there, but the program is older than the blocks %s" % ", ".join(missing))

    def test_the_pictures_are_here(self):
        with open(TUTORIAL, encoding="utf-8") as file:
            for path in re.findall(r"!\[[^\]]*\]\(([^)]*)\)", file.read()):
                self.assertTrue(os.path.isfile(os.path.join(ROOT, "docs", path)), path)
