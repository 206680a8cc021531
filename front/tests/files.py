"""Collections for tests, in folders of their own that go at the end of each test."""

import atexit
import functools
import os
import shutil
import sqlite3
import subprocess
import sys
import tempfile
import time
import unittest

from front import program as programs


# Seconds of a day. Days of a collection begin at midnight in universal time, as those of the clock do.
DAY = 86400
# A card's first steps last up to ten minutes and a quarter of that: one that ends in the next day waits for that day.
STEPS = 20 * 60


def wait_for_steps_of_one_day():
    """In the last minutes of a day waits for the next, so that a step that a test begins ends in the day that it began in."""
    left = DAY - time.time() % DAY
    if left < STEPS:
        print("waiting %d seconds for the next day of collections" % left, file=sys.stderr)
        time.sleep(left + 1)


@functools.lru_cache(maxsize=None)
def built_program():
    """The program, found once: that takes a second."""
    return programs.find_program()


def fresh_collection(program, _made=[]):
    """A file with the collection that a learner begins with. It is made once, and copied by those who change it."""
    if not _made:
        folder = tempfile.mkdtemp(prefix="anki-front-")
        atexit.register(shutil.rmtree, folder, ignore_errors=True)
        _made.append(os.path.join(folder, "fresh.anki"))
        if programs.make_collection(program, _made[0]) != programs.DONE:
            raise AssertionError("no collection was made")
    return _made[0]


@functools.lru_cache(maxsize=None)
def has_command(program, *command):
    """Whether the program has a command. It is asked for over a file that is not there, without a server."""
    with tempfile.TemporaryDirectory(prefix="anki-front-") as folder:
        path = os.path.join(folder, "none.anki")
        return programs.run_over(program, path, *command) != (programs.USAGE, b"usage\n")


class FileCase(unittest.TestCase):
    """A test with the program, and an empty folder."""

    @classmethod
    def setUpClass(cls):
        cls.program = built_program()

    def setUp(self):
        wait_for_steps_of_one_day()
        self.folder = tempfile.mkdtemp(prefix="anki-front-")
        self.addCleanup(shutil.rmtree, self.folder, ignore_errors=True)
        self.path = os.path.join(self.folder, "my.anki")

    def needs(self, command, *words):
        """Skips the test if the program is older than a command."""
        if not has_command(self.program, command, *(words or ("0" * 32,))):
            self.skipTest("the program has no command %s" % command)

    def make(self, *lines):
        """Makes the collection that a learner begins with, does the desk's lines, and gives what they print."""
        fresh = fresh_collection(self.program)
        for end in ("", "-wal"):
            shutil.copy(fresh + end, self.path + end)
        return self.do(*lines) if lines else []

    def write(self, *statements):
        """Writes into the file by sqlite: (statement, values) each."""
        file = sqlite3.connect(self.path)
        for statement, values in statements:
            file.execute(statement, values)
        file.commit()
        file.close()

    def do(self, *lines):
        """Does lines of the desk, and gives the lines that they print."""
        run = subprocess.run(
            programs.words_for(self.program, self.path, "desk"),
            input="".join(line + "\n" for line in lines).encode(),
            stdout=subprocess.PIPE,
            check=False,
        )
        return run.stdout.decode().split("\n")[:-1]

    def names(self):
        return sorted(os.listdir(self.folder))
