"""The built program `anki`: where it is, and how it is started."""

import os
import subprocess

ROOT = os.path.dirname(os.path.dirname(os.path.abspath(__file__)))

# The statuses of the program, as the README of the repository has them.
DONE = 0
USAGE = 2
REFUSED = 3
INPUT_FAILED = 4
OUTPUT_FAILED = 5
KEEPER_FAILED = 6
NO_MEMORY = 8
LARGE_PAGES = "glibc.malloc.hugetlb=1"


class NoProgram(Exception):
    """The program can't be found or built. Its text says why."""


def find_program():
    """The path of the built program.

    The environment variable ANKI_PROGRAM names it, for tests and development. Else `bin/anki --program` does, which
    builds it first if need be. That takes a second, so callers find it once.
    """
    # What is started from here takes its memory in pages of 2 MB, as it does from `bin/anki`.
    os.environ.setdefault("GLIBC_TUNABLES", LARGE_PAGES)
    named = os.environ.get("ANKI_PROGRAM")
    if named:
        if not os.access(named, os.X_OK) or os.path.isdir(named):
            raise NoProgram("ANKI_PROGRAM names %s, which is no program" % named)
        return os.path.abspath(named)
    script = os.path.join(ROOT, "bin", "anki")
    try:
        asked = subprocess.run([script, "--program"], stdin=subprocess.DEVNULL, stdout=subprocess.PIPE, check=False)
    except OSError as fault:
        raise NoProgram("%s can't be run: %s" % (script, fault.strerror))
    path = asked.stdout.decode("utf-8", "surrogateescape").strip("\n")
    if asked.returncode != 0 or not os.access(path, os.X_OK):
        raise NoProgram("%s --program names no program; its status is %d" % (script, asked.returncode))
    return path


def words_for(program, path, *command, server="-"):
    """The words that run a command over a file. A path that begins with `-` is not taken for the collection in memory."""
    return [program, os.path.abspath(path), server] + list(command)


def run_over(program, path, *command, server="-", given=b""):
    """Runs a command over a file that no desk has open, and gives its status and what it printed, as bytes."""
    run = subprocess.run(
        words_for(program, path, *command, server=server),
        input=given,
        stdout=subprocess.PIPE,
        # A Ctrl-C at the terminal is the front's, which ends the program then.
        start_new_session=True,
        check=False,
    )
    return run.returncode, run.stdout


def open_and_close(program, path):
    """Has the program open the file and close it again, and gives its status.

    After a kill this brings the file to rest: what was committed comes out of the log into the file.
    """
    run = subprocess.run(
        words_for(program, path, "desk"),
        stdin=subprocess.DEVNULL,
        stdout=subprocess.DEVNULL,
        stderr=subprocess.DEVNULL,
        check=False,
    )
    return run.returncode


def make_collection(program, path):
    """Puts the collection that a learner begins with into a file, and gives the program's status."""
    run = subprocess.run(
        words_for(program, path, "init"), stdin=subprocess.DEVNULL, stdout=subprocess.DEVNULL, check=False
    )
    return run.returncode
