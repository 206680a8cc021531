"""Folders, collections and runs for the tests. All is in temporary folders, which go at the end of each test."""
import contextlib
import os
import shutil
import signal
import sqlite3
import stat
import subprocess
import sys
import tempfile
import unittest

from front import program as programs

TOP = os.path.dirname(os.path.dirname(os.path.dirname(os.path.realpath(__file__))))
RUN = os.path.join(TOP, "tools", "run")
WORDS = os.path.join(TOP, "tools", "anki_words.py")

# Seconds after which a run is given up.
PATIENCE = 120


class Case(unittest.TestCase):
    """A test in an empty folder."""

    @classmethod
    def setUpClass(cls):
        # Found once for all tests: bin/anki takes a while to look through the sources.
        os.environ.setdefault("ANKI_PROGRAM", programs.find_program())

    def setUp(self):
        self.folder = tempfile.mkdtemp(prefix="anki-tools-")
        self.addCleanup(shutil.rmtree, self.folder, ignore_errors=True)
        self.file = self.path("my.anki")

    @property
    def program(self):
        return programs.find_program()

    def path(self, name):
        return os.path.join(self.folder, name)

    def names(self):
        return sorted(os.listdir(self.folder))

    def write(self, name, data):
        with open(self.path(name), "wb") as out:
            out.write(data if isinstance(data, bytes) else data.encode())
        return self.path(name)

    def script(self, text):
        """A program of this text of a shell, in place of the real one."""
        path = self.write("program", "#!/bin/sh\n" + text)
        os.chmod(path, 0o755)
        return path

    def make(self, *lines, name="my.anki"):
        """Makes a collection of these lines of the desk."""
        self.desk(name=name, command="init")
        if lines:
            self.assertEqual(0, self.desk(*lines, name=name).returncode)
        return self.path(name)

    def desk(self, *lines, name="my.anki", command="desk"):
        """Runs the program over a file, without anything around it."""
        return run([self.program, self.path(name), "-", command], input="".join(line + "\n" for line in lines).encode())

    def around(self, *words, program=None, lines=b"", **more):
        """Runs the program with what stands around it."""
        if "stdin" not in more:
            more["input"] = lines
        return run([RUN, program or self.program] + list(words), **more)

    def word(self, *words, **more):
        """Runs a word of bin/anki."""
        environment = dict(os.environ, ANKI_PROGRAM=self.program)
        return run([sys.executable, WORDS] + list(words), env=environment, **more)

    def notes(self, path=None):
        """The first fields of the notes that a file holds, by stock SQLite over a copy of the two files."""
        with tempfile.TemporaryDirectory() as folder:
            copy = os.path.join(folder, "copy")
            for end in ("", "-wal"):
                if os.path.exists((path or self.file) + end):
                    shutil.copyfile((path or self.file) + end, copy + end)
            with contextlib.closing(sqlite3.connect(copy)) as connection:
                return [row[0].split("\x1f")[0] for row in connection.execute("select flds from notes order by id")]

    def sql(self, *texts, name="my.anki"):
        with contextlib.closing(sqlite3.connect(self.path(name))) as connection:
            connection.execute("pragma synchronous = off")
            for text in texts:
                connection.execute(text)
            connection.commit()

    def killed(self, *lines, name="my.anki"):
        """Does lines of the desk, reads all that they print, and then kills the program."""
        desk = self.open_desk(name)
        for line in lines:
            self.ask(desk, line)
        desk.send_signal(signal.SIGKILL)
        desk.wait()
        self.close(desk)

    def open_desk(self, name="my.anki", words=None, **more):
        desk = subprocess.Popen(words or [self.program, self.path(name), "-", "desk"], stdin=subprocess.PIPE, stdout=subprocess.PIPE, stderr=subprocess.DEVNULL, **more)
        self.addCleanup(self.close, desk)
        return desk

    def ask(self, desk, line):
        desk.stdin.write(line.encode() + b"\n")
        desk.stdin.flush()
        return desk.stdout.readline().decode().rstrip("\n")

    def close(self, desk):
        with contextlib.suppress(OSError):
            desk.stdin.close()
        if desk.poll() is None:
            desk.wait()
        desk.stdout.close()


def run(words, **more):
    return subprocess.run(words, stdout=more.pop("stdout", subprocess.PIPE), stderr=more.pop("stderr", subprocess.PIPE), timeout=PATIENCE, **more)


def note(field):
    return 'note 1 1 ["%s","x"]' % field


@contextlib.contextmanager
def another_user():
    """What is done inside is done by another user than root, if this is root."""
    if os.geteuid() != 0:
        yield
        return
    groups = os.getgroups()
    os.setgroups([])
    os.setegid(65534)
    os.seteuid(65534)
    try:
        yield
    finally:
        os.seteuid(0)
        os.setegid(0)
        os.setgroups(groups)


def as_another_user(call):
    """Runs a call in a process of another user than root, and returns what it returns, a text."""
    read, write = os.pipe()
    child = os.fork()
    if child == 0:
        status = 1
        try:
            os.close(read)
            if os.geteuid() == 0:
                os.setgroups([])
                os.setgid(65534)
                os.setuid(65534)
            os.write(write, call().encode())
            status = 0
        finally:
            os._exit(status)
    os.close(write)
    with os.fdopen(read, "rb") as answer:
        said = answer.read().decode()
    _, status = os.waitpid(child, 0)
    if status:
        raise AssertionError("the call of another user failed: %s" % said)
    return said


def own(path):
    """Gives a file to the other user, if this is root."""
    if os.geteuid() == 0:
        os.chown(path, 65534, 65534)


def mode(path):
    return stat.S_IMODE(os.stat(path).st_mode)
