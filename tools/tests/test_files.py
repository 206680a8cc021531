"""Each sentence of docs/FILES.md that is a point of a list, tried with the program, stock SQLite and kills."""
import contextlib
import os
import re
import shutil
import signal
import sqlite3
import subprocess
import sys
import time
import unittest
from random import Random

from tools import backups, files
from tools.pages import read_page
from tools.tests.support import Case, as_another_user, mode, note, own

# The beginnings of the sentences that tests here try.
TOLD = []


def tells(*beginnings):
    """The test tries the points of docs/FILES.md that begin so."""
    TOLD.extend(beginnings)
    return lambda test: test


def points():
    """The points of the lists of docs/FILES.md, each in one line; those of journals are tried elsewhere."""
    text = re.sub(r"^## A journal\n.*?(?=^## )", "", read_page("FILES.md"), flags=re.MULTILINE | re.DOTALL)
    return [" ".join(point.split()) for point in re.findall(r"^- ((?:.+\n)(?:  .+\n)*)", text, re.MULTILINE)]


class Told(unittest.TestCase):
    def test_each_point_has_a_test(self):
        lacking = [point for point in points() if not any(point.startswith(it) for it in TOLD)]
        self.assertEqual([], lacking)
        stale = [it for it in TOLD if not any(point.startswith(it) for point in points())]
        self.assertEqual([], stale)


class TwoFiles(Case):
    @tells("A collection is kept in the file that is named", "What a run prints as done is on the disk", "So after a run that ended in order")
    def test_after_an_end_in_order(self):
        self.make(note("a"))
        self.assertEqual(["my.anki", "my.anki-wal"], self.names())
        desk = self.open_desk()
        self.ask(desk, note("b"))
        self.assertGreater(os.path.getsize(self.file + "-wal"), 41)
        self.close(desk)
        self.assertEqual(3, self.desk(note("c"), "bad").returncode)
        self.assertEqual(41, os.path.getsize(self.file + "-wal"))
        shutil.copyfile(self.file, self.path("alone"))
        self.assertEqual(["a", "b", "c"], self.notes(self.path("alone")))
        self.assertEqual(b"sound\n", self.desk("check", name="alone").stdout)
        self.assertEqual(["3"], self.sqlite("my.anki", "select count(*) from notes"))
        self.assertFalse(os.path.exists(self.file + "-wal"))
        self.assertEqual(b"sound\n", self.desk("check").stdout)

    def sqlite(self, name, text):
        """What stock sqlite3 prints, or says."""
        if shutil.which("sqlite3") is None:
            with contextlib.closing(sqlite3.connect(self.path(name))) as connection:
                return [str(row[0]) for row in connection.execute(text)]
        ran = subprocess.run(["sqlite3", self.path(name), text], stdout=subprocess.PIPE, stderr=subprocess.STDOUT)
        return ran.stdout.decode().split("\n")[:-1]

    @tells("After a kill or a loss of power", "A copy of `my.anki` alone", "Run again", "Until then keep", "`bin/anki doctor my.anki` says")
    def test_after_a_kill(self):
        self.make(note("a"))
        self.killed(note("b"), note("c"))
        self.assertGreater(os.path.getsize(self.file + "-wal"), 41)
        for name, ends in (("alone", [""]), ("both", ["", "-wal"]), ("stock", ["", "-wal"]), ("moved", ["", "-wal"])):
            for end in ends:
                shutil.copyfile(self.file + end, self.path(name + end))
        self.assertEqual(["a"], self.notes(self.path("alone")))
        self.assertEqual(b"sound\nfound 1", self.desk("check", "find a or b or c", name="alone").stdout[:13])
        # Stock sqlite3 brings the two in order as well.
        self.assertEqual(["3"], self.sqlite("stock", "select count(*) from notes"))
        self.assertEqual(["stock"], [it for it in self.names() if it.startswith("stock")])
        self.assertEqual(["a", "b", "c"], self.notes(self.path("stock")))
        os.mkdir(self.path("folder"))
        for end in ("", "-wal"):
            os.rename(self.path("moved" + end), self.path("folder/other" + end))
        self.assertEqual(b"found 3", self.desk("find a or b or c", name="folder/other").stdout[:7])
        self.assertIn(b"Commits stand in %s-wal" % self.file.encode(), self.word("doctor", self.file).stdout)
        # The doctor has changed nothing.
        self.assertGreater(os.path.getsize(self.file + "-wal"), 41)
        self.assertEqual(b"sound\nfound 3", self.desk("check", "find a or b or c").stdout[:13])
        self.assertEqual(41, os.path.getsize(self.file + "-wal"))

    @tells("Run again")
    def test_kills_at_any_moment(self):
        self.make()
        told, random = [], Random(5)
        for number in range(100 if os.environ.get("ANKI_TEST_LARGE") else 10):
            lines = [note("n%d-%d" % (number, it)) for it in range(200)]
            given = self.write("lines", "".join(line + "\n" for line in lines))
            with open(given, "rb") as stdin, open(self.path("out"), "wb") as out:
                desk = subprocess.Popen([self.program, self.file, "-", "desk"], stdin=stdin, stdout=out)
                time.sleep(random.random() * 0.2)
                desk.kill()
                desk.wait()
            with open(self.path("out"), "rb") as out:
                printed = out.read().count(b"\n")
            told += ["n%d-%d" % (number, it) for it in range(printed)]
            held = self.notes()
            # The line that was being done may be done too.
            extra = "n%d-%d" % (number, printed)
            self.assertIn(held, (told, told + [extra]), number)
            told = held
        self.assertEqual(b"sound\n", self.desk("check").stdout)
        self.assertEqual(told, self.notes())

    @tells("While a program has the file open, no other", "While another program has the file open, the backup", "While another program has the file open, or the copy")
    def test_while_it_is_open(self):
        self.make(note("a"))
        self.assertEqual(0, self.word("backup", self.file, self.path("copy")).returncode)
        desk = self.open_desk()
        self.ask(desk, note("b"))
        self.assertEqual(6, self.desk("check").returncode)
        if shutil.which("sqlite3"):
            self.assertIn("database is locked", "".join(self.sqlite("my.anki", "select count(*) from notes")))
        before = self.names()
        for words in (["backup", self.file, self.path("other")], ["restore", self.path("copy"), self.file], ["restore", self.file, self.path("copy")]):
            ran = self.word(*words)
            self.assertEqual(3, ran.returncode)
            self.assertIn(b"is open in another program (", ran.stderr)
            self.assertEqual(before, self.names())
        self.assertEqual("sound", self.ask(desk, "check"))
        self.close(desk)
        self.assertEqual(["a", "b"], self.notes())

    @tells("If `my.anki-wal` was cut")
    def test_a_cut_log(self):
        self.make(note("a"))
        sizes = []
        desk = self.open_desk()
        for field in "bcd":
            self.ask(desk, note(field))
            sizes.append(files.commits_in(self.file + "-wal")[-1])
        desk.send_signal(signal.SIGKILL)
        desk.wait()
        for size, held in ((sizes[2], "abcd"), (sizes[2] - 1, "abc"), (sizes[1] + 60, "abc"), (sizes[1], "abc"), (sizes[0] - 1, "a"), (20, "a"), (0, "a")):
            for end in ("", "-wal"):
                shutil.copyfile(self.file + end, self.path("cut" + end))
            os.truncate(self.path("cut-wal"), size)
            self.assertEqual(b"sound\n", self.desk("check", name="cut").stdout, size)
            self.assertEqual(list(held), self.notes(self.path("cut")), size)

    @tells("If `my.anki` was cut")
    def test_a_cut_file(self):
        self.make(note("a"))
        for size in (28671, 20000, 4096, 100, 10):
            shutil.copyfile(self.file, self.path("cut"))
            os.truncate(self.path("cut"), size)
            begun = time.monotonic()
            ran = self.around(self.path("cut"), "-", "desk")
            self.assertEqual((6, b""), (ran.returncode, ran.stdout), size)
            self.assertLess(time.monotonic() - begun, 60)
            said = self.word("doctor", self.path("cut"))
            self.assertEqual(6, said.returncode)
            self.assertRegex(said.stdout, b"damaged|no SQLite file|can't be read|no table|was cut")

    @tells("A full disk ends a run")
    def test_a_full_disk(self):
        self.make(note("a"))
        desk = self.open_desk(words=["sh", "-c", "ulimit -f %d; trap '' XFSZ; exec \"$@\"" % (os.path.getsize(self.file) // 512 + 8), "sh", self.program, self.file, "-", "desk"])
        printed = 0
        with contextlib.suppress(OSError):
            for number in range(60):
                if not self.ask(desk, note("n%d" % number)).startswith("note "):
                    break
                printed += 1
        self.close(desk)
        self.assertEqual(6, desk.returncode)
        self.assertEqual(["a"] + ["n%d" % number for number in range(printed)], self.notes()[: printed + 1])
        self.assertEqual(b"sound\n", self.desk("check").stdout)


class Copies(Case):
    @tells("The copy is one whole file")
    def test_a_backup_after_a_kill(self):
        self.make(note("a"))
        self.killed(note("b"))
        ran = self.word("backup", self.file, self.path("copy"))
        self.assertEqual((0, b""), (ran.returncode, ran.stderr))
        self.assertEqual(["copy", "my.anki", "my.anki-wal"], self.names())
        self.assertEqual(["a", "b"], self.notes(self.path("copy")))
        self.assertEqual(b"sound\n", self.desk("check", name="copy").stdout)
        self.assertEqual(0, self.desk(note("c"), name="copy").returncode)
        self.assertEqual((["a", "b"], ["a", "b", "c"]), (self.notes(), self.notes(self.path("copy"))))

    @tells("A file of the copy's name")
    def test_nothing_is_overwritten(self):
        self.make(note("a"))
        for name in ("copy", "copy-wal", "copy-journal", "copy-shm"):
            self.write(name, "mine")
            ran = self.word("backup", self.file, self.path("copy"))
            self.assertEqual((3, b""), (ran.returncode, ran.stdout))
            self.assertIn(b"is there already", ran.stderr)
            with open(self.path(name)) as kept:
                self.assertEqual("mine", kept.read())
            os.remove(self.path(name))
        self.assertEqual(3, self.word("backup", self.file, self.file).returncode)
        self.assertEqual(3, self.word("backup", self.file, self.folder).returncode)
        self.assertEqual(3, self.word("backup", self.path("none"), self.path("copy")).returncode)
        self.assertEqual(3, self.word("backup", self.file, self.path("none/copy")).returncode)
        self.assertEqual(["my.anki", "my.anki-wal"], self.names())

    @tells("Without `bin/anki`")
    def test_copies_by_hand(self):
        self.make(note("a"))
        self.killed(note("b"))
        for end in ("", "-wal"):
            shutil.copyfile(self.file + end, self.path("hand" + end))
        self.assertEqual(b"found 2", self.desk("find a or b", name="hand").stdout[:7])
        with contextlib.closing(sqlite3.connect(self.file)) as source, contextlib.closing(sqlite3.connect(self.path("stock"))) as copy:
            source.backup(copy)
        self.assertEqual(b"found 2", self.desk("find a or b", name="stock").stdout[:7])

    @tells("What was there is moved aside", "The copy itself stays as it is", "Before the next sync")
    def test_a_restore(self):
        self.make(note("a"))
        self.word("backup", self.file, self.path("copy"))
        self.killed(note("b"), note("c"))
        with open(self.path("copy"), "rb") as copy:
            before = copy.read()
        ran = self.word("restore", self.path("copy"), self.file)
        self.assertEqual((0, b""), (ran.returncode, ran.stderr))
        self.assertEqual(["a"], self.notes())
        self.assertEqual(b"sound\n", self.desk("check").stdout)
        with open(self.path("copy"), "rb") as copy:
            self.assertEqual(before, copy.read())
        aside = re.search(r"in (\S+before-\d{8}-\d{6}) and (\S+-wal)\.", ran.stdout.decode())
        self.assertEqual(["a", "b", "c"], self.notes(aside.group(1)))
        self.assertTrue(os.path.exists(aside.group(2)))
        self.assertIn("`download` takes the server's collection", ran.stdout.decode())
        self.assertIn("`upload` puts this copy in the server's place", ran.stdout.decode())
        # And back again, from a copy of two files.
        os.remove(self.path("copy"))
        self.killed(note("d"))
        for end in ("", "-wal"):
            shutil.copyfile(self.file + end, self.path("copy" + end))
        self.assertEqual(0, self.word("restore", aside.group(1), self.file).returncode)
        self.assertEqual(["a", "b", "c"], self.notes())
        self.assertEqual(0, self.word("restore", self.path("copy"), self.file).returncode)
        self.assertEqual(["a", "d"], self.notes())
        self.assertGreater(os.path.getsize(self.path("copy-wal")), 41)
        # To a name where nothing is but a second file of something else.
        self.write("new-wal", b"x" * 100)
        self.assertEqual(0, self.word("restore", self.path("copy"), self.path("new")).returncode)
        self.assertEqual(["a", "d"], self.notes(self.path("new")))
        self.assertEqual(1, len([it for it in self.names() if it.startswith("new.before-") and it.endswith("-wal")]))

    @tells("A copy that the program refuses")
    def test_what_is_refused(self):
        self.make(note("a"))
        before = self.names() + ["bad"]
        self.write("bad", "no collection")
        ran = self.word("restore", self.path("bad"), self.file)
        self.assertEqual(3, ran.returncode)
        self.assertIn(b"no SQLite file", ran.stderr)
        self.assertEqual(sorted(before), self.names())
        for words in (["restore", self.path("none"), self.file], ["restore", self.file, self.file], ["restore", self.file, self.folder]):
            self.assertEqual(3, self.word(*words).returncode)
        self.assertEqual(sorted(before), self.names())
        # The other way: the file that is refused goes aside.
        ran = self.word("restore", self.file, self.path("bad"))
        self.assertEqual(0, ran.returncode, ran.stderr)
        self.assertEqual(["a"], self.notes(self.path("bad")))
        aside = next(it for it in self.names() if it.startswith("bad.before-") and not it.endswith("-wal"))
        with open(self.path(aside)) as kept:
            self.assertEqual("no collection", kept.read())

    @tells("Never copy over `my.anki` by hand")
    def test_a_copy_by_hand_is_undone(self):
        self.make(note("a"))
        self.word("backup", self.file, self.path("copy"))
        self.killed(note("b"))
        shutil.copyfile(self.path("copy"), self.file)
        self.assertEqual(b"found 2", self.desk("find a or b").stdout[:7])
        # `restore` is not.
        self.killed(note("c"))
        self.assertEqual(0, self.word("restore", self.path("copy"), self.file).returncode)
        self.assertEqual(b"found 1", self.desk("find a or b or c").stdout[:7])

    @tells("A `restore` that is killed")
    def test_a_killed_restore(self):
        self.make(note("a"))
        self.word("backup", self.file, self.path("copy"))
        self.desk(note("b"))
        for step in range(8):
            child = os.fork()
            if child == 0:
                kill_at(step)
                with contextlib.suppress(files.Refused):
                    backups.restore(self.path("copy"), self.file)
                os._exit(0)
            _, status = os.waitpid(child, 0)
            # Both states are there, and it can be done again.
            self.assertIn(["a", "b"], [self.notes(self.path(it)) for it in self.names() if not it.endswith(("-wal", "copy"))], step)
            self.assertEqual(["a"], self.notes(self.path("copy")))
            ran = self.word("restore", self.path("copy"), self.file)
            self.assertEqual((0, ["a"]), (ran.returncode, self.notes()), (step, ran.stderr))
            self.desk(note("b"))
            if status == 0:
                break
        else:
            self.fail("no step was the last")

    @tells("A new `my.anki-wal` may be read")
    def test_access(self):
        self.make(note("a"))
        self.word("backup", self.file, self.path("copy"))
        for access in (0o600, 0o660, 0o644):
            os.chmod(self.file, access)
            with contextlib.suppress(OSError):
                os.remove(self.file + "-wal")
            self.desk("check")
            self.assertEqual(access, mode(self.file + "-wal"))
            self.assertEqual(0, self.word("restore", self.path("copy"), self.file).returncode)
            self.assertEqual(access, mode(self.file))
        own(self.file)
        own(self.folder)
        self.word("restore", self.path("copy"), self.file)
        self.assertEqual(os.stat(self.folder).st_uid, os.stat(self.file).st_uid)

    def test_by_another_user(self):
        self.make(note("a"))
        shutil.copyfile(self.program, self.path("program"))
        for name in self.names():
            own(self.path(name))
            os.chmod(self.path(name), 0o755 if name == "program" else 0o600)
        own(self.folder)
        os.chmod(self.path("my.anki"), 0o400)

        def tried():
            os.environ["ANKI_PROGRAM"] = self.path("program")
            said = []
            for call, words in ((backups.backup, [self.file, self.path("copy")]), (backups.restore, [self.file, self.path("new")])):
                try:
                    call(*words)
                    said.append("done")
                except files.Refused as fault:
                    said.append(str(fault))
            return "\n".join(said)

        said = as_another_user(tried).split("\n")
        # What may not be written can't be opened by the program, but it can be copied back.
        self.assertIn("may not be written by the user", said[0])
        self.assertEqual("done", said[1])
        self.assertEqual(["a"], self.notes(self.path("new")))


def kill_at(step):
    """Has this process be killed at its renaming, linking or removal of this number."""
    count = [0]

    def killing(call):
        def stop(*words):
            if count[0] == step:
                os.kill(os.getpid(), signal.SIGKILL)
            count[0] += 1
            return call(*words)

        return stop

    os.rename, os.link, os.remove = killing(os.rename), killing(os.link), killing(os.remove)


class NamesThatComeToBe(Case):
    @tells("`init` makes", "`desk`, `sync`, `lab`, `make` and words", "That is so of `bin/anki`")
    def test_which(self):
        # The rest of these sentences is in test_run.py, NoFiles.
        self.assertEqual(3, self.desk("check").returncode)
        self.assertEqual(["my.anki", "my.anki-wal"], self.names())
        self.assertEqual(0, self.around(self.path("new"), "-", "init").returncode)
        self.assertEqual(["my.anki", "my.anki-wal", "new", "new-wal"], self.names())

    @tells("`sqlite3` makes")
    def test_the_third_file(self):
        self.make(note("a"))
        with contextlib.closing(sqlite3.connect(self.file)) as connection:
            connection.execute("select count(*) from notes").fetchall()
            self.assertIn("my.anki-shm", self.names())
        self.assertEqual(["my.anki"], self.names())


if __name__ == "__main__":
    unittest.main()
