"""A collection that is named as a journal: what bin/anki refuses, what stands around a run, what the words beside the program say. The program is a stand-in, which writes
journals by their rules."""
import fcntl
import os
import shutil
import subprocess
import sys
import tempfile
import unittest

# The doctor imports the other one when it meets a journal, and another user may not be able to.
from tools import doctor, journal_doctor  # noqa: F401
from tools.tests.support import TOP, WORDS, Case, as_another_user, note, own, run

STAND_IN = os.path.join(TOP, "deploy", "tests", "journal_program.py")
# By the Python that runs here, which may not be the first on the path.
SCRIPT = '#!/bin/sh\nexec "%s" -E -s "%s" "$@"\n' % (sys.executable, STAND_IN)


class Journals(Case):
    def setUp(self):
        super().setUp()
        self.log = self.path("my.log")
        self.name = "journal:" + self.log
        room = tempfile.mkdtemp(prefix="anki-tools-")
        self.addCleanup(shutil.rmtree, room)
        self.stand_in = os.path.join(room, "anki")
        with open(self.stand_in, "w") as file:
            file.write(SCRIPT)
        os.chmod(self.stand_in, 0o755)

    def environment(self, **more):
        return dict(os.environ, ANKI_PROGRAM=self.stand_in, BEHIND=self.program, **more)

    def around(self, *words, lines=b"", **more):
        return super().around(*words, program=self.stand_in, lines=lines, env=self.environment(**more))

    def word(self, *words):
        """Runs a word of bin/anki over the stand-in."""
        return run([sys.executable, WORDS, *words], env=self.environment())

    def begin(self, *lines):
        self.assertEqual(0, self.around(self.name, "-", "init").returncode)
        if lines:
            self.assertEqual(0, self.around(self.name, "-", "desk", lines="".join(line + "\n" for line in lines).encode()).returncode)

    def bytes(self):
        with open(self.log, "rb") as file:
            return file.read()

    def said(self, *words, status, lines=b""):
        ran = self.around(*words, lines=lines)
        self.assertEqual(status, ran.returncode, ran)
        return ran.stderr.decode()


class Runs(Journals):
    def test_init_makes_one_file_and_a_desk_goes_on_with_it(self):
        self.begin(note("a"))
        self.assertEqual(["my.log"], self.names())
        self.assertEqual(b"sound\n", self.around(self.name, "-", "desk", lines=b"check\n").stdout)
        self.assertEqual(b"", self.around(self.name, "-", "desk", lines=b"check\n").stderr)

    def test_no_journal_is_left_where_there_was_none(self):
        for words in (["desk"], ["export", "1"], ["sync", "0" * 32], ["dekc"], []):
            for quiet in ("0", "1"):
                self.around(self.name, "-", *words, ANKI_QUIET=quiet)
                self.assertEqual([], self.names(), words)

    def test_a_journal_that_was_there_stays(self):
        self.write("my.log", b"\0")
        self.assertEqual(3, self.around(self.name, "-", "desk").returncode)
        self.assertEqual(b"\0", self.bytes())

    def test_what_is_said_of_no_collection(self):
        self.assertEqual("anki: there is no file %s; nothing was changed; make one by 'bin/anki %s - init'\n" % (self.log, self.name), self.said(self.name, "-", "desk", status=3))
        self.begin()
        self.assertIn("did you mean %s?" % self.name, self.said("journal:" + self.path("my.logg"), "-", "desk", status=3))
        self.assertIn("a line was refused", self.said(self.name, "-", "desk", status=3, lines=b"foo\n"))

    def test_what_is_said_of_damage(self):
        self.begin(note("a"))
        cut = self.bytes()[:-10]
        self.write("my.log", cut)
        ran = self.around(self.name, "-", "desk")
        self.assertEqual(16, ran.returncode)
        self.assertRegex(ran.stdout, rb"\Ajournal damaged at \d+\n\Z")
        self.assertRegex(ran.stderr, rb"\Aanki: the journal is damaged: .*; the file stays as it is; put a copy of it back")
        self.assertEqual(cut, self.bytes())

    def test_what_is_said_of_a_file_that_fails(self):
        self.begin()
        with open(self.log, "rb") as file:
            fcntl.flock(file, fcntl.LOCK_EX)
            self.assertIn("is open in another program", self.said(self.name, "-", "desk", status=6))
        self.assertIn("there is no folder", self.said("journal:" + self.path("none/x"), "-", "init", status=6))
        self.assertIn("is a folder", self.said("journal:" + self.folder, "-", "desk", status=6))
        self.assertIn("names no file", self.said("journal:", "-", "desk", status=6))


class Words(Journals):
    def test_doctor(self):
        self.begin(note("a"))
        size = len(self.bytes())
        self.assertEqual((0, "%s opens.\nIt is a journal of %d bytes.\nIt is sound.\n" % (self.name, size)), self.told("doctor", self.name))
        self.assertIn("if it is a journal, write `journal:` before its name", self.told("doctor", self.log)[1])
        cut = self.bytes()[:-10]
        self.write("my.log", cut)
        status, said = self.told("doctor", self.name)
        self.assertEqual(6, status)
        self.assertRegex(said, r"it is damaged: journal damaged at \d+\.\n  To do: put a copy of the file back")
        self.assertEqual(cut, self.bytes())
        self.write("my.log", b"text")
        self.assertIn("it begins with the byte 116, and a journal with 0 or 1", self.told("doctor", self.name)[1])
        self.write("my.log", b"")
        self.assertIn("It holds no collection yet: `bin/anki %s - init`" % self.name, self.told("doctor", self.name)[1])
        os.remove(self.log)
        self.assertIn("there is no file %s" % self.log, self.told("doctor", self.name)[1])

    def told(self, *words):
        ran = self.word(*words)
        return ran.returncode, ran.stdout.decode()

    def test_doctor_over_a_database(self):
        self.make(note("a"))
        self.assertIn("is a collection in SQLite, and no journal", self.told("doctor", "journal:" + self.file)[1])

    def test_rights(self):
        self.begin()
        for path in (self.folder, self.log):
            own(path)
        os.chmod(self.log, 0o400)

        self.assertIn("may not be written by", as_another_user(lambda: doctor.findings_of(self.name)[0].what))

    def test_the_words_that_take_files_of_sqlite_refuse_journals(self):
        self.begin()
        whole = self.bytes()
        for words in (["backup", self.name, self.path("copy")], ["restore", self.name, self.path("other")], ["restore", self.path("copy"), self.name], ["show", self.name, "decks"]):
            ran = self.word(*words)
            self.assertEqual((3, b""), (ran.returncode, ran.stdout), words)
            self.assertIn(b"is a journal; ", ran.stderr)
        self.assertEqual((["my.log"], whole), (self.names(), self.bytes()))

    def test_fronts_refuse_journals(self):
        for front in ("anki-study", "anki-web"):
            ran = run([os.path.join(TOP, "bin", front), self.name], env=dict(os.environ, ANKI_PROGRAM=self.program), input=b"y\n")
            self.assertEqual((1, []), (ran.returncode, self.names()))
            self.assertIn(b"a front reads collections in SQLite", ran.stderr)


class Refused(Case):
    """bin/anki in a tree of its own, over a program that takes any file away that it is given."""

    def setUp(self):
        super().setUp()
        for name in ("bin", "tools", "front", "docs"):
            shutil.copytree(os.path.join(TOP, name), self.path("top/" + name), ignore=shutil.ignore_patterns("tests", "__pycache__", "*.md", "*.png"))
        os.mkdir(self.path("top/dist"))
        program = self.write("top/dist/anki", '#!/bin/sh\n[ $# -eq 2 ] && exit 2\nrm "${1#journal:}"\n')
        os.chmod(program, 0o755)
        total = subprocess.run(["sha256sum", program], stdout=subprocess.PIPE, text=True).stdout.split()[0]
        self.write("top/dist/anki.txt", "sources: x\nsha256: %s\n" % total)

    def anki(self, *words, **more):
        # No python3 is on the path: the refusal needs none.
        os.makedirs(self.path("commands"), exist_ok=True)
        for name in ("sh", "od", "tr", "dd", "sed", "sha256sum", "cut", "dirname", "readlink", "rm"):
            if not os.path.exists(self.path("commands/" + name)):
                os.symlink(shutil.which(name), self.path("commands/" + name))
        return run(["/bin/sh", self.path("top/bin/anki"), *words], env=dict(PATH=self.path("commands"), **more), cwd=self.folder)

    def test_a_first_byte_above_1_is_refused_and_the_file_stays(self):
        for data in (b"\2", b"\xff\0", b"hello\n", b"SQLite format 3\0" + b"\0" * 84, b"SQLite format 3", b"PK\3\4"):
            for name in ("x", "./x", self.path("x"), "-"):
                self.write(name.rsplit("/", 1)[-1], data)
                for words in (["-", "desk"], ["-", "init"], ["-", "lab"], ["host:1", "download", "0" * 32], ["-"], []):
                    ran = self.anki("journal:" + name, *words)
                    self.assertEqual((6, b""), (ran.returncode, ran.stdout), (data, words))
                    self.assertIn(b"is a collection in SQLite" if data.startswith(b"SQLite") else b"it begins with the byte %d," % data[0], ran.stderr)
                    with open(self.path(name), "rb") as file:
                        self.assertEqual(data, file.read())
        self.assertEqual((6, b""), (lambda ran: (ran.returncode, ran.stderr))(self.anki("journal:x", "-", "desk", ANKI_QUIET="1")))

    def test_any_other_goes_to_the_program(self):
        for data in (b"", b"\0", b"\1", b"\0more", b"\1\0\0"):
            self.write("x", data)
            self.assertEqual(0, self.anki("journal:x", "-", "desk").returncode)
            self.assertFalse(os.path.exists(self.path("x")))

    def test_a_file_of_such_a_name_is_named_with_its_folder(self):
        self.write("journal:x", b"hello\n")
        self.assertEqual(0, self.anki("./journal:x", "-", "desk").returncode)


if __name__ == "__main__":
    unittest.main()
