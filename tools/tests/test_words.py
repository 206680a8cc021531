"""The words of bin/anki that are no commands of the program."""
import hashlib
import json
import os
import pty
import re
import shutil
import subprocess
import unittest

from tools import anki_words, helps
from tools.tests.support import TOP, Case, note, run


class Words(Case):
    def test_wrong_words(self):
        for words in ([], ["other"], ["backup"], ["backup", "a"], ["restore", "a", "b", "c"], ["show", "a"], ["doctor"], ["help", "a", "b"], ["--version", "x"]):
            ran = self.word(*words)
            self.assertEqual((2, b""), (ran.returncode, ran.stdout), words)
            self.assertRegex(ran.stderr, rb"\Aanki: [^\n]+\n\Z")

    def test_a_reader_that_ends(self):
        ran = run(["sh", "-c", '"$@" | true', "sh", shutil.which("python3"), os.path.join(TOP, "tools", "anki_words.py"), "help", "answers"])
        self.assertEqual(b"", ran.stderr)

    def test_doctor(self):
        self.make(note("a"))
        ran = self.word("doctor", self.file)
        self.assertEqual(0, ran.returncode)
        self.assertEqual("%s opens.\nIt holds 1 notes, 1 cards, 0 reviews, 3 note types, 1 decks.\nIt is sound.\n" % self.file, ran.stdout.decode())
        self.sql("update cards set nid = 5")
        ran = self.word("doctor", self.file)
        self.assertEqual(0, ran.returncode)
        self.assertRegex(ran.stdout.decode(), r"It is not sound: card \d+ without note\. To do: .+")
        self.sql("update cards set ord = 500", "update col set ver = 12")
        ran = self.word("doctor", self.file)
        self.assertEqual(6, ran.returncode)
        self.assertRegex(ran.stdout.decode(), r"(?s)is refused:\n- in the table cards, row id \d+, the column ord is 500, and may be 0 to 499\..*the column ver is the number 12, and a collection has 11")

    def test_show(self):
        self.make(note("a\\u001b[31m"), "deck Fr\u00e9::x", note("b"))
        ids = self.desk("find b").stdout.decode().split()[2:]
        shown = {table: self.word("show", self.file, table).stdout.decode().split("\n") for table in ("decks", "types", "options", "notes")}
        self.assertEqual(["Default", "Fr\u00e9", "Fr\u00e9::x"], [line.split("\t")[2] for line in shown["decks"][1:-1]])
        self.assertEqual(["1", "2", "3"], [line.split("\t")[0] for line in shown["types"][1:-1]])
        self.assertEqual(["1"], [line.split("\t")[0] for line in shown["options"][1:-1]])
        self.assertEqual([["a\u001b[31m", "x"], ["b", "x"]], [json.loads(line.split("\t")[5]) for line in shown["notes"][1:-1]])
        self.assertNotIn("\x1b", "".join(shown["notes"]))
        found = self.word("show", self.file, "notes", "b").stdout.decode().split("\n")[1:-1]
        self.assertEqual([ids], [line.split("\t")[2].split(" ") for line in found])
        # What is shown is what the desk's lines take.
        group, kind = (json.loads(shown[table][1].split("\t")[-1]) for table in ("options", "types"))
        group["maxTaken"] = 61
        printed = self.desk("options %s" % json.dumps(group), "allow retype [%s,[0,1],[0]]" % json.dumps(kind)).stdout
        self.assertEqual(b"options 1\nok\n", printed)
        for words in (["cards"], ["decks", "x"], ["notes", "is:bad"], ["notes", "a\nb"]):
            ran = self.word("show", self.file, *words)
            self.assertEqual((3, b""), (ran.returncode, ran.stdout), words)
        for path in (self.path("none"), self.folder, self.write("text", "x")):
            self.assertEqual(3, self.word("show", path, "decks").returncode)
        self.assertEqual(["my.anki", "my.anki-wal", "text"], self.names())

    def test_show_after_a_kill(self):
        self.make(note("a"))
        self.killed(note("b"))
        self.assertEqual(3, len(self.word("show", self.file, "notes").stdout.decode().split("\n")[:-1]))
        self.assertEqual(["my.anki", "my.anki-wal"], self.names())

    def test_help(self):
        for topic in ("desk", "lab", "import", "sync", "answers"):
            self.assertEqual(0, self.word("help", topic).returncode)
        self.assertEqual(3, self.word("help", "other").returncode)
        self.assertEqual(self.word("help").stdout, self.word("--help").stdout)
        for command in ("init", "desk", "lab", "sync KEY", "upload KEY", "download KEY", "import TYPE DECK", "export TYPE", "make SEED SIZE"):
            self.assertRegex(self.word("--help").stdout.decode(), r"(?m)^anki <file> (-|<server>) %s$" % command)
        for word in anki_words.WORDS:
            self.assertIn(word, self.word("--help").stdout.decode())


class Start(Case):
    """bin/anki in a tree of its own, over a stand-in for the program that prints its words."""

    def setUp(self):
        super().setUp()
        with open(os.path.join(TOP, "bin", "anki"), encoding="utf-8") as script:
            if "anki_words.py" not in script.read():
                self.skipTest("bin/anki does not call the words yet")
        self.top = self.path("top")
        ignore = shutil.ignore_patterns("tests", "__pycache__", ".git")
        for folder in ("tools", "front", "bin", "docs"):
            shutil.copytree(os.path.join(TOP, folder), os.path.join(self.top, folder), ignore=ignore)
        for name in ("VERSION", "CHANGELOG.md"):
            shutil.copyfile(os.path.join(TOP, name), os.path.join(self.top, name))
        os.makedirs(os.path.join(self.top, "crates/anki/src"))
        self.write("top/crates.txt", "anki:\n")
        self.write("top/crates/anki/src/main.rt", "fn main() {}\n")
        os.mkdir(os.path.join(self.top, "dist"))
        program = '#!/bin/sh\n[ $# -eq 2 ] && exit 2\nprintf "<%s>" "$@"\necho\n'
        self.write("top/dist/anki", program)
        os.chmod(os.path.join(self.top, "dist/anki"), 0o755)
        total = subprocess.run(["sh", "-c", 'root=$1; program=anki; . "$1/bin/program.sh"; sum_of_sources "$1"', "sh", self.top], stdout=subprocess.PIPE).stdout.decode().strip()
        self.write("top/dist/anki.txt", "sources: %s\nsha256: %s\n" % (total, hashlib.sha256(program.encode()).hexdigest()))
        self.total = total

    def anki(self, *words):
        environment = {key: value for key, value in os.environ.items() if key != "ANKI_PROGRAM"}
        return run([os.path.join(self.top, "bin", "anki")] + list(words), env=environment, cwd=self.folder)

    def test_all_words_go_to_the_program_if_the_second_is_a_server(self):
        for word in list(anki_words.WORDS) + ["my.anki"]:
            for server in ("-", "localhost:80", "127.0.0.1:8080", "[::1]:80"):
                self.assertEqual("<%s><%s><init>\n" % (word, server), self.anki(word, server, "init").stdout.decode(), (word, server))
        self.assertEqual("<./show><-><init>\n", self.anki("./show", "-", "init").stdout.decode())

    def test_else_the_word_is_done(self):
        for word in anki_words.WORDS:
            for second in ([], ["./a:1"], ["a:b"], ["a:"], [":1"], ["--"]):
                self.assertNotIn(b"<", self.anki(word, *second).stdout.split(b"\n")[0], (word, second))
        self.assertTrue(self.anki("--help").stdout.startswith(b"anki "))
        self.assertIn(b"no file", self.anki("doctor", "none").stdout + self.anki("doctor", "none").stderr)

    def test_version(self):
        said = self.anki("--version").stdout.decode()
        self.assertEqual("anki %s\nsources: %s\nprogram: dist/anki, which is of these sources\n" % (helps.version_number(), self.total), said)
        self.write("top/crates/anki/src/main.rt", "fn main() { }\n")
        self.assertIn("program: none of these sources yet", self.anki("--version").stdout.decode())

    def test_a_build_tells_how_far_it_is_on_a_terminal_alone(self):
        self.write("top/HANDLES", "Handles allowed: Net.\n")
        os.mkdir(self.path("commands"))
        # A stand-in for the toolchain's command.
        rt = self.write("commands/rt", "#!/bin/sh\nmkdir -p crates/anki/out\nprintf '#!/bin/sh\\necho built\\n' >crates/anki/out/anki\nchmod +x crates/anki/out/anki\necho 'rt: anki proved'\n")
        os.chmod(rt, 0o755)
        environment = dict(os.environ, PATH=self.path("commands") + ":" + os.environ["PATH"])
        for number, is_terminal in enumerate((False, True)):
            self.write("top/crates/anki/src/main.rt", "fn main() {} // %d\n" % number)
            here, there = pty.openpty()
            ran = run([os.path.join(self.top, "bin", "anki"), "-", "-", "lab"], env=environment, input=b"", stderr=there if is_terminal else subprocess.PIPE)
            os.close(there)
            self.assertEqual(b"built\n", ran.stdout)
            told = os.read(here, 10000) if is_terminal else ran.stderr
            os.close(here)
            self.assertEqual(is_terminal, b"1 of 1 crates" in told, told)

    def test_the_program_found(self):
        self.assertEqual(os.path.join(self.top, "dist", "anki") + "\n", self.anki("--program").stdout.decode())


if __name__ == "__main__":
    unittest.main()
