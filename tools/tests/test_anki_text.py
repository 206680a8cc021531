"""Anki's "Notes in Plain Text" and the CSV of imports and exports, one made of the other."""
import contextlib
import json
import os
import resource
import shutil
import sqlite3
import subprocess
import sys
import tempfile
import unittest
from unittest import mock

from front.collection import open_collection
from tools import anki_text
from tools.tests.support import TOP, Case, run

# As Anki 2.1.55 and later write a text with all boxes ticked.
HEAD = "#separator:tab\n#html:true\n#guid column:1\n#notetype column:2\n#deck column:3\n#tags column:%d\n"

# What a collection's file has that is read here.
TABLES = """
create table col (id integer primary key, crt integer, mod integer, scm integer, ver integer, dty integer, usn integer, ls integer, conf text, models text, decks text, dconf text, tags text);
create table notes (id integer primary key, guid text, mid integer, mod integer, usn integer, tags text, flds text, sfld text, csum integer, flags integer, data text);
create table cards (id integer primary key); create table revlog (id integer primary key); create table graves (usn integer, oid integer, type integer);
"""


def type_of(number, name, *fields, cloze=0):
    sides = [{"afmt": "", "name": "Card 1", "ord": 0, "qfmt": "{{%s}}" % fields[0]}]
    return {"flds": [{"name": it, "ord": place} for place, it in enumerate(fields)], "id": number, "mod": 0, "name": name, "sortf": 0, "tmpls": sides, "type": cloze, "usn": 0}


TYPES = [type_of(1, "Basic", "Front", "Back"), type_of(2, "Cloze", "Text", "Extra", cloze=1)]


def deck_of(number, name):
    return {"conf": 1, "dyn": 0, "id": number, "mod": 0, "name": name, "newToday": [0, 0], "revToday": [0, 0], "usn": 0}


class Texts(unittest.TestCase):
    """What is read of a text, over a file that stock SQLite made."""

    def setUp(self):
        self.folder = tempfile.mkdtemp(prefix="anki-tools-")
        self.addCleanup(shutil.rmtree, self.folder, ignore_errors=True)
        self.file = os.path.join(self.folder, "my.anki")
        self.out = os.path.join(self.folder, "out")
        with contextlib.closing(sqlite3.connect(self.file)) as file:
            file.executescript(TABLES)
            objects = [json.dumps({str(it["id"]): it for it in rows}) for rows in (TYPES, [deck_of(1, "Default"), deck_of(7, "Words::French")])]
            file.execute("insert into col values (1, 0, 0, 0, 11, 0, 0, 0, '{}', ?, ?, '{}', '{}')", objects)
            file.commit()

    def write(self, text):
        path = os.path.join(self.folder, "notes.txt")
        with open(path, "wb") as out:
            out.write(text if isinstance(text, bytes) else text.encode())
        return path

    def converted(self, text):
        """The commands, the lines that are missing, how many notes name a file, and the files' texts."""
        lines, missing, media = anki_text.from_anki_text(self.file, self.write(text), self.out, None, "anki")
        made = {}
        for name in os.listdir(self.out) if os.path.isdir(self.out) else []:
            with open(os.path.join(self.out, name), encoding="utf-8", newline="") as file:
                made[name] = file.read()
        return lines, missing, media, made

    def refused(self, text):
        with self.assertRaises(anki_text.Refused) as told:
            self.converted(text)
        self.assertFalse(os.path.exists(self.out))
        return str(told.exception)

    def test_a_file_for_each_type_and_deck(self):
        rows = "g1\tBasic\tDefault\tthe dog\tder Hund\tanimal  german \ng2\tBasic\tWords::French\tle chien\t\t\ng3\tCloze\tDefault\t{{c1::a}}\tx\t\ng4\tBasic\tDefault\ta\tb\t\n"
        lines, missing, media, made = self.converted(HEAD % 6 + rows)
        self.assertEqual(({
            "type-1-deck-1.csv": "g1,animal german,the dog,der Hund\ng4,,a,b\n", "type-1-deck-7.csv": "g2,,le chien,\n", "type-2-deck-1.csv": "g3,,{{c1::a}},x\n",
        }, [], 0), (made, missing, media))
        self.assertEqual(["anki %s - import %s %s < %s" % (self.file, kind, deck, os.path.join(self.out, "type-%s-deck-%s.csv" % (kind, deck))) for kind, deck in ((1, 1), (1, 7), (2, 1))], lines)

    def test_quotes_tabs_and_lines_in_a_field(self):
        rows = 'g"1\tBasic\tDefault\t"say ""hi""\tnow"\t"two\nlines, <br>"\t\n"#g2"\tBasic\tDefault\ta,b\tc\t\n# a remark\n\ng3\tBasic\tDefault\t#a\tb"c\t\n'
        made = self.converted(HEAD % 6 + rows)[3]
        self.assertEqual({"type-1-deck-1.csv": '"g""1",,"say ""hi""\tnow","two\nlines, <br>"\n#g2,,"a,b",c\ng3,,#a,"b""c"\n'}, made)

    def test_a_plain_text_is_written_as_html(self):
        made = self.converted('#separator:Semicolon\n#tags:a b\n#deck:Words::French\n"x < y & z";"one\r\ntwo"\n')[3]
        guid = made["type-1-deck-7.csv"].split(",")[0]
        self.assertEqual("%s,a b,x &lt; y &amp; z,one<br>two\n" % guid, made["type-1-deck-7.csv"])
        self.assertRegex(guid, r"\A[0-9a-f]{20}\Z")

    def test_a_guid_is_made_again_as_it_was(self):
        text = "a\tb\na\tc\nd\te\n"
        guids = [[note.guid for note in anki_text.notes_of(text)] for _ in range(2)]
        self.assertEqual(guids[0], guids[1])
        self.assertEqual(3, len(set(guids[0])))
        self.assertEqual(guids[0][0], next(anki_text.notes_of("a\tother\n")).guid)

    def test_separators(self):
        for text in ("a\tb\n", "a;b\n", "a,b\n", "#separator:|\na|b\n", "#separator:pipe\na|b\n", "#separator:Colon\r\na:b\r\n", "\ufeff#separator:space\na b\n"):
            self.assertEqual([["a", "b"]], [note.fields for note in anki_text.notes_of(text)], text)
        self.assertIn("is none of tab", self.refused("#separator:dot\na\tb\n"))
        self.assertIn("no number of a column", self.refused("#guid column:x\na\tb\n"))

    def test_what_is_missing_is_told_by_lines_of_the_desk(self):
        rows = "g1\tWord\tSchool::A\ta\tb\tc\t\ng2\tGaps\tSchool\tA title\t{{c1::x}}\t\t\ng3\tBasic\tDefault\ta\tb\tc\t\n"
        lines, missing, _, made = self.converted(HEAD % 7 + rows)
        self.assertEqual(([], {}), (lines, made))
        self.assertEqual(["allow retype", "type", "type", "deck", "deck"], [line.split(" [")[0].split(" {")[0].split(" School")[0] for line in missing])
        changed, fields, sides = json.loads(missing[0][len("allow retype "):])
        self.assertEqual((["Front", "Back", "Field 3"], [0, 1, None], [0], 1), ([it["name"] for it in changed["flds"]], fields, sides, changed["id"]))
        gaps, word = (json.loads(line[len("type "):]) for line in missing[1:3])
        self.assertEqual(("Gaps", 1, "{{cloze:Field 2}}", "{{cloze:Field 2}}<br>{{Field 1}}"), (gaps["name"], gaps["type"], gaps["tmpls"][0]["qfmt"], gaps["tmpls"][0]["afmt"]))
        self.assertEqual(("Word", 0, "{{Field 1}}", "{{FrontSide}}<hr>{{Field 2}}<br>{{Field 3}}"), (word["name"], word["type"], word["tmpls"][0]["qfmt"], word["tmpls"][0]["afmt"]))
        self.assertEqual(["deck School", "deck School::A"], missing[3:])

    def test_a_name_with_a_line_end_makes_no_line(self):
        self.assertIn("is none of a line", self.refused(HEAD % 6 + 'g1\tBasic\t"A\ndelete 1"\ta\tb\t\n'))

    def test_fields_of_other_types_are_no_fields(self):
        self.assertEqual({"type-1-deck-1.csv": "g1,,a,b\n"}, self.converted(HEAD % 9 + "g1\tBasic\tDefault\ta\tb\t\t\t\t\n")[3])

    def test_pictures_and_sounds_are_counted(self):
        self.assertEqual(2, self.converted(HEAD % 6 + 'g1\tBasic\tDefault\t<img src=""a.png"">\tb\t\ng2\tBasic\tDefault\ta\t[sound:a.mp3]\t\ng3\tBasic\tDefault\ta\tb\t\n')[2])

    def test_no_file_is_written_over(self):
        text = HEAD % 6 + "g1\tBasic\tDefault\ta\tb\t\n"
        first = self.converted(text)
        with self.assertRaises(anki_text.Refused) as told:
            self.converted(text.replace("a\tb", "c\td"))
        self.assertIn("name another folder", str(told.exception))
        with open(os.path.join(self.out, "type-1-deck-1.csv"), encoding="utf-8") as file:
            self.assertEqual(first[3]["type-1-deck-1.csv"], file.read())

    def test_a_write_that_fails_leaves_no_file(self):
        with mock.patch.object(anki_text, "csv_line", lambda columns: "\ud800" if columns[0] == "g2" else "x\n"):
            with self.assertRaises(UnicodeEncodeError):
                self.converted(HEAD % 6 + "g1\tBasic\tDefault\ta\tb\t\ng2\tCloze\tDefault\ta\tb\t\n")
        self.assertEqual([], os.listdir(self.out))

    def test_texts_without_notes(self):
        for text in ("", "#separator:tab\n", "\n\n"):
            self.assertIn("has no notes", self.refused(text))
        with self.assertRaises(UnicodeDecodeError):
            self.converted(b"a\xff\tb\n")

    def test_how_the_program_is_called(self):
        self.assertEqual("bin/anki", anki_text.anki_beside("bin/from-anki-text"))
        with mock.patch.dict(os.environ, PATH=os.path.join(TOP, "bin")):
            self.assertEqual("anki", anki_text.anki_beside(os.path.join(TOP, "bin", "from-anki-text")))
        with mock.patch.dict(os.environ, PATH=self.folder):
            self.assertEqual(os.path.join(TOP, "bin", "anki"), anki_text.anki_beside(os.path.join(TOP, "bin", "from-anki-text")))


class Back(unittest.TestCase):
    """What an export writes, as Anki's text."""

    def text_of(self, exported, *words):
        return "".join(anki_text.to_anki_text(exported, *(words or ("Basic", "Default"))))

    def test_the_columns_are_those_of_anki(self):
        self.assertEqual(HEAD % 6 + "g1\tBasic\tA::B\tthe dog\tder Hund\tx y\n", self.text_of("g1,x y,the dog,der Hund\n", "Basic", "A::B"))
        self.assertEqual(HEAD % 5, self.text_of(""))

    def test_it_is_read_again_as_it_was(self):
        exported = '"g,1",a b,"say ""hi""","tab\there"\n#g2,,"two\r\nlines",\ng3,,"#",x\n'
        notes = list(anki_text.notes_of(self.text_of(exported)))
        self.assertEqual(exported.replace('"#"', "#").replace('"tab\there"', "tab\there"), "".join(anki_text.csv_line([it.guid, it.tags] + it.fields) for it in notes))

    def test_what_is_no_export_is_refused(self):
        for text in ("g1\n", "g1,,a\ng2,,a,b\n"):
            with self.assertRaises(anki_text.Refused):
                self.text_of(text)

    def test_the_two_programs_say_what_they_take(self):
        for name in ("from-anki-text", "to-anki-text"):
            ran = subprocess.run([sys.executable, os.path.join(TOP, "bin", name), "x"], stdout=subprocess.PIPE, stderr=subprocess.PIPE)
            self.assertEqual((2, b""), (ran.returncode, ran.stdout))
            self.assertRegex(ran.stderr.decode(), r"\A%s: takes [^\n]+\n\Z" % name)

    def test_a_reader_that_ends(self):
        words = [sys.executable, os.path.join(TOP, "bin", "to-anki-text"), "Basic", "Default"]
        ran = subprocess.Popen(words, stdin=subprocess.PIPE, stdout=subprocess.PIPE, stderr=subprocess.PIPE)
        ran.stdout.close()
        said = ran.communicate("".join("g%d,,a,b\n" % it for it in range(20000)).encode())[1]
        self.assertEqual((5, b""), (ran.returncode, said))


class Whole(Case):
    """From Anki's text to the first card, and back, by the program itself."""

    def setUp(self):
        super().setUp()
        if run([self.program, "-", "-", "import", "1", "1"], input=b"").returncode == 2:
            self.skipTest("the program is older than the command import")
        self.make()

    def from_anki(self, folder):
        environment = dict(os.environ, ANKI_PROGRAM=self.program)
        return run([sys.executable, os.path.join(TOP, "bin", "from-anki-text"), self.file, self.path("anki.txt"), self.path(folder)], env=environment)

    def do(self, line):
        """Runs a command that was printed, over the program itself."""
        words, path = line.split(" < ")
        with open(path, "rb") as given:
            return run([self.program] + words.split(" ")[1:], stdin=given).stdout.decode()

    def test_there_and_back(self):
        rows = 'g1\tBasic\tSchool\tla gare\tthe station\ttravel\ng2\tWord\tSchool\ta\tb "c"\t\ng3\tBasic\tDefault\ta\tb\t\n'
        self.write("anki.txt", HEAD % 6 + rows.replace('b "c"', '"b ""c"""'))
        ran = self.from_anki("notes")
        self.assertEqual((3, 2), (ran.returncode, ran.stdout.decode().count("\n")))
        self.assertIn("lacks what these lines make", ran.stderr.decode())
        self.assertEqual(0, run([self.program, self.file, "-", "desk"], input=ran.stdout).returncode)
        ran = self.from_anki("notes")
        self.assertEqual((0, b""), (ran.returncode, ran.stderr))
        lines = ran.stdout.decode().split("\n")[:-1]
        self.assertEqual(["added 1 updated 0 same 0\n"] * 3, [self.do(line) for line in lines])
        self.assertEqual(["added 0 updated 0 same 1\n"] * 3, [self.do(line) for line in lines])
        self.assertRegex(self.desk("find tag:travel", "find deck:School", "check").stdout.decode(), r"\Afound 1 \d+\nfound 2 \d+ \d+\nsound\n\Z")
        exported = run([self.program, self.file, "-", "export", "1"]).stdout
        back = run([sys.executable, os.path.join(TOP, "bin", "to-anki-text"), "Basic", "School"], input=exported).stdout.decode()
        self.assertEqual(HEAD % 6 + "g1\tBasic\tSchool\tla gare\tthe station\ttravel\ng3\tBasic\tSchool\ta\tb\t\n", back)

    def test_a_type_that_has_too_few_fields_gets_more(self):
        self.desk('note 1 1 ["old","x"]')
        self.write("anki.txt", HEAD % 7 + "g1\tBasic\tDefault\ta\tb\tc\t\n")
        ran = self.from_anki("notes")
        self.assertIn("full needed", ran.stderr.decode())
        self.assertEqual(b"ok\n", run([self.program, self.file, "-", "desk"], input=ran.stdout).stdout)
        self.assertEqual("added 1 updated 0 same 0\n", self.do(self.from_anki("notes").stdout.decode().rstrip("\n")))
        with open_collection(self.file, self.program) as collection:
            self.assertEqual(["old\x1fx\x1f", "a\x1fb\x1fc"], [note.flds for note in collection.notes()])

    @unittest.skipUnless(os.environ.get("ANKI_TEST_LARGE"), "1 GiB of input takes a while: ANKI_TEST_LARGE=1 tries it")
    def test_an_input_over_its_limit_is_refused_and_changes_nothing(self):
        record = b"g1,,a,b\n"
        for more, status, said, notes in ((0, 0, b"added 1 updated 0 same 0\n", ["a"]), (1, 3, b"line 0: long input\n", [])):
            shutil.copyfile(self.file, self.path("copy"))
            ran = subprocess.Popen([self.program, self.path("copy"), "-", "import", "1", "1"], stdin=subprocess.PIPE, stdout=subprocess.PIPE)
            # A record, and then empty lines, which are none.
            ran.stdin.write(record)
            for _ in range((1 << 10) - 1):
                ran.stdin.write(b"\n" * (1 << 20))
            out = ran.communicate(b"\n" * ((1 << 20) - len(record) + more))[0]
            self.assertEqual((status, said, notes), (ran.returncode, out, self.notes(self.path("copy"))))

    def test_want_of_memory_ends_with_8_and_changes_nothing(self):
        records = "".join("g%d,,a,b\n" % it for it in range(20_000)).encode()
        enough, few = 1 << 32, 40 << 20
        for memory, word, status, said, notes in ((few, "import", 8, b"", 0), (enough, "import", 0, b"added 20000 updated 0 same 0\n", 20_000), (few, "export", 8, b"", 20_000)):
            words = [self.program, self.file, "-", word, "1"] + ["1"] * (word == "import")
            ran = run(words, input=records, preexec_fn=lambda: resource.setrlimit(resource.RLIMIT_AS, (memory, memory)))
            self.assertEqual((status, said, notes), (ran.returncode, ran.stdout, len(self.notes(self.file))))


if __name__ == "__main__":
    unittest.main()
