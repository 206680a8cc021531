import csv
import io
import os
import shutil
import stat
import tempfile
import unittest

from front.importing import LONGEST_FILE, Imported, words_of_import
from front.paths import read_file, target_of, write_file
from front.session import Lost, Session, Slip
from front.tests.files import FileCase
from front.tests.standin import StandIn


class Commands(FileCase):
    """What the front does with each answer, over a stand-in."""

    def setUp(self):
        super().setUp()
        self.make('note 1 1 ["a","A"]')
        self.tool = StandIn(self.folder, self.program, "import", "export")
        self.session = Session(self.tool.path, self.path)
        self.addCleanup(self.session.rest, "")

    def refused(self, said, status, given=b"g,,a,A\n"):
        self.tool.answer(said, status)
        with self.assertRaises((Slip, Lost)) as told:
            self.session.import_notes(1, 1, given)
        return type(told.exception), str(told.exception)

    def test_an_import_ends_the_desk_and_tells_what_it_did(self):
        self.session.flag(self.session.next_card(1), 2)
        self.tool.answer("added 2 updated 1 same 30\n", 0)
        given = "g1,t1 t2,\"a\nb\",é\r\n".encode() + b"\xff"
        self.assertEqual(self.session.import_notes(1, 1, given), Imported(2, 1, 30))
        self.assertEqual(self.tool.asked(), "%s - import 1 1\n" % self.path)
        # The bytes of the file reach the program as they are.
        self.assertEqual(self.tool.given(), given)
        self.assertIsNone(self.session.desk)
        self.assertIn("closed for the import: undo is empty from here", self.session.take_notice())
        with self.assertRaises(Slip):
            self.session.undo()

    def test_refusals_in_words(self):
        for said, words in (
            ("line 1: csv fault 1 at 1", "record 1, counted without empty lines: it has not the 4 columns guid, tags, Front, Back"),
            ("line 3: csv fault 2 at 3", "record 3, counted without empty lines: its guid, the first column, is empty"),
            ("line 2: csv fault 3 at 2", "a column is not UTF-8"),
            ("line 2: csv fault 4 at 2", "a note of another type has its guid"),
            ("line 7: row fault 4 at 5", "record 7, counted without empty lines: a tag is empty, or has a character that no tag has [row fault 4 at 5]"),
            ("line 7: row fault 1 at 6", "the fields are too long together"),
            ("line 2: row fault 1 at 1", "record 2, counted without empty lines: its guid is over 64 bytes [row fault 1 at 1]"),
            ("line 0: long input", "Nothing was imported: the file is too long [long input]"),
            ("line 1: no such deck 1", "record 1, counted without empty lines: no such deck 1"),
        ):
            kind, told = self.refused(said + "\n", 3)
            self.assertIs(kind, Slip)
            self.assertIn("Nothing was imported: ", told)
            self.assertIn(words, told)
        self.assertEqual(words_of_import("no collection", []), "Nothing was imported: no collection")

    def test_an_import_that_does_not_end_well(self):
        for said, status, words in (("", 6, "another program has it"), ("", 8, "out of memory"), ("", 5, "could not write its output"), ("", 0, "before its answer")):
            kind, told = self.refused(said, status)
            self.assertIs(kind, Lost)
            self.assertIn(words, told)
            self.assertIn("Whether it was done is seen by a search.", told)

    def test_what_can_not_be_asked_is_not(self):
        self.session.open()
        desk = self.session.desk
        heads = [(1, 1, head + b",Front,Back\ng1,,a,A\n") for head in (b"guid,tags", b'\xef\xbb\xbf"GUID","tags"', b"#separator:tab\n", b"#html:true\r\n#")]
        for words in ((9, 1, b""), (1, 9, b""), (None, 1, b""), (1, None, b""), (1, 1, bytes(LONGEST_FILE + 1)), *heads):
            with self.assertRaises(Slip) as told:
                self.session.import_notes(*words)
        self.assertIn("bin/from-anki-text makes files of it", str(told.exception))
        with self.assertRaises(Slip):
            self.session.export_notes(9)
        self.assertIs(self.session.desk, desk)
        self.assertIsNone(self.tool.asked())

    def test_an_export_gives_what_the_program_printed(self):
        self.tool.answer("g,t,a,\"A\nB\"\n", 0)
        self.assertEqual(self.session.export_notes(1), b'g,t,a,"A\nB"\n')
        self.assertEqual(self.tool.asked(), "%s - export 1\n" % self.path)
        self.assertIsNone(self.session.desk)
        self.tool.answer("g,t", 8)
        with self.assertRaises(Lost):
            self.session.export_notes(1)

    def test_a_program_without_the_commands(self):
        kind, told = self.refused("usage\n", 2)
        self.assertTrue(issubclass(kind, Slip))
        self.assertEqual(told, "this program is older than the command import: take a newer one; nothing was done")
        with self.assertRaises(Slip) as told:
            self.session.export_notes(1)
        self.assertIn("older than the command export", str(told.exception))


class RealProgram(FileCase):
    def setUp(self):
        super().setUp()
        self.make('note 1 1 ["a","A"]')
        self.session = Session(self.program, self.path)
        self.addCleanup(self.session.rest, "")

    def test_an_import(self):
        self.needs("import", "1", "1")
        self.assertEqual(self.session.import_notes(1, 1, b'g1,t2 t1,abc,x\ng2,,"d, e",y\n'), Imported(2, 0, 0))
        self.assertEqual(self.session.import_notes(1, 1, b'g1,t2 t1,abc,z\ng2,,"d, e",y\n'), Imported(0, 1, 1))
        found = self.session.search("tag:t1", 0, 10)
        self.assertEqual((found.total, found.cards[0].note), (1, "abc"))
        with self.assertRaises(Slip) as told:
            self.session.import_notes(1, 1, b"g3,,new,x\ng4,,z\n")
        self.assertIn("record 2, counted without empty lines: it has not the 4 columns guid, tags, Front, Back", str(told.exception))
        self.assertEqual(self.session.search("", 0, 10).total, 3)

    def test_an_export(self):
        self.needs("export", "1")
        rows = list(csv.reader(io.StringIO(self.session.export_notes(1).decode(), newline="")))
        self.assertEqual([row[1:] for row in rows], [["", "a", "A"]])
        self.assertTrue(rows[0][0])
        self.assertEqual(self.session.export_notes(2), b"")

    def test_what_was_exported_is_imported_as_it_was(self):
        self.needs("import", "1", "1")
        self.needs("export", "1")
        self.session.add_note(1, 1, ['one "quoted", and\ntwo', ""], ["t"])
        content = self.session.export_notes(1)
        self.assertEqual(self.session.import_notes(1, 1, content), Imported(0, 0, 2))
        self.assertEqual(self.session.export_notes(1), content)


class Paths(unittest.TestCase):
    def setUp(self):
        self.folder = os.path.realpath(tempfile.mkdtemp(prefix="anki-front-"))
        self.addCleanup(shutil.rmtree, self.folder)

    def path(self, *names):
        return os.path.join(self.folder, *names)

    def test_a_file_is_written_whole_and_for_its_user_alone(self):
        write_file(self.path("a.csv"), b"x")
        write_file(self.path("a.csv"), b"y\xff")
        self.assertEqual(read_file(self.path("a.csv")), b"y\xff")
        self.assertEqual(stat.S_IMODE(os.stat(self.path("a.csv")).st_mode), 0o600)
        self.assertEqual(os.listdir(self.folder), ["a.csv"])
        with self.assertRaises(Slip):
            write_file(self.path("none", "a.csv"), b"")

    def test_the_files_of_the_collection_are_no_targets(self):
        held = self.path("my.anki")
        for name in ("my.anki", "my.anki-wal", "my.anki-shm"):
            write_file(self.path(name), b"")
            os.symlink(self.path(name), self.path("link of " + name))
            os.link(self.path(name), self.path("other name of " + name))
            for kind in ("", "link of ", "other name of "):
                with self.assertRaises(Slip):
                    target_of(self.path(kind + name), held)
        with self.assertRaises(Slip):
            target_of(self.folder, held)
        self.assertEqual(target_of(self.path("none", "..", "a.csv"), held), self.path("a.csv"))

    def test_what_can_not_be_read_is_told(self):
        for path in (self.folder, self.path("none"), self.path("long")):
            with open(self.path("long"), "wb") as file:
                file.truncate(LONGEST_FILE + 1)
            with self.assertRaises(Slip):
                read_file(path)
