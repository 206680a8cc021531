import os
import signal
import sqlite3
import subprocess
import sys
import time

from front.program import ROOT
from front.tests.files import FileCase
from front.tests.keys import STUDY, Terminal
from front.tests.standin import StandIn

KEY = "0123456789abcdef0123456789abcdef"


class Lines(FileCase):
    """The front over pipes: a key is the first letter of a line."""

    def study(self, *lines, status=0):
        run = subprocess.run(
            STUDY + [self.path],
            input="".join(line + "\n" for line in lines).encode(),
            stdout=subprocess.PIPE,
            stderr=subprocess.PIPE,
            env=dict(os.environ, ANKI_PROGRAM=self.program, HOME=self.folder, COLUMNS="80", TZ="UTC"),
        )
        self.assertEqual(run.returncode, status, run.stderr.decode())
        self.said = run.stderr.decode()
        return run.stdout.decode()

    def reviews(self):
        file = sqlite3.connect(self.path)
        rows = file.execute("select ease from revlog order by id").fetchall()
        file.close()
        return [row[0] for row in rows]

    def test_from_nothing_to_a_day_of_study(self):
        said = self.study(
            "y",
            *("a", "1", "1", "le <b>chien</b>", "the dog\\n\x1b[31m", "animal", "la maison", "the house", "", ""),
            *("1", " ", "4", " ", "4"),
            *("/is:review", ""),
            *("u", "1", " ", "1", "q"),
            *("c", "q"),
        )
        self.assertIn("There is no collection in", said)
        self.assertIn("Added: 1 card.", said)
        self.assertIn("le chien\n", said)
        self.assertIn("the dog\n‹ESC›[31m\n", said)
        self.assertIn("Default: all done for now.\nTomorrow: 0 cards to review. New ones left: 0.", said)
        self.assertIn("2 cards\n", said)
        self.assertIn("Undone: the answer.", said)
        self.assertIn("Reviews in the last 30 days: 2\n", said)
        self.assertNotIn("\x1b", said)
        self.assertEqual(self.names(), ["my.anki", "my.anki-wal"])
        self.assertEqual(self.reviews(), [4, 1])

    def test_what_a_learner_changes(self):
        self.make('note 1 1 ["a","A"]', 'note 1 1 ["b","B"]')
        said = self.study(
            *("n", "French::Food", "n", "French::Food", "r", "2", "Greek", "no", "r", "2", "Latin", "yes", "x", "3", "no", "x", "3", "yes"),
            *("1", "e", ".", "new back", "t1 t2", "f", "9", "f", "5", "b", "s"),
            *("o", "1", "n", "mine", "o", "1", "e", "", "5", *[""] * 16),
            *("t", "n", "Pair", "One, Two", "n", "Card", "{{One}}", "{{Two}}", ""),
            *("t", "r", "4", "Triple", "no", "t", "r", "4", "Twins", "yes", "t", "x", "4", "yes"),
            *("o", "1", "e", "ours", "yes", *[""] * 17),
            *("o", "1", "e", "theirs", "no", *[""] * 17),
            *("/a", "1", "x", ""),
            *("g", "2", "zzz", "99", "q"),
        )
        self.assertIn("! there is a deck French::Food already", said)
        self.assertIn("Rename French to Greek? Type yes: ", said)
        self.assertIn("Rename French to Latin? Type yes: ", said)
        self.assertIn("Rename Pair to Triple? Type yes: ", said)
        self.assertIn("Delete the note type Twins?", said)
        self.assertIn("Rename mine to ours? Type yes: ", said)
        self.assertIn("Rename ours to theirs? Type yes: ", said)
        self.assertIn("Delete Latin::Food: 1 deck, 0 cards and 0 notes go.", said)
        self.assertIn("! a flag is 0 to 7", said)
        self.assertIn("Flag 5.", said)
        self.assertIn("all done for now", said)
        self.assertIn("! The schema has changed: undo is empty from here.", said)
        self.assertIn("! there is no command zzz", said)
        self.assertIn("! there is no deck of the number 99", said)
        file = sqlite3.connect(self.path)
        self.assertEqual(file.execute("select flds, tags from notes order by id").fetchall(), [("\x1fnew back", " t1 t2 "), ("b\x1fB", "")])
        self.assertEqual(file.execute("select queue from cards order by id").fetchall(), [(-3,), (-1,)])
        options = file.execute("select dconf from col").fetchone()[0]
        self.assertIn('"perDay":5', options)
        self.assertIn('"ours"', options)
        self.assertNotIn('"theirs"', options)
        self.assertIn('"newSpread":2', file.execute("select conf from col").fetchone()[0])
        self.assertIn('"Latin"', file.execute("select decks from col").fetchone()[0])
        file.close()

    def stand_in(self, said, status):
        """Has the front run a stand-in that answers so."""
        self.make('note 1 1 ["a","A"]')
        tool = StandIn(self.folder, self.program, "sync", "upload", "download", "import", "export")
        tool.answer(said, status)
        self.program = tool.path
        return tool

    def test_the_ways_out_are_offered_after_a_sync_and_asked_for_twice(self):
        tool = self.stand_in("full needed: schema 1 2\n", 10)
        account = ("example.org:8765", KEY)
        last = "%s example.org:8765 %%s %s\n" % (self.path, KEY)
        for answers in (("",), ("x",), ("d", "no"), ("d", "yes", "upload"), ("u", "yes", "yes"), ("u", "y")):
            said = self.study("s", *account, *answers, "q")
            self.assertEqual(tool.asked(), last % "sync")
            self.assertIn("Key of the account: full needed: schema 1 2\n", said)
            self.assertIn("upload: The server takes this device's collection in the place of its own. It throws away what the server has", said)
            self.assertIn("download: This device takes the server's collection in the place of its own. It throws away what this device has", said)
        for key, word in (("u", "upload"), ("d", "download")):
            said = self.study("s", *account, key, "yes", word, "q")
            self.assertEqual(tool.asked(), last % word)
            self.assertIn("This can't be undone. Type the word %s to do it: " % word, said)

    def test_an_upload_without_a_sync_before(self):
        tool = self.stand_in("finished\n", 0)
        said = self.study("1", "f", "3", "q", "v", "example.org:8765", KEY, "u", "yes", "upload", "u", "q")
        self.assertEqual(tool.asked(), "%s example.org:8765 upload %s\n" % (self.path, KEY))
        self.assertIn("\nThe server holds what this device has. Undo is empty from here.\nDownload on every other device of the account", said)
        self.assertIn("! The file was closed for the upload: undo is empty from here.", said)
        self.assertIn("! there is nothing to undo", said)

    def test_import(self):
        tool = self.stand_in("added 1 updated 0 same 2\n", 0)
        with open(os.path.join(self.folder, "notes.csv"), "wb") as file:
            file.write(b"g1,,a,A\xff\n")
        said = self.study("i", "~/notes.csv", "1", "1", "no", "i", "none.csv", "i", "q")
        self.assertIsNone(tool.asked())
        self.assertIn("! there is no file none.csv", said)
        said = self.study("i", "~/notes.csv", "1", "1", "yes", "q")
        self.assertIn("A line of it is: guid, tags, Front, Back. An import can't be undone.", said)
        self.assertIn("Imported: 1 note added, 0 updated, 2 as they were.", said)
        self.assertEqual((tool.asked(), tool.given()), ("%s - import 1 1\n" % self.path, b"g1,,a,A\xff\n"))
        tool.answer("line 1: csv fault 2 at 1\n", 3)
        self.assertIn("! Nothing was imported: record 1, counted without empty lines: its guid", self.study("i", "~/notes.csv", "1", "1", "yes", "q"))

    def test_export(self):
        tool = self.stand_in("g1,,a,A\n", 0)
        path = os.path.join(self.folder, "out.csv")
        said = self.study("w", "1", "~/out.csv", "w", "1", self.path, "q")
        self.assertEqual(tool.asked(), "%s - export 1\n" % self.path)
        self.assertIn("The notes of Basic are in %s." % path, said)
        self.assertIn("is a file of the collection's own", said)
        tool.answer("g2,,b,B\n", 0)
        self.study("w", "1", path, "no", "q")
        with open(path) as file:
            self.assertEqual(file.read(), "g1,,a,A\n")
        self.study("w", "1", path, "yes", "q")
        with open(path) as file:
            self.assertEqual(file.read(), "g2,,b,B\n")
        tool.answer("usage\n", 2)
        self.assertIn("! this program is older than the command export", self.study("w", "1", "~/other.csv", "q"))
        self.assertFalse(os.path.exists(os.path.join(self.folder, "other.csv")))

    def test_import_and_export_by_the_program_itself(self):
        self.needs("import", "1", "1")
        self.needs("export", "1")
        self.make('note 1 1 ["a","A"]')
        path, bad = os.path.join(self.folder, "notes.csv"), os.path.join(self.folder, "bad.csv")
        for name, text in ((path, 'g1,t,"b, c",B\n'), (bad, "g2,,b,B\ng3,,c\n")):
            with open(name, "w") as file:
                file.write(text)
        said = self.study("i", path, "1", "1", "yes", "i", path, "1", "1", "yes", "i", bad, "1", "1", "yes", "w", "1", "~/out.csv", "q")
        self.assertIn("Imported: 1 note added, 0 updated, 0 as they were.", said)
        self.assertIn("Imported: 0 notes added, 0 updated, 1 as they were.", said)
        self.assertIn("! Nothing was imported: record 2, counted without empty lines: it has not the 4 columns guid, tags, Front, Back", said)
        with open(os.path.join(self.folder, "out.csv")) as file:
            lines = file.read().split("\n")
        self.assertEqual((lines[0].split(",", 1)[1], lines[1:]), (",a,A", ['g1,t,"b, c",B', ""]))
        self.assertEqual(self.do("counts 1"), ["new 2 learning 0 review 0"])

    def test_faults_at_the_start(self):
        self.study("n", status=1)
        self.assertEqual(self.names(), [])
        with open(self.path, "w") as file:
            file.write("no collection" * 500)
        self.study(status=1)
        self.assertIn("is no collection", self.said)


class Keys(FileCase):
    """The front at a terminal."""

    def start(self, words=tuple(STUDY)):
        terminal = Terminal(self.path, self.program, words)
        self.addCleanup(terminal.close)
        self.process, self.wait_for, self.press = terminal.process, terminal.wait_for, terminal.press

    def test_keys_without_enter(self):
        self.make('note 1 1 ["a","A"]', 'note 1 1 ["b","B"]')
        self.start()
        self.wait_for("> ")
        self.press("1\n")
        self.wait_for("show the back")
        # A button before the back is shown does nothing.
        self.press("3")
        self.press(" ")
        self.wait_for("space: Good")
        self.press("4")
        self.wait_for("show the back")
        self.press("u")
        self.wait_for("Undone: the answer.")
        self.wait_for("show the back")
        self.press("q")
        self.wait_for("> ")
        self.press("1\n")
        self.wait_for("show the back")
        self.press(" ")
        self.wait_for("space: Good")
        self.press(" ")
        self.wait_for("show the back")
        self.press("\x03")
        self.assertEqual(self.process.wait(), 130)
        # The file is closed, with what was answered.
        self.assertEqual(self.do("check"), ["sound"])
        file = sqlite3.connect(self.path)
        ((ease, taken),) = file.execute("select ease, time from revlog").fetchall()
        file.close()
        self.assertEqual(ease, 3)
        self.assertLess(taken, 60000)

    def test_a_key_of_an_account_is_not_shown(self):
        self.make('note 1 1 ["a","A"]')
        tool = StandIn(self.folder, self.program, "sync")
        tool.answer("finished\n", 0)
        self.program = tool.path
        self.start()
        self.wait_for("> ")
        self.press("s\n")
        self.wait_for("HOST:PORT []: ")
        self.press("example.org:1\n")
        self.wait_for("example.org:1")
        self.wait_for("Key of the account: ")
        self.press(KEY + "\n")
        self.wait_for("finished", never=KEY)
        self.assertEqual(tool.asked().split()[1:], ["example.org:1", "sync", KEY])
        # What is typed after it is shown again.
        self.wait_for("> ")
        self.press("?\n")
        self.wait_for("?\r\n")

    def test_the_file_is_closed_while_nobody_presses_a_key(self):
        self.make('note 1 1 ["a","A"]')
        idle = "import sys; sys.path.insert(0, %r); from front import terminal; terminal.IDLE = 0.5; sys.exit(terminal.main(sys.argv[1:]))" % ROOT
        self.start([sys.executable, "-c", idle])
        self.wait_for("> ")
        self.press("1\n")
        self.wait_for("show the back")
        self.press("f5")
        self.wait_for("Flag 5.")
        ends = time.monotonic() + 30
        while self.do("check") != ["sound"] and time.monotonic() < ends:
            time.sleep(0.1)
        self.assertEqual(self.do("find flag:5")[0].split()[1], "1")
        self.press(" ")
        self.wait_for("undo is empty from here")
        self.press("3")
        self.wait_for("show the back")

    def test_a_second_front_says_who_has_the_file(self):
        self.make('note 1 1 ["a","A"]')
        self.start()
        self.wait_for("> ")
        second = subprocess.run(STUDY + [self.path], stdin=subprocess.DEVNULL, stdout=subprocess.PIPE, stderr=subprocess.PIPE,
                                env=dict(os.environ, ANKI_PROGRAM=self.program))
        self.assertEqual(second.returncode, 1)
        self.assertRegex(second.stderr.decode(), r"is open in another program \(anki-study, process %d\)" % self.process.pid)
        self.process.send_signal(signal.SIGTERM)
        self.assertEqual(self.process.wait(), 143)
        self.assertEqual(self.do("check"), ["sound"])
