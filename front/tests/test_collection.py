import os
import signal
import sqlite3
import subprocess
import sys
import unittest

from front import program as programs
from front.collection import (
    Held,
    NoFile,
    NotCollection,
    fields_of,
    open_collection,
    options_of,
    tags_of,
)
from front.program import ROOT
from front.tests.files import FileCase

AT_REST = ["my.anki", "my.anki-wal"]

# Another process that reads the file with sqlite until its input ends.
OTHER_READER = """
import sqlite3, sys
file = sqlite3.connect("file:%s?mode=ro" % sys.argv[1], uri=True)
file.execute("select count(*) from notes").fetchone()
print("open", flush=True)
sys.stdin.read()
"""


# Another user, if this one may become one, who reads the file.
ANOTHER_USER = """
import os, sys
sys.path.insert(0, sys.argv[1])
from front.collection import ReadFault, open_collection
if os.geteuid() == 0:
    os.setgroups([])
    os.setgid(65534)
    os.setuid(65534)
try:
    with open_collection(sys.argv[2]):
        print("read")
except ReadFault as fault:
    print("%s: %s" % (type(fault).__name__, fault))
"""


class Reading(FileCase):
    def test_rows_are_those_that_the_desk_made(self):
        self.make('note 1 1 ["le chien","the dog"]', 'note 2 1 ["{{c1::a}} {{c2::b}}",""]', "deck French::Food")
        with open_collection(self.path, self.program) as collection:
            notes = list(collection.notes())
            cards = list(collection.cards())
            self.assertEqual([fields_of(note) for note in notes], [["le chien", "the dog"], ["{{c1::a}} {{c2::b}}", ""]])
            self.assertEqual([tags_of(note) for note in notes], [[], []])
            self.assertEqual([card.nid for card in cards], [notes[0].id, notes[1].id, notes[1].id])
            self.assertEqual([card.ord for card in cards], [0, 0, 1])
            self.assertEqual(collection.note(notes[1].id), notes[1])
            self.assertIsNone(collection.note(7))
            self.assertEqual(collection.count("notes"), 2)
            self.assertEqual(list(collection.reviews()), [])
            self.assertEqual(sorted(deck.name for deck in collection.decks().values()), ["Default", "French", "French::Food"])
            self.assertEqual(collection.types()[2].fields, ["Text", "Extra"])
            self.assertTrue(collection.types()[2].cloze)
            self.assertEqual(collection.options()[1].object["new"]["perDay"], 20)
            self.assertEqual(collection.head().conf["nextPos"], 3)

    def test_options_of_version_1_are_those_that_the_program_writes(self):
        old = {
            "id": 5, "lapse": {"delays": [10, 25], "kept": "yes", "minInt": 2, "mult": 5, "multPm": 250}, "name": "Hard", "new": {"delays": [1, 1440], "perDay": 30, "steps": "mine"},
            "rev": {"ease4Pm": 1350, "hardFactorPm": 1000, "ivlFctPm": 975, "perDay": 150},
        }
        new = {
            "id": 5, "lapse": {"kept": "yes", "minInt": 2, "mult": "0.25", "steps": [600, 1500]}, "name": "Hard", "new": {"perDay": 30, "steps": [60, 86400]},
            "rev": {"ease4": "1.35", "hardFactor": "1", "ivlFct": "0.975", "perDay": 150},
        }
        self.assertEqual(options_of(old).object, new)
        self.assertEqual(options_of(new).object, new)
        self.assertEqual(old["new"]["delays"], [1, 1440])

    def test_reviews_come_from_an_id_on(self):
        made = self.make('note 1 1 ["a","b"]')
        card = made[0].split()[3]
        self.do("answer %s 3 100" % card, "answer %s 3 200" % card)
        with open_collection(self.path, self.program) as collection:
            both = list(collection.reviews())
            self.assertEqual([review.time for review in both], [100, 200])
            self.assertEqual(list(collection.reviews(both[1].id)), both[1:])

    def test_nothing_is_left_beside_the_file(self):
        self.make()
        self.assertEqual(self.names(), AT_REST)
        with open_collection(self.path, self.program) as collection:
            collection.count("notes")
        self.assertEqual(self.names(), AT_REST)

    def test_a_file_without_a_log_stays_alone(self):
        self.make()
        os.remove(self.path + "-wal")
        with open_collection(self.path, self.program) as collection:
            self.assertEqual(collection.count("notes"), 0)
        self.assertEqual(self.names(), ["my.anki"])

    def test_what_another_sqlite_uses_stays_to_it(self):
        self.make()
        other = subprocess.Popen(
            [sys.executable, "-c", OTHER_READER, self.path], stdin=subprocess.PIPE, stdout=subprocess.PIPE
        )
        self.assertEqual(other.stdout.readline(), b"open\n")
        with open_collection(self.path, self.program) as collection:
            self.assertEqual(collection.count("notes"), 0)
        self.assertIn("my.anki-shm", self.names())
        other.communicate()
        with open_collection(self.path, self.program) as collection:
            self.assertEqual(collection.count("notes"), 0)
        self.assertEqual(self.names(), AT_REST)

    def test_the_program_opens_the_file_right_after(self):
        self.make()
        with open_collection(self.path, self.program):
            self.assertEqual(programs.open_and_close(self.program, self.path), programs.KEEPER_FAILED)
        self.assertEqual(programs.open_and_close(self.program, self.path), programs.DONE)

    def test_a_link_is_followed(self):
        self.make('note 1 1 ["a","b"]')
        link = os.path.join(self.folder, "link.anki")
        os.symlink(self.path, link)
        with open_collection(link, self.program) as collection:
            self.assertEqual(collection.count("notes"), 1)
        self.assertEqual(self.names(), ["link.anki"] + AT_REST)


class AfterKill(FileCase):
    def test_what_was_printed_before_a_kill_is_read(self):
        self.make()
        desk = self.start()
        lines = b"".join(b'note 1 1 ["k%d","b"]\n' % place for place in range(200))
        desk.stdin.write(lines)
        desk.stdin.flush()
        printed = [desk.stdout.readline() for _ in range(5)]
        desk.send_signal(signal.SIGKILL)
        desk.wait()
        self.assertGreater(os.path.getsize(self.path + "-wal"), 41)
        with open_collection(self.path, self.program) as collection:
            held = {note.id for note in collection.notes()}
        self.assertLessEqual({int(line.split()[1]) for line in printed}, held)
        self.assertEqual(os.path.getsize(self.path + "-wal"), 41)
        self.assertEqual(self.names(), AT_REST)

    def test_a_file_that_the_program_has_is_told_as_open(self):
        self.make()
        desk = self.start()
        desk.stdin.write(b"check\n")
        desk.stdin.flush()
        desk.stdout.readline()
        with self.assertRaises(Held) as told:
            with open_collection(self.path, self.program):
                pass
        name = os.path.basename(self.program)
        self.assertEqual(
            str(told.exception), "%s is open in another program (%s, process %d)" % (self.path, name, desk.pid)
        )
        desk.stdin.close()
        self.assertEqual(desk.wait(), 0)
        self.assertEqual(self.names(), AT_REST)

    def start(self):
        desk = subprocess.Popen(
            programs.words_for(self.program, self.path, "desk"), stdin=subprocess.PIPE, stdout=subprocess.PIPE
        )
        self.addCleanup(desk.stdout.close)
        self.addCleanup(desk.stdin.close)
        self.addCleanup(desk.wait)
        self.addCleanup(desk.kill)
        return desk


class Faults(FileCase):
    def read(self, path):
        with open_collection(path, self.program) as collection:
            collection.types()

    def test_no_file_and_a_folder(self):
        for path in (self.path, self.folder):
            with self.assertRaises(NoFile):
                self.read(path)
        self.assertEqual(self.names(), [])

    def test_no_collection(self):
        with open(self.path, "w") as file:
            file.write("no database" * 1000)
        with self.assertRaises(NotCollection):
            self.read(self.path)
        with open(self.path, "w"):
            pass
        with self.assertRaises(NotCollection):
            self.read(self.path)
        self.assertEqual(self.names(), ["my.anki"])

    def test_a_column_that_is_no_json(self):
        self.make()
        for models in ("[]", "{", '{"1":{}}', '{"1":7}'):
            file = sqlite3.connect(self.path)
            file.execute("update col set models = ?", (models,))
            file.commit()
            file.close()
            with self.assertRaises(NotCollection):
                self.read(self.path)

    def test_no_permission(self):
        self.make()
        os.chmod(self.folder, 0o755)
        os.chmod(self.path, 0)
        # The superuser may read all, so another user reads.
        run = subprocess.run(
            [sys.executable, "-c", ANOTHER_USER, ROOT, self.path], stdout=subprocess.PIPE, stderr=subprocess.PIPE, check=False
        )
        self.assertEqual(run.stdout.decode(), "Unreadable: %s can't be read: permission denied\n" % self.path, run.stderr.decode())


if __name__ == "__main__":
    unittest.main()
