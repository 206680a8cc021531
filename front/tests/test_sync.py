import os
import re
import socket
import subprocess
import time
import unittest

from front import program as programs
from front.program import ROOT
from front.session import Session, Slip
from front.syncing import OUTCOMES, OUTCOMES_OF, WAYS, needs_whole, outcome_of
from front.tests.files import FileCase
from front.tests.standin import StandIn

KEY = "0123456789abcdef0123456789abcdef"


class Syncs(FileCase):
    def setUp(self):
        super().setUp()
        self.make('note 1 1 ["a","A"]')
        self.tool = StandIn(self.folder, self.program, "sync", "upload", "download")
        self.session = Session(self.tool.path, self.path)
        self.addCleanup(self.session.rest, "")

    def sync(self, said, status):
        self.tool.answer(said, status)
        return self.session.sync("example.org:8765", KEY)

    def test_a_sync_ends_the_desk_and_says_so(self):
        self.session.flag(self.session.next_card(1), 2)
        outcome = self.sync("finished\n", 0)
        self.assertEqual(outcome, ("finished", "Both sides hold the same now.", ""))
        self.assertIsNone(self.session.desk)
        self.assertIn("undo is empty from here", self.session.take_notice())
        self.assertEqual(self.tool.asked(), "%s example.org:8765 sync %s\n" % (self.path, KEY))
        with self.assertRaises(Slip):
            self.session.undo()

    def test_an_upload_and_a_download_end_the_desk_and_say_so(self):
        for flag, word in enumerate(("upload", "download"), 2):
            self.session.flag(self.session.next_card(1), flag)
            self.tool.answer("finished\n", 0)
            outcome = self.session.send_whole(word, " example.org:8765", KEY + " ")
            self.assertEqual(outcome.said, "finished")
            self.assertIn("Undo is empty from here.", outcome.words)
            self.assertEqual(self.tool.asked(), "%s example.org:8765 %s %s\n" % (self.path, word, KEY))
            self.assertIsNone(self.session.desk)
            self.assertIn("closed for the %s: undo is empty from here" % word, self.session.take_notice())
            with self.assertRaises(Slip):
                self.session.undo()
            self.assertEqual(self.session.last_server, "example.org:8765")

    def test_what_can_not_be_asked_is_not(self):
        self.session.open()
        desk = self.session.desk
        for server, key in (("-", KEY), ("", KEY), ("example.org", KEY), ("a b:1", KEY), ("-x:1", KEY), ("example.org:0", KEY), ("http://a:1", KEY),
                            ("a:1", ""), ("a:1", KEY[1:]), ("a:1", KEY.upper()), ("a:1", KEY + "\n-")):
            with self.assertRaises(Slip):
                self.session.sync(server, key)
            with self.assertRaises(Slip):
                self.session.send_whole("upload", server, key)
        self.assertIs(self.session.desk, desk)
        self.assertIsNone(self.tool.asked())

    def test_a_program_without_a_connection_or_without_the_commands(self):
        with self.assertRaises(Slip) as told:
            self.sync("usage\n", 2)
        self.assertIn("no connection", str(told.exception))
        with self.assertRaises(Slip) as told:
            self.session.send_whole("download", "example.org:8765", KEY)
        self.assertEqual(str(told.exception), "this program is older than the command download: take a newer one; nothing was done")


class Outcomes(unittest.TestCase):
    def is_strange(self, said, word="sync"):
        """Whether an outcome is that of a server of another make, or any other refusal."""
        return "of another make" in outcome_of(said, 15, word).words

    def test_every_outcome_of_the_manual_has_words(self):
        with open(os.path.join(ROOT, "docs", "profile", "outcomes.md"), encoding="utf-8") as file:
            printed = re.findall(r"^\| `([^`]*)` \| \d+ \|", file.read(), re.MULTILINE)
        self.assertGreater(len(printed), 10)
        strange = {text for text in printed if self.is_strange(text)}
        self.assertEqual(strange, {"refused <status> <word>", "stopped", "bad reply", "too many chunks"})
        for text in printed:
            self.assertEqual(outcome_of(text, 0).said, text)
        # An upload and a download end in none of these ways.
        never = {text for text in printed if text.startswith(("no changes", "full needed", "sanity failed"))}
        self.assertEqual(len(never), 5)
        for word in WAYS:
            self.assertEqual({text for text in printed if self.is_strange(text, word)}, strange | never)

    def test_what_is_told(self):
        self.assertEqual(outcome_of("refused 403 key", 13).advice, "Correct the key.")
        self.assertIn("throws away what only the other side has", outcome_of("full needed: schema 1 2", 10).advice)
        self.assertIn("5 minutes", outcome_of("clock off: 5 900", 12).words)
        self.assertIn("can't be opened", outcome_of("", 6).words)
        self.assertTrue(self.is_strange("refused 418 teapot"))
        self.assertIn("Sync again later.", outcome_of("bad reply", 15).advice)
        self.assertTrue(all(words for outcomes in [OUTCOMES, *OUTCOMES_OF.values()] for _, words, _ in outcomes))

    def test_a_lost_upload_may_have_been_taken(self):
        for said in ("lost", "refused 503 keeper", "refused 500 memory", "refused 409 base", "keeper failed", "bad reply"):
            self.assertIn("the server may have taken the upload all the same", outcome_of(said, 7, "upload").words, said)
            self.assertTrue(outcome_of(said, 7, "download").words.endswith("This device holds what it held."), said)
        self.assertIn("may have taken the upload", outcome_of("", 8, "upload").words)
        self.assertEqual(outcome_of("", 8).words, "Memory ran out. Nothing is lost.")
        self.assertIn("Upload again.", outcome_of("lost", 7, "upload").advice)

    def test_each_way_says_what_it_throws_away(self):
        self.assertIn("what the server has and this device has not", WAYS["upload"].throws)
        self.assertIn("Every other device of the account must download then", WAYS["upload"].throws)
        self.assertIn("every change and every answer of this device that was not synced", WAYS["download"].throws)
        self.assertIn("Download on every other device", outcome_of("finished", 0, "upload").advice)

    def test_which_outcomes_need_a_whole_collection(self):
        needed = [said for said in ("full needed: schema 1 2", "full needed: sequence 2147483646", "sanity failed: counts 1 2", "refused 409 usn", "refused 409 base",
                                    "finished", "no changes", "lost") if needs_whole(outcome_of(said, 0))]
        self.assertEqual(needed, ["full needed: schema 1 2", "full needed: sequence 2147483646", "sanity failed: counts 1 2", "refused 409 usn"])


class WithServer(FileCase):
    """The program over a real ankid, the one in dist/ if ANKID_PROGRAM names no other."""

    def setUp(self):
        super().setUp()
        with socket.socket() as it:
            it.bind(("127.0.0.1", 0))
            self.port = it.getsockname()[1]
        with open(os.path.join(self.folder, "accounts.toml"), "w") as file:
            file.write('[[account]]\nname = "a"\nkey = "%s"\nfile = "a.anki"\n' % KEY)
        ankid = os.environ.get("ANKID_PROGRAM") or os.path.join(ROOT, "dist", "ankid")
        words = [ankid, "--listen", "127.0.0.1:%d" % self.port, "--accounts", "accounts.toml"]
        server = subprocess.Popen(words, cwd=self.folder, stdin=subprocess.DEVNULL, stdout=subprocess.DEVNULL)
        self.addCleanup(server.wait)
        self.addCleanup(server.kill)
        ends = time.monotonic() + 30
        while True:
            with socket.socket() as link:
                if link.connect_ex(("127.0.0.1", self.port)) == 0:
                    break
            self.assertIsNone(server.poll())
            self.assertLess(time.monotonic(), ends)
            time.sleep(0.01)

    def device(self, name, *lines):
        self.path = os.path.join(self.folder, name)
        # Made anew, so that each has a schema moment of its own.
        self.assertEqual(programs.make_collection(self.program, self.path), 0)
        self.do(*lines)
        session = Session(self.program, self.path)
        self.addCleanup(session.rest, "")
        return session

    def at_server(self, session, word):
        server = "127.0.0.1:%d" % self.port
        return (session.sync(server, KEY) if word == "sync" else session.send_whole(word, server, KEY)).said

    def cards(self, session):
        return session.search("", 0, 10).total

    def test_one_device_uploads_and_the_other_downloads(self):
        self.needs("upload")
        self.needs("download")
        one = self.device("one.anki", 'note 1 1 ["a","A"]', 'note 1 1 ["b","B"]')
        two = self.device("two.anki", 'note 1 1 ["c","C"]')
        one.flag(one.next_card(1), 2)
        self.assertTrue(self.at_server(one, "sync").startswith("full needed: schema "))
        self.assertEqual(self.at_server(one, "upload"), "finished")
        self.assertEqual(self.at_server(one, "sync"), "no changes")
        self.assertTrue(self.at_server(two, "sync").startswith("full needed: schema "))
        self.assertEqual(self.cards(two), 1)
        self.assertEqual(self.at_server(two, "download"), "finished")
        self.assertEqual((self.cards(one), self.cards(two)), (2, 2))
        self.assertEqual(two.search("flag:2", 0, 10).total, 1)
        two.add_note(1, 1, ["d", "D"])
        self.assertEqual([self.at_server(session, "sync") for session in (two, one)], ["finished", "finished"])
        self.assertEqual(self.cards(one), 3)
        for session in (one, two):
            session.rest("")
            self.assertEqual(programs.run_over(self.program, session.path, "desk", given=b"check\n"), (0, b"sound\n"))

    def test_two_collections_that_were_begun_apart_need_a_whole_one(self):
        one = self.device("one.anki", 'note 1 1 ["a","A"]')
        self.assertTrue(self.at_server(one, "sync").startswith("full needed: schema "))
        self.assertEqual(self.cards(one), 1)
