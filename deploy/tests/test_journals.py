"""Journals by their rules, and what deploy/try_journal.py makes of programs that keep them and of ones that do not.

    python3 -m unittest discover -s deploy/tests
"""
import argparse
import contextlib
import io
import os
import shutil
import subprocess
import sys
import tempfile
import unittest
from unittest import mock

TOP = os.path.dirname(os.path.dirname(os.path.dirname(os.path.realpath(__file__))))
HERE = os.path.dirname(os.path.realpath(__file__))
sys.dont_write_bytecode = True
sys.path.insert(0, os.path.join(TOP, "deploy"))

import journal_rules as rules  # noqa: E402
import try_journal  # noqa: E402

CUT = b'{"all":false,"cut":[[2,7]],"head":null,"put":[]}'
REVIEW = [7, 5, -1, 3, 0, 0, 0, 0, 0]
HEAD = {"conf": {"collapseTime": 1200, "dayLearnFirst": False, "lastUnburied": 0, "newSpread": 0, "nextPos": 1}, "crt": 1700000000, "ls": 0, "mod": 1700000000000,
        "scm": 1700000000000, "tags": {"a": -1, "b": 3}, "usn": 0}


def change(**told):
    return dict({"all": False, "cut": [], "head": None, "put": []}, **told)


class Frames(unittest.TestCase):
    def test_a_cut_of_one_review_is_58_bytes(self):
        self.assertEqual(b"\1" + b"\0" * 7 + b"\x30" + CUT + b"\0", rules.journal_of([CUT]))
        self.assertEqual(58, len(rules.journal_of([CUT])))

    def test_frames_end_at_the_first_gate_that_is_not_open(self):
        one = rules.frame(CUT)
        for rest in (b"", b"\0", b"\2", b"\0" + one, b"M" + one[1:], b"\1", b"\1" + b"\0" * 7):
            self.assertEqual(([CUT], 57), rules.payloads_in(one + rest), rest)
        self.assertEqual(([], 0), rules.payloads_in(b"M" + rules.journal_of([CUT])[1:]))
        self.assertEqual(([b""], 9), rules.payloads_in(b"\1" + b"\0" * 8))

    def test_an_open_gate_whose_payload_is_cut_off_is_damage_at_its_place(self):
        for data, place in ((b"\1" + b"\0" * 7 + b"\1", 0), (rules.frame(CUT) + b"\1" + b"\xff" * 8 + b"x" * 50, 57), (rules.frame(CUT)[:-1], 0)):
            with self.assertRaises(rules.Damaged) as caught:
                rules.payloads_in(data)
            self.assertEqual(place, caught.exception.place)

    def test_a_cut_off_payload_is_told_before_one_of_no_change(self):
        with self.assertRaises(rules.Damaged) as caught:
            rules.read(rules.frame(b"x") + b"\1" + b"\0" * 7 + b"\1")
        self.assertEqual(10, caught.exception.place)
        with self.assertRaises(rules.Damaged) as caught:
            rules.read(rules.frame(CUT) + rules.frame(b"x") + b"\0")
        self.assertEqual(57, caught.exception.place)


class Changes(unittest.TestCase):
    def is_one(self, told):
        payload = told if isinstance(told, bytes) else rules.payload_of(told)
        with contextlib.suppress(rules.NotOfForm):
            return rules.change_of(payload) is not None
        return False

    def test_what_is_a_change(self):
        for told in (CUT, change(), change(head=HEAD), change(all=True, head=HEAD), change(put=[[2, REVIEW]]), change(cut=[[0, -5], [1, 2], [8, 1]], put=[[2, REVIEW], [6, [-1, 9, 1]]])):
            self.assertTrue(self.is_one(told), told)

    def test_what_is_none(self):
        for told in (b"", b"x", b"{}", b"[]", CUT + b" ", CUT.replace(b",", b", ", 1), CUT.replace(b"false", b"0"), b'{"cut":[],"all":false,"head":null,"put":[]}', b"\xff" + CUT,
                     change(more=1), change(all=True), change(cut=[[2, 7], [2, 7]]), change(cut=[[2, 7], [1, 9]]), change(cut=[[9, 1]]), change(cut=[[2]]), change(cut=[[2, 1 << 63]]),
                     change(cut=[[2, 7]], put=[[2, REVIEW]]), change(put=[[1, REVIEW]]), change(put=[[2, REVIEW[:-1]]]), change(put=[[2, REVIEW[:-1] + [9]]]), change(put=[[2, REVIEW[:-1] + ["0"]]]),
                     change(put=[[7, [-1, 9, 1]]]), change(head=dict(HEAD, tags=[])), change(head=dict(HEAD, usn=-2)), change(head=dict(HEAD, more=1)),
                     change(head=dict(HEAD, conf=dict(HEAD["conf"], newSpread=3)))):
            self.assertFalse(self.is_one(told), told)

    def test_each_kind_of_row_that_the_program_writes_is_one(self):
        with tempfile.TemporaryDirectory() as room:
            held = held_of(room, 'note 1 1 ["a","b"]', "deck A::B", "flag 1 %s")
            self.assertEqual({rules.NOTE, rules.CARD, rules.TYPE, rules.DECK, rules.OPTIONS}, {table for table, _ in held.rows})
            payload = rules.payload_of(dict(rules.change_between(rules.Collection(), held), all=True))
            self.assertEqual(held, rules.fold([payload]))

    def test_a_written_form_that_is_not_the_programs_own_is_none(self):
        with tempfile.TemporaryDirectory() as room:
            rows = held_of(room).rows
        group, kind = rows[rules.OPTIONS, 1], rows[rules.TYPE, 1]
        self.assertTrue(self.is_one(change(put=[[rules.TYPE, kind], [rules.OPTIONS, group]])))
        for told in (dict(group, rev=dict(group["rev"], ease4="1.30")), dict(group, new={"delays": [1]})):
            self.assertFalse(self.is_one(change(put=[[rules.OPTIONS, told]])))
        self.assertFalse(self.is_one(change(put=[[rules.TYPE, dict(kind, flds=[dict(it, ord=5) for it in kind["flds"]])]])))

    def test_what_changes_make_of_a_collection(self):
        other = [8] + REVIEW[1:]
        held = rules.fold(map(rules.payload_of, (change(put=[[2, REVIEW], [2, other]], head=HEAD), change(cut=[[2, 7], [2, 9]]))))
        self.assertEqual(({(2, 8): other}, HEAD), (held.rows, held.head))
        held = rules.fold(map(rules.payload_of, (change(put=[[2, REVIEW]], head=HEAD), change(all=True, head=dict(HEAD, usn=4), put=[[2, other]]))))
        self.assertEqual(({(2, 8): other}, 4), (held.rows, held.head["usn"]))


def held_of(room, *lines):
    """What a file of SQLite holds after these lines of a desk, in which %s stands for the first card."""
    path, program = os.path.join(room, "it.anki"), os.path.join(TOP, "dist", "anki")
    subprocess.run([program, path, "-", "init"], check=True)
    card = ""
    for line in lines:
        ran = subprocess.run([program, path, "-", "desk"], input=(line.replace("%s", card) + "\n").encode(), stdout=subprocess.PIPE, check=True)
        card = card or (ran.stdout.decode().split() + [""] * 4)[3]
    return rules.of_sqlite(path)


class Files(unittest.TestCase):
    def test_a_collection_goes_into_sqlite_and_back(self):
        with tempfile.TemporaryDirectory() as room:
            held = held_of(room, 'note 1 1 ["a","b"]', "answer %s 3 1000", "deck A", "flag 2 %s")
            path = os.path.join(room, "other.anki")
            subprocess.run([os.path.join(TOP, "dist", "anki"), path, "-", "init"], check=True)
            rules.into_sqlite(held, path)
            self.assertEqual(held, rules.of_sqlite(path))
            self.assertEqual(held.content(), rules.of_sqlite(path).content())

    def test_a_file_without_a_collection_holds_none(self):
        with tempfile.TemporaryDirectory() as room:
            path = os.path.join(room, "it.anki")
            open(path, "wb").close()
            self.assertEqual(rules.Collection(), rules.of_sqlite(path))


# Programs that break a rule: what in the stand-in is replaced by what, and the trial that must fail.
WRONG = {
    "opens the gate before the payload is there": ("        self.write(self.gate + 1, len(payload)", "        self.write(self.gate, b'\\1')\n        self.write(self.gate + 1, len(payload)", "full"),
    "answers before the commit": ("            journal.commit(rules.of_sqlite(path), False)\n            os.write(1, answer)\n", "            os.write(1, answer)\n            journal.commit(rules.of_sqlite(path), False)\n", "full"),
    "does not lock": ("        fcntl.flock(self.file, fcntl.LOCK_EX | fcntl.LOCK_NB)\n", "", "second"),
    "takes a database": ('        if data.startswith(b"SQLite format 3"):\n            raise OSError("a database of SQLite")\n', "", "taken"),
    "does not cut": ("        os.ftruncate(self.file, self.gate)\n", "", "cuts"),
    "believes a length past the end": ("        payloads, self.gate = rules.payloads_in(data)\n", "        payloads, self.gate = payloads_in(data)\n", "cuts"),
    "forgets the last commit": ("        self.held = rules.fold(payloads)\n", "        self.gate -= len(rules.frame(payloads.pop())) if payloads else 0\n        self.held = rules.fold(payloads)\n", "cuts"),
    "does not look at payloads": ("        self.held = rules.fold(payloads)\n", "        self.held = held_of(payloads)\n", "bytes"),
    "goes on after a sync that failed": ("        os.fdatasync(self.file)\n\n", "        with contextlib.suppress(OSError):\n            os.fdatasync(self.file)\n            return\n        os.ftruncate(self.file, place)\n\n", "faults"),
}
HELPERS = '''
def payloads_in(data):
    try:
        return rules.payloads_in(data)
    except rules.Damaged as fault:
        return rules.payloads_in(data[:fault.place])


def held_of(payloads):
    try:
        return rules.fold(payloads)
    except rules.Damaged:
        return rules.Collection()

'''


class Trials(unittest.TestCase):
    def setUp(self):
        self.room = tempfile.mkdtemp(prefix="journal-test-")
        self.addCleanup(shutil.rmtree, self.room)

    def program(self, old="", new=""):
        """The stand-in, with a text of it replaced."""
        with open(os.path.join(HERE, "journal_program.py"), encoding="utf-8") as file:
            text = file.read()
        self.assertIn(old, text)
        text = text.replace("os.path.dirname(os.path.dirname(os.path.realpath(__file__)))", repr(os.path.join(TOP, "deploy")))
        text = text.replace(old, new) if old else text
        with open(os.path.join(self.room, "program.py"), "w", encoding="utf-8") as file:
            file.write(text.replace("\ndef die_with_parent", HELPERS + "\ndef die_with_parent"))
        path = os.path.join(self.room, "anki")
        with open(path, "w") as file:
            file.write('#!/bin/sh\nexec "%s" -E -s "%s/program.py" "$@"\n' % (sys.executable, self.room))
        os.chmod(path, 0o755)
        return path

    def tried(self, program, trial, step=331):
        """Whether a trial passes over a program, and what it prints."""
        words = argparse.Namespace(anki=program, ankid=os.path.join(TOP, "dist", "ankid"), kills=4, step=step, first=0, seconds=20)
        tools, printed = try_journal.Tools(words), io.StringIO()
        room = tempfile.mkdtemp(dir=self.room)
        try:
            # A disk of its own takes root, and a while.
            with contextlib.redirect_stdout(printed), mock.patch.object(try_journal, "on_full_disk"):
                try_journal.TRIALS[trial](tools, room)
            return True, printed.getvalue()
        except (try_journal.Wrong, rules.Damaged) as fault:
            return False, str(fault)
        finally:
            tools.end_all()

    def test_a_program_by_the_rules_passes(self):
        program = self.program()
        for trial in ("full", "second", "cuts", "bytes"):
            passes, printed = self.tried(program, trial, 997)
            self.assertTrue(passes, "%s: %s" % (trial, printed))

    def test_a_program_that_breaks_a_rule_fails_its_trial(self):
        for name, (old, new, trial) in WRONG.items():
            if trial == "faults" and not shutil.which("strace"):
                continue
            passes, printed = self.tried(self.program(old, new), trial, {"full": 97, "faults": 11}.get(trial, 997))
            self.assertFalse(passes, "%s: %s" % (name, printed))

    def test_kills_that_came_too_early_or_too_late_show_nothing(self):
        try_journal.expect_within({"kills": 6, "within a run": 2}, "desks")
        with self.assertRaises(try_journal.Wrong):
            try_journal.expect_within({"kills": 7, "within a run": 2}, "desks")

    def test_a_run_has_its_file_open_until_it_ends(self):
        words = argparse.Namespace(anki="/bin/sh", ankid="/bin/sh")
        device = try_journal.Kept(try_journal.Tools(words), os.path.join(self.room, "it.log"))
        device.put(b"")
        with open(device.file) as file, subprocess.Popen(["cat"], stdin=subprocess.PIPE, stdout=subprocess.DEVNULL, pass_fds=[file.fileno()]) as ran:
            self.assertTrue(device.is_open_in(ran))
            ran.kill()
            ran.wait()
            self.assertFalse(device.is_open_in(ran))

    def test_where_two_lists_of_payloads_first_differ(self):
        self.assertEqual("b was c", try_journal.another([b"a", b"c"], [b"a", b"b"]))

    def test_other_values_of_a_byte(self):
        self.assertEqual([[0, 1, 49, 176, 255], [0, 129, 255]], [try_journal.others_of(byte) for byte in (48, 1)])

    def test_what_a_line_was_answered_is_looked_for_in_its_commit(self):
        def payload(*put):
            return rules.payload_of(change(put=list(put)))

        card, review = [1, [5, 6, 1, 0, 0, -1, 0, 0, 1, 0, 0, 0, 0, 0, 0, 0, 0, ""]], [2, REVIEW]
        self.assertTrue(try_journal.is_told("answer 5 3 100", "answered ..", payload(card, review)))
        self.assertFalse(try_journal.is_told("answer 5 3 100", "answered ..", payload(card)))
        self.assertFalse(try_journal.is_told("answer 4 3 100", "answered ..", payload(card, review)))
        self.assertTrue(try_journal.is_told("flag 1 5", "ok", payload(card)))
        self.assertFalse(try_journal.is_told('note 1 1 ["a"]', "note 9 cards 5", payload(card)))


if __name__ == "__main__":
    unittest.main()
