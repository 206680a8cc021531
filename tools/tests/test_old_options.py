"""A file that the program wrote while option groups were of version 1, made by stock SQLite: its groups are read and used as they are, and all are of version 2 once one of them is set."""
import contextlib
import json
import os
import sqlite3

from tools.tests.support import TOP, Case

# The cases of whole files begin with the same file: there it is opened within the program.
CASES = os.path.join(TOP, "crates", "cases_runs", "stdin")

DECK, CARD, NEW_CARD, GROUP = 1795933018192, 1795933018246, 1795933018338, 1795933017989

# The groups of the file in version 2. What stood in the old group under names of version 2 is gone where version 2 has them, and is kept elsewhere.
DEFAULT = {
    "id": 1, "lapse": {"leechAction": 0, "leechFails": 8, "minInt": 1, "mult": "0", "steps": [600]}, "maxTaken": 60, "name": "Default",
    "new": {"bury": False, "initialFactor": 2500, "ints": [1, 4], "perDay": 20, "steps": [60, 600]},
    "rev": {"bury": False, "ease4": "1.3", "hardFactor": "1.2", "ivlFct": "1", "maxIvl": 36500, "perDay": 200}, "usn": -1,
}
HARD = {
    "ease4": "one", "id": GROUP, "lapse": {"kept": "yes", "leechAction": 1, "leechFails": 6, "minInt": 2, "mult": "0.25", "steps": [600, 1500]}, "maxTaken": 45,
    "mod": 1795933017, "name": "Hard", "new": {"bury": True, "initialFactor": 2300, "ints": [2, 5], "perDay": 30, "steps": [60, 600, 86400]},
    "rev": {"bury": True, "ease4": "1.35", "hardFactor": "1.15", "ivlFct": "0.975", "maxIvl": 3650, "perDay": 150}, "usn": -1,
}


def dump():
    """The statements that make the file."""
    with open(CASES, encoding="utf-8", newline="\n") as lines:
        return next(line[len("sql "):] for line in lines if line.startswith("sql BEGIN TRANSACTION;"))


class OldFile(Case):
    def setUp(self):
        super().setUp()
        self.make(name="new.anki")
        if '"delays"' in self.groups("new.anki"):
            self.skipTest("the program is of before version 2 of option groups")
        with contextlib.closing(sqlite3.connect(self.file)) as connection:
            connection.executescript(dump())

    def one(self, text, name="my.anki"):
        with contextlib.closing(sqlite3.connect(self.path(name))) as connection:
            return connection.execute(text).fetchone()

    def groups(self, name="my.anki"):
        return self.one("select dconf from col", name)[0]

    def does(self, *lines):
        ran = self.desk(*lines)
        self.assertEqual(0, ran.returncode, ran.stdout)
        return ran.stdout.decode().splitlines()

    def test_the_groups_are_used_and_stay(self):
        before = self.groups()
        self.assertEqual({"1", str(GROUP)}, set(json.loads(before)))
        self.assertEqual([[1, 10], [1, 10, 1440]], [json.loads(before)[key]["new"]["delays"] for key in ("1", str(GROUP))])
        self.assertEqual(["sound", "card %d" % CARD], self.does("check", "next %d" % DECK))
        # The last step of this deck's group, 1440 minutes, always ends on the next day.
        self.assertRegex(self.does("answer %d 3 4000" % CARD)[0], r"\Aanswered queue 3 due \d+ ivl 0\Z")
        self.assertEqual((-86400, -600), self.one("select ivl, lastIvl from revlog order by id desc"))
        self.assertEqual((1001,), self.one("select left from cards where id = %d" % CARD))
        self.assertEqual(before, self.groups())

    def test_all_are_of_version_2_once_one_is_set(self):
        made = dict(DEFAULT, mod=0, new=dict(DEFAULT["new"], steps=[30, 600]))
        self.assertEqual(["options 1"], self.does("options %s" % json.dumps(made)))
        held = json.loads(self.groups())
        made["mod"] = held["1"]["mod"]
        self.assertEqual({"1": made, str(GROUP): HARD}, held)
        self.assertEqual(json.dumps(held, separators=(",", ":"), sort_keys=True), self.groups())
        self.assertEqual("sound", self.does("answer %d 1 4000" % NEW_CARD, "check")[1])
        self.assertEqual((-30, -30), self.one("select ivl, lastIvl from revlog order by id desc"))

    def test_a_line_of_version_1_sets_a_group(self):
        before = self.groups()
        old = json.loads(before)["1"]
        # What changes nothing writes nothing.
        self.assertEqual(["options 1"], self.does("options %s" % json.dumps(old)))
        self.assertEqual(before, self.groups())
        old["new"]["perDay"] = 21
        self.assertEqual(["options 1"], self.does("options %s" % json.dumps(old)))
        held = json.loads(self.groups())
        self.assertEqual({"1": dict(DEFAULT, mod=held["1"]["mod"], new=dict(DEFAULT["new"], perDay=21)), str(GROUP): HARD}, held)
