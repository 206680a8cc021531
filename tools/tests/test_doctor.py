"""The doctor names what the program refuses, and nothing else: each range of docs/profile/ at both of its ends, each form, each cause from outside."""
import contextlib
import copy
import json
import os
import shutil
import sqlite3
import subprocess
import tempfile
import time
import unittest

from tools import doctor, files, forms
from tools.pages import codes_in, table_under, tables_of
from tools.ranges import Between, Bytes, Ranges, Steps, Taken, ZeroOr
from tools.tests.support import Case, as_another_user, note, own

# The program that is built for tests takes a second to open a file, and the proved one 0.03: over a slow one only some files are tried.
SLOW = 0.4
SOME = 16

FILE_NAMES = {"stamp": "mod", "extra": "data", "kind": "type", "last_ivl": "lastIvl"}
HEAD_NAMES = {"moment": "mod", "schema": "scm", "last_sync": "ls"}
TABLES = (("notes", "note"), ("cards", "card"), ("revlog", "review"), ("graves", "grave"))

# The group 1 of an opening collection as version 1 has it.
OLD_GROUP = {
    "id": 1, "lapse": {"delays": [10], "leechAction": 0, "leechFails": 8, "minInt": 1, "multPm": 0}, "maxTaken": 60, "mod": 0, "name": "Default",
    "new": {"bury": False, "delays": [1, 10], "initialFactor": 2500, "ints": [1, 4], "perDay": 20},
    "rev": {"bury": False, "ease4Pm": 1300, "hardFactorPm": 1200, "ivlFctPm": 1000, "maxIvl": 36500, "perDay": 200}, "usn": 0,
}


def ends_of(column):
    """Values at the ends of a range, and the next ones past them."""
    if isinstance(column, Between):
        return [column.least, column.most], [column.least - 1, column.most + 1]
    if isinstance(column, ZeroOr):
        return [0, column.other.least, column.other.most], [-1, column.other.most + 1]
    if isinstance(column, Bytes):
        within = ["x" * column.least, "x" * column.most, "é" * (column.most // 2)]
        return within, ["x" * (column.most + 1), "é" * (column.most // 2) + "xx"] + ([""] if column.least else [])
    if isinstance(column, Steps):
        good, bad = ends_of(column.each)
        return [[], good * (column.most // 2)], [good * (column.most // 2) + good[:1]] + [[it] for it in bad]
    if isinstance(column, Taken):
        days, bad_days = ends_of(column.day)
        counts, bad_counts = ends_of(column.count)
        return [[days[0], counts[0]], [days[1], counts[1]]], [[it, 0] for it in bad_days] + [[0, it] for it in bad_counts]
    return [], []


class Ends(Case):
    """Each value at an end of its range opens; each past it is refused, and named."""

    def setUp(self):
        super().setUp()
        desk = self.open_made()
        self.base = self.path("base")
        shutil.copyfile(self.file, self.base)
        del desk
        self.ranges = Ranges()
        begun = time.monotonic()
        self.assertEqual(0, self.desk().returncode)
        self.is_slow = time.monotonic() - begun > SLOW
        self.tried = 0

    def open_made(self):
        """A collection with a row in each table."""
        self.make(note("a"), note("b"), "next 1")
        ids = [int(it) for it in self.rows("select id from notes order by id")]
        cards = [int(it) for it in self.rows("select id from cards order by id")]
        self.assertEqual(0, self.desk("answer %d 3 1000" % cards[0], "delete %d" % ids[1]).returncode)
        # Each grave gets an id of its own: the two have one, and can't have one kind too.
        self.sql("update col set tags = '{\"one\":-1}'", "update graves set oid = oid + 7 where type = 1")
        return ids

    def rows(self, text):
        with contextlib.closing(sqlite3.connect(self.file)) as connection:
            return [row[0] for row in connection.execute(text)]

    def changed(self, text, *values):
        """The collection with a change of one statement, at rest."""
        for end in ("", "-wal"):
            with contextlib.suppress(OSError):
                os.remove(self.file + end)
        shutil.copyfile(self.base, self.file)
        with contextlib.closing(sqlite3.connect(self.file)) as connection:
            connection.execute("pragma synchronous = off")
            connection.execute(text, values)
            connection.commit()

    def col(self, column):
        return json.loads(self.base_col(column))

    def base_col(self, column):
        with contextlib.closing(sqlite3.connect(self.base)) as connection:
            return connection.execute("select %s from col" % column).fetchone()[0]

    def judge(self, is_good, what):
        """Whether doctor and program judge the file so. Over a slow program only some are tried."""
        found = list(doctor.of_contents(self.file))
        self.assertEqual(is_good, not found, (what, found))
        self.tried += 1
        if not self.is_slow or self.tried % SOME == 0:
            self.assertIn(self.desk().returncode, (0, 3) if is_good else (6,), what)
        return found

    def test_columns_within(self):
        """All columns of a row at one end of their ranges, and at the other."""
        for table, name in TABLES:
            columns = [(FILE_NAMES.get(column, column), ends_of(kept)[0]) for column, kept in getattr(self.ranges, name).items()]
            for number in range(max(len(within) for _, within in columns)):
                values = [within[number % len(within)] for _, within in columns]
                sets = ", ".join('"%s" = ?' % cell for cell, _ in columns)
                self.changed("update %s set %s where %s" % (table, sets, first_of(table)), *values)
                self.judge(True, (table, number))

    def test_columns_past(self):
        """Each column past each end of its range."""
        for table, name in TABLES:
            for column, kept in getattr(self.ranges, name).items():
                cell = FILE_NAMES.get(column, column)
                for value in ends_of(kept)[1]:
                    self.changed('update %s set "%s" = ? where %s' % (table, cell, first_of(table)), value)
                    found = self.judge(False, (table, cell, short_of(value)))
                    self.assertIn("in the table %s, row " % table, found[0].what)
                    self.assertIn("the column %s " % cell, found[0].what)

    def test_kinds_of_cells(self):
        """Each column with a value of another kind, and one column of each kind with all of them."""
        tried = set()
        for table, name in TABLES:
            for column, kept in list(getattr(self.ranges, name).items())[1:]:
                cell, is_text = FILE_NAMES.get(column, column), isinstance(kept, Bytes)
                # SQLite makes texts of numbers in a column of texts.
                values = ["cast(x'61ff' as text)", "x'61'"] if is_text else ["1.5", "'x'", "x'61'", "x'ff'"]
                for value in values if is_text not in tried else values[:1]:
                    self.changed('update %s set "%s" = %s where %s' % (table, cell, value, first_of(table)))
                    self.judge(False, (table, cell, value))
                tried.add(is_text)

    def test_head(self):
        for column, kept in self.ranges.head.items():
            cell = HEAD_NAMES.get(column, column)
            if cell in ("conf", "tags"):
                continue
            within, past = ends_of(kept)
            for values, is_good in ((within, True), (past, False)):
                for value in values:
                    self.changed("update col set %s = ?" % cell, value)
                    found = self.judge(is_good, (cell, value))
                    self.assertEqual(is_good, not any("the column %s " % cell in it.what for it in found))
        for cell, good, bad in (("ver", 11, 12), ("ver", 11, 10), ("dty", 0, 1), ("id", 1, 2)):
            self.changed("update col set %s = ?" % cell, good)
            self.judge(True, (cell, good))
            self.changed("update col set %s = ?" % cell, bad)
            self.assertIn("the column %s " % cell, self.judge(False, (cell, bad))[0].what)
        self.changed("insert into col select 2, crt, mod, scm, ver, dty, usn, ls, conf, models, decks, dconf, tags from col")
        self.assertIn("2 rows", self.judge(False, "two heads")[0].what)
        self.changed("delete from col")
        self.judge(True, "no head")

    def objects(self, cell, is_good, change, what):
        """Changes the object of a column, in place."""
        value = self.col(cell)
        change(value)
        self.changed("update col set %s = ?" % cell, json.dumps(value, ensure_ascii=False))
        found = self.judge(is_good, (cell, what))
        if not is_good:
            self.assertIn("in the table col the column %s has " % cell, found[0].what)

    def test_settings_and_tags(self):
        for key, _, name in forms.CONF:
            for values, is_good in zip(ends_of(self.ranges.conf[name]), (True, False)):
                for value in values:
                    self.objects("conf", is_good, lambda conf: conf.update({key: value}), (key, value))
        for name, usn, is_good in (("x", -1, True), ("x", 2147483647, True), ("x", -2, False), ("x", 2147483648, False), ("", 0, False), ("x" * 512, 0, True), ("x" * 513, 0, False), ("x", 1.0, False), ("x", "1", False)):
            self.objects("tags", is_good, lambda tags: tags.update({name: usn}), (name, usn))

    def columns_of_objects(self, cell, form, ranges, inner, begin=lambda rows: None):
        """Each column of an object of a form, or of an object in it, at each end of its range and past it. `begin` comes before each change."""
        for key, kind, name in form:
            if key == "id" or kind in (forms.OBJECT, forms.IGNORED):
                continue
            names = name if isinstance(name, tuple) else (name,)
            for place, name in enumerate(names):
                for values, is_good in zip(ends_of(in_minutes(ranges[name]) if kind == forms.MINUTES else ranges[name]), (True, False)):
                    for value in values:
                        written = decimal_text(value) if kind == forms.DECIMAL else value

                        def change(rows):
                            begin(rows)
                            put(rows["1"], inner, key, place if len(names) > 1 else None, written)

                        self.objects(cell, is_good, change, (key, name, short_of(value)))

    def test_decks_and_options(self):
        self.columns_of_objects("decks", forms.DECK, self.ranges.deck, None)
        self.columns_of_objects("dconf", forms.OPTIONS, self.ranges.options, None)
        for inner, form in (("new", forms.NEW), ("rev", forms.REV), ("lapse", forms.LAPSE)):
            self.columns_of_objects("dconf", form, self.ranges.options, inner)

    def test_options_of_version_1(self):
        begin = lambda rows: rows.update({"1": copy.deepcopy(OLD_GROUP)})
        self.columns_of_objects("dconf", forms.OLD_OPTIONS, self.ranges.options, None, begin)
        for inner, _, form in forms.OLD_OPTIONS[5:]:
            self.columns_of_objects("dconf", form, self.ranges.options, inner, begin)

    def test_note_types(self):
        for key, _, name in forms.NOTE_TYPE[1:4]:
            for values, is_good in zip(ends_of(self.ranges.note_type[name]), (True, False)):
                for value in values:
                    self.objects("models", is_good, lambda rows: rows["1"].update({key: value}), (key, short_of(value)))
        for sortf, is_good in ((0, True), (1, True), (2, False), (-1, False)):
            self.objects("models", is_good, lambda rows: rows["1"].update({"sortf": sortf}), ("sortf", sortf))
        for key, form, part, count in (("flds", forms.FIELD, self.ranges.field, self.ranges.fields), ("tmpls", forms.TEMPLATE, self.ranges.template, self.ranges.templates)):
            for number, is_good in ((count.least, True), (count.most, True), (count.least - 1, False), (count.most + 1, False)):
                self.objects("models", is_good, lambda rows: rows["1"].update({key: [rows["1"][key][0]] * number, "sortf": 0}), (key, number))
            for inner, kind, name in form:
                for values, is_good in zip(ends_of(part[name]) if name else ([], []), (True, False)):
                    for value in values:
                        self.objects("models", is_good, lambda rows: rows["1"][key][0].update({inner: value}), (inner, short_of(value)))

    def test_rests(self):
        for cell, most, change in (("models", self.ranges.note_type["rest"].most, lambda rows, it: rows["1"].update(it)), ("models", self.ranges.field["rest"].most, lambda rows, it: rows["1"]["flds"][0].update(it)),
                                   ("models", self.ranges.template["rest"].most, lambda rows, it: rows["1"]["tmpls"][0].update(it)), ("decks", self.ranges.deck["rest"].most, lambda rows, it: rows["1"].update(it)),
                                   ("dconf", self.ranges.options["rest"].most, lambda rows, it: rows["1"].update(it)), ("conf", self.ranges.conf["rest"].most, lambda conf, it: conf.update(it))):
            # {"k":"..."} has 8 bytes beside the text.
            for length, is_good in ((most - 8, True), (most - 7, False)):
                self.objects(cell, is_good, lambda rows: change(rows, {"k": "x" * length}), ("rest", length))

    def test_forms(self):
        nested = lambda depth: json.loads("[" * depth + "]" * depth)
        good = [
            ("decks", lambda rows: rows["1"].update(unknown={"a": [1, None, True, "x"]})),
            ("decks", lambda rows: rows["1"].update(k=nested(63))),
            ("decks", lambda rows: rows["1"].update(k=18446744073709551615)),
            ("dconf", lambda rows: rows["1"]["lapse"].update(k=nested(62))),
            ("dconf", lambda rows: rows["1"]["lapse"].update(delays=nested(62))),
            ("dconf", lambda rows: rows["1"]["rev"].update(ease4="1.300", hardFactor="2", ivlFct="0.85", ease4Pm="any")),
            ("dconf", lambda rows: rows.update({"1": dict(OLD_GROUP, new=dict(OLD_GROUP["new"], steps=nested(99)))})),
            ("dconf", lambda rows: rows.update({"1": dict(OLD_GROUP, lapse=dict(OLD_GROUP["lapse"], steps="any", mult=2))})),
            ("dconf", lambda rows: rows.update({"1": dict(OLD_GROUP, rev=dict(OLD_GROUP["rev"], ease4="any", steps=nested(62)))})),
            ("models", lambda rows: rows["1"]["flds"][0].update(ord="any")),
            ("models", lambda rows: rows["1"]["flds"][0].pop("ord")),
        ]
        bad = [
            ("decks", lambda rows: rows["1"].update(k=nested(64))),
            ("decks", lambda rows: rows["1"].update(k=1.5)),
            ("decks", lambda rows: rows["1"].update(k=18446744073709551616)),
            ("dconf", lambda rows: rows["1"]["lapse"].update(k=nested(63))),
            ("dconf", lambda rows: rows["1"]["new"].pop("bury")),
            ("dconf", lambda rows: rows["1"].update(rev=[])),
            ("dconf", lambda rows: rows["1"]["new"].update(steps=[60, 2.0])),
            ("dconf", lambda rows: rows["1"]["new"].update(ints=[1])),
            ("dconf", lambda rows: rows["1"]["new"].update(delays=[1])),
            ("dconf", lambda rows: rows["1"]["lapse"].update(delays=[1.5])),
            ("dconf", lambda rows: rows.update({"1": dict(OLD_GROUP, new=rows["1"]["new"])})),
            ("dconf", lambda rows: rows.update({"1": dict(OLD_GROUP, new=dict(OLD_GROUP["new"], delays=None))})),
            ("dconf", lambda rows: rows.update({"1": dict(OLD_GROUP, new=dict(OLD_GROUP["new"], steps=1.5))})),
            ("dconf", lambda rows: rows.update({"1": dict(OLD_GROUP, rev=dict(OLD_GROUP["rev"], steps=nested(63)))})),
            *[("dconf", lambda rows, text=text: rows["1"]["rev"].update(ease4=text)) for text in (".5", "1.", "01", "-1", "1.3001", "1000000", "\u0661", "", 1, 1.3, None)],
            ("models", lambda rows: rows["1"]["flds"][0].update(ord=1.5)),
            ("models", lambda rows: rows["1"]["flds"].append("x")),
            ("models", lambda rows: rows["1"].update(type=True)),
            ("models", lambda rows: rows["1"].pop("tmpls")),
            ("decks", lambda rows: rows["1"].update(dyn=2)),
            ("decks", lambda rows: rows["1"].update(name=5)),
            ("decks", lambda rows: rows.update({"2": rows["1"]})),
            ("decks", lambda rows: rows.update({"01": dict(rows["1"])})),
            ("conf", lambda conf: conf.pop("nextPos")),
            ("conf", lambda conf: conf.update(dayLearnFirst=1)),
        ]
        for changes, is_good in ((good, True), (bad, False)):
            for number, (cell, change) in enumerate(changes):
                self.objects(cell, is_good, change, number)

    def test_texts_of_json(self):
        conf = self.base_col("conf")
        for text, is_good in ((conf, True), (conf[:-1], False), ("[]", False), ("", False), (conf + "x", False), (conf.replace(":0", ":NaN", 1), False),
                              (conf.replace(":0", ":1E400", 1), False), (conf.replace(":0", ":00", 1), False), ('{"k":"\\ud83d",' + conf[1:], False), ('{"k":"\\u001f",' + conf[1:], True), ('{"nextPos":"x",' + conf[1:], True), (" " + conf + "\n", True), ('{"k":-0,' + conf[1:], None)):
            self.changed("update col set conf = ?", text)
            if is_good is None:
                # `-0` is a number that is not whole to the program.
                is_good = False
            self.judge(is_good, text[:40])
        self.changed("update col set conf = cast(? as text)", conf.encode()[:-1] + b',"k":"\xff"}')
        self.judge(False, "no UTF-8")
        self.changed("update col set conf = ?", conf.encode())
        self.judge(False, "no text")

    def test_tables(self):
        wanted = doctor.wanted_layout()
        for text, is_good in (("create index ix on notes (mid)", True), ("create unique index ix on notes (guid)", False), ("create view v as select 1", False),
                              ("create table other (x)", False), ("create trigger t after delete on notes begin select 1; end", False), ("drop table graves", False),
                              ("analyze", True)):
            self.changed(text)
            self.judge(is_good, text)
        self.changed("drop table notes")
        self.sql(wanted["notes"].replace("sfld text", "sfld integer"))
        self.assertIn("another make", self.judge(False, "sfld integer")[0].what)


def first_of(table):
    return "rowid = (select min(rowid) from %s)" % table


def put(row, inner, key, place, value):
    """Puts a value under a key of an object, or of an object in it, or at a place of a list there."""
    target = row[inner] if inner else row
    if place is None:
        target[key] = value
    else:
        target[key] = copy.copy(target[key])
        target[key][place] = value


def decimal_text(permille):
    """A number of thousandths as a decimal text. One below 0 has no such text."""
    return "%s%d.%03d" % ("-" if permille < 0 else "", *divmod(abs(permille), 1000))


def in_minutes(steps):
    """The range of a column of steps, which is in seconds, as version 1 has it."""
    return Steps(steps.most, Between(1, steps.each.most // 60))


def short_of(value):
    return value if isinstance(value, int) else len(value)


class Pages(unittest.TestCase):
    """The forms here are those of docs/profile/formats.md: each key with its columns."""

    def test_keys(self):
        for heading, form in (("note type", forms.NOTE_TYPE), ("deck", forms.DECK), ("option group", forms.OPTIONS), ("settings", forms.CONF)):
            table = next(it for it in tables_of("profile/formats.md") if it.head[0] == heading)
            self.assertEqual([key for key, _, _ in form], [key for row in table.rows for key in codes_in(row[0])])
        for key, form in (("new", forms.NEW), ("rev", forms.REV), ("lapse", forms.LAPSE)):
            table = next(it for it in tables_of("profile/formats.md") if it.head[0] == "option group")
            words = next(row[1] for row in table.rows if codes_in(row[0]) == [key])
            self.assertTrue({inner for inner, _, _ in form} <= set(codes_in(words)), words)

    def test_columns(self):
        ranges = Ranges()
        for form, columns in ((forms.NOTE_TYPE, ranges.note_type), (forms.DECK, ranges.deck), (forms.CONF, ranges.conf)):
            self.assertEqual([it for it in columns if it != "rest"], [name for _, _, name in form])
        flat = [name for _, kind, names in forms.OPTIONS for name in ([inner for _, _, it in names for inner in (it if isinstance(it, tuple) else (it,))] if kind == forms.OBJECT else [names])]
        self.assertEqual([it for it in ranges.options if it != "rest"], flat)
        self.assertEqual({"name", "rest"}, set(ranges.field))
        self.assertEqual({"name", "front", "back", "rest"}, set(ranges.template))


class Outside(Case):
    """Causes that are not in the file."""

    def says(self, path, *words):
        found = doctor.findings_of(path)
        self.assertTrue(found, path)
        for word in words:
            self.assertIn(word, found[0].what)
        self.assertEqual(6, subprocess.run([self.program, path, "-", "desk"], stdin=subprocess.DEVNULL, stdout=subprocess.PIPE).returncode)

    def test_names(self):
        self.make(note("a"))
        self.assertEqual([], doctor.findings_of(self.file))
        self.says(self.folder, "is a folder")
        self.says(self.path("none/x"), "no folder")
        self.says(self.path("x" * 253), "too long")
        self.says("", "no name")
        self.says(":memory:", "no name")
        os.symlink(self.path("nothing"), self.path("link"))
        self.says(self.path("link"), "a link to nothing")
        os.mkfifo(self.path("pipe"))
        self.says(self.path("pipe"), "no regular file")
        os.link(self.file, self.path("second"))
        self.says(self.file, "2 names")
        os.remove(self.path("second"))
        os.symlink(self.file, self.path("good"))
        self.assertEqual([], doctor.findings_of(self.path("good")))
        self.write("my.anki-journal", b"\xd9\xd5\x05\xf9")
        self.says(self.file, "my.anki-journal is left")
        os.remove(self.path("my.anki-journal"))
        os.rename(self.file + "-wal", self.path("away"))
        os.symlink(self.path("away"), self.file + "-wal")
        self.says(self.file, "no file with one name")
        self.assertEqual("there is no file %s" % self.path("mine"), doctor.findings_of(self.path("mine"))[0].what)

    def test_held(self):
        self.make(note("a"))
        desk = self.open_desk()
        self.ask(desk, "check")
        self.says(self.file, "is open in another program (", ", process %d)" % desk.pid)
        with contextlib.closing(sqlite3.connect(self.path("by-stock"))) as connection:
            connection.execute("create table x (y)")
            connection.execute("begin exclusive")
            self.assertTrue(doctor.findings_of(self.path("by-stock")))

    def test_nothing_is_changed(self):
        self.make(note("a"))
        self.killed(note("b"))
        before = [(name, os.stat(self.path(name)).st_mtime_ns, os.path.getsize(self.path(name))) for name in self.names()]
        ran = self.word("doctor", self.file)
        self.assertEqual(0, ran.returncode, ran.stderr)
        self.assertEqual(before, [(name, os.stat(self.path(name)).st_mtime_ns, os.path.getsize(self.path(name))) for name in self.names()])

    def test_permissions_of_another_user(self):
        self.make(note("a"))
        apart = tempfile.mkdtemp()
        self.addCleanup(shutil.rmtree, apart)
        program = os.path.join(apart, "program")
        shutil.copyfile(self.program, program)
        os.chmod(program, 0o755)
        os.chmod(apart, 0o755)
        os.chmod(self.folder, 0o755)
        for name in ("my.anki", "my.anki-wal"):
            own(self.path(name))

        def found():
            os.environ["ANKI_PROGRAM"] = program
            said = doctor.findings_of(self.file)
            ran = subprocess.run([program, self.file, "-", "desk"], stdin=subprocess.DEVNULL)
            return "%d %s" % (ran.returncode, " / ".join(it.what for it in said))

        self.assertEqual("0 ", as_another_user(found))
        for name, access, words in (("my.anki", 0o444, "my.anki may not be written by"), ("my.anki", 0o200, "my.anki may not be read by"), ("my.anki-wal", 0o400, "my.anki-wal may not be read or written")):
            os.chmod(self.path(name), access)
            self.assertRegex(as_another_user(found), "^6 .*" + words)
            os.chmod(self.path(name), 0o600)
        # No log may be made in a folder of root.
        os.remove(self.file + "-wal")
        if os.geteuid() == 0:
            self.assertRegex(as_another_user(found), "^6 the user .* may not make the file .*my.anki-wal")
            os.chmod(self.folder, 0o600)
            self.assertRegex(as_another_user(found), "^6 the folder .* may not be entered by the user ")
            os.chmod(self.folder, 0o700)

    def test_kinds_of_files_that_are_not_read(self):
        self.make(note("a"))
        for name, first, words in (("vacuum", "pragma auto_vacuum = 1", "auto_vacuum"), ("utf16", "pragma encoding = 'UTF-16'", "encoding")):
            with contextlib.closing(sqlite3.connect(self.path(name))) as made, contextlib.closing(sqlite3.connect(self.file)) as old:
                made.execute(first)
                made.executescript("\n".join(old.iterdump()))
            self.says(self.path(name), words)

    def test_damage(self):
        self.make(*[note("n%d" % number) for number in range(40)])
        with open(self.file, "r+b") as file:
            file.seek(8192)
            file.write(b"\xff" * 4096)
        found = doctor.findings_of(self.file)
        self.assertTrue(found)
        self.assertRegex(found[0].what, "damaged|can't be read")


class Large(Case):
    """Values over their ranges are refused within seconds."""

    def test_a_column_of_65537_bytes(self):
        self.make(note("a"))
        for size, status in ((65536, 0), (65537, 6)):
            self.sql("update notes set flds = '%s'" % ("x" * size))
            self.assertEqual(status, self.desk().returncode)
        self.assertIn("the column flds has 65537 bytes", doctor.findings_of(self.file)[0].what)

    @unittest.skipUnless(os.environ.get("ANKI_TEST_LARGE"), "a value of 200 MB takes a while: ANKI_TEST_LARGE=1 tries it")
    def test_a_value_of_200_megabytes(self):
        self.make(note("a"))
        with contextlib.closing(sqlite3.connect(self.file)) as connection:
            connection.execute("update notes set flds = cast(zeroblob(200000000) as text)")
            connection.commit()
        begun = time.monotonic()
        self.assertEqual(6, self.desk().returncode)
        print("refused after %.1f seconds" % (time.monotonic() - begun))
        self.assertIn("the column flds has 200000000 bytes", doctor.findings_of(self.file)[0].what)


if __name__ == "__main__":
    unittest.main()
