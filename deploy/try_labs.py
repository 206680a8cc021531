#!/usr/bin/env python3
"""Makes scripts of a lab by chance, has `anki` obey them, and looks whether what is printed keeps the rules of docs/profile.

    deploy/try_labs.py [--anki PATH] [--count N] [--seed S] [--first K] [--step M] [--keep FOLDER]

Each script has 20 to 100 lines of all forms that a lab has; every second one ends with a line that is to be refused. The script of a number depends on the
seed and the number alone, so that several processes can share them: of N scripts those numbered K, K + M and so on are made. A script is made line by line
while a first `anki - - lab` obeys it, with `count` and `show` between its lines; then a second one gets the whole script without these. A model, written from
the rules, says of each line what it prints and which rows, graves, settings, tags and moments it leaves; of answers and changed note types it says what each
edit must keep. Its sessions, with what is lost, repeated, crossed, served again and broken, are those of tools/tests/lab_rules.py. So it is seen that

    - each line prints what the rules say; a line of another form is a fault
    - `show`, `count` and all that only asks change nothing, and the second run prints what the first one did
    - a row of one side changes only by lines that name the side, or in a sync that one of them planned; stamps, graves and moments go as docs/profile/edits.md
      says, undone steps too
    - a sync, an upload and a download end as their rules say, with so many requests, whatever comes between them; each reply to a request that is sent again is
      that of the rules
    - where a sync is finished device and server hold one content, the join of what the device held and of what was committed just before; where it says
      `no changes` both hold the same; else the device holds what it held. One is lost only after losses at three calls in a row
    - a review that the server holds stays there until an upload is finished
    - what each side holds is sound, and `check` says so

Each change of a schema, each upload and each sync that will be refused by its check comes at a clock moment of its own, so that no two schema moments are one
by chance. A look at the server ends its session: nobody looks where one may go on that requests of the log belong to. How often each form of line, each end and each refusal came is told, and why some can't. The status is 1 if a script showed what it should not: its
number, the line and what was wrong are printed then, and --keep has a folder for the script. After ten of them no further one is begun.
"""
import argparse
import collections
import functools
import hashlib
import itertools
import json
import os
import random
import re
import subprocess
import sys
import time

HERE = os.path.dirname(os.path.realpath(__file__))
TOP = os.path.dirname(HERE)
sys.dont_write_bytecode = True
sys.path.insert(0, TOP)

from tools.tests import lab_rules  # noqa: E402

BEGIN = 1_700_000_000_000
LAST_CLOCK = 4_294_967_294_999
TABLES = ("notes", "cards", "reviews", "types", "decks", "options", "graves")
STAMP = {"notes": 3, "cards": 4}
KINDS = {"cards": 0, "notes": 1, "decks": 2}
BURIED = {kind: table for table, kind in KINDS.items()}
# What a sync sends together, in its order.
SENT = {"graves": ("notes", "cards", "decks"), "changes": ("types", "decks", "options"), "rows": ("reviews", "cards", "notes")}
COUNT_LINE = re.compile(r"notes (\d+) cards (\d+) reviews (\d+) graves (\d+) types (\d+) decks (\d+) options (\d+)$")
DESK = ("note", "fields", "tags", "delete", "deck", "rename", "drop", "move", "adopt", "options", "unoptions", "type", "retype", "untype", "spread", "answer",
        "next", "counts", "find", "page", "suspend", "unsuspend", "bury", "flag", "undo", "check", "filter", "build", "empty")
MEETINGS = ("sync", "upload", "download", "resend")
PLANS = ("lose request", "lose reply", "repeat", "cross", "replay", "break device", "break server")
FORMS = ("clock", "device", "shift", "review", *MEETINGS, *PLANS, "requests", "count", *("show " + it for it in (*TABLES, "head")), "skipped",
         *("do " + it for it in DESK))
FAULTS = ("card <n> without note", "note <n> without card", "note <n> without type", "card <n> without template")
STOPPED = ("stopped", "bad reply", "lost", "keeper failed")
REFUSED = tuple("refused " + it for it in ("409 base", "409 no session", "503 keeper", "409 step", "409 usn", "409 sequence", "403 key", "400 rows", "400 row", "400 newer", "500 memory"))
ENDS = {"sync": ("finished", "no changes", "full needed: schema", "full needed: sequence", *("sanity failed: " + it for it in FAULTS),
                 "sanity failed: counts", "clock off", *REFUSED, "own check failed", "too many chunks", *STOPPED),
        "upload": ("finished", "clock off", "own check failed", "refused", *STOPPED), "download": ("finished", "clock off", "refused", *STOPPED)}
# Ends of syncs that crossed others, and answers to requests that were sent again.
CROSSED = ("finished", "no changes", "full needed: schema", *("sanity failed: " + it for it in FAULTS), "clock off", *REFUSED[:3], "lost", "keeper failed")
RESENT = ("200 ok", "409 base", "409 no session", "409 step")
# Commits that no line told as finished, by what brought them.
LATE = {"sync": "by a replay, or by a finish to which no reply came", "resend": "by a resend"}
REFUSALS = ("long input", "long line", "not text", "bad line", "no device <name>", "device held", "too many devices", *("json fault %d" % n for n in range(1, 5)),
            *("search fault %d at <n>" % n for n in range(1, 7)), *("no such %s <n>" % it for it in ("note", "card", "type", "deck", "options")),
            "in use: deck <n>", "in use: type <n>", "fields <n>, wanted <n>", "default kept", "stamp end", "id end", *("row fault %d at <n>" % n for n in range(1, 5)),
            *("template fault %d at <n>" % n for n in range(1, 5)), "no field <name>", "no filter <name>", "not answerable: queue <n>", "schema change not allowed",
            "bad map at <n>", "nothing to undo", "not filtered: <n>", "bad plan: <n>", "no request <n>")
UNREACHED = {
    "sync full needed: sequence": "it takes 2,147,483,645 syncs", "sync sanity failed: note <n> without type": "a deleted note type changes the schema",
    "sync sanity failed: counts": "the two sides of a lab are linked",
    **{"%s own check failed" % word: "no line makes a device's collection unsound" for word in ("sync", "upload")},
    "sync too many chunks": "it takes 10,000,000 rows", "long input": "it takes an input of over a gibibyte", "id end": "no clock comes near the last id",
    "row fault 2 at <n>": "it never comes out", "row fault 3 at <n>": "it never comes out",
    "sync refused 409 step": "a sync's requests come in their order, and again only at once", "sync refused 409 usn": "a device's number is at most the server's, or their schema moments differ",
    "sync refused 409 sequence": "it takes 2,147,483,645 syncs", "sync refused 403 key": "all requests of a lab have one key", "sync refused 500 memory": "memory does not run out",
    **{"sync refused 400 " + word: "a device sends what may be held" for word in ("rows", "row", "newer")},
    **{"%s stopped" % word: "a lab's server lets each go on" for word in ENDS}, **{"%s bad reply" % word: "a lab's replies come as they were sent" for word in ENDS},
    **{"%s %s" % (word, end): "what is planned is left for the next sync" for word in ("upload", "download") for end in ("refused", "lost", "keeper failed")}}
# What a program without the line `break` can't show.
BREAKS = ("break device", "break server", "sync refused 503 keeper", "sync keeper failed")


class Wrong(Exception):
    """What a script showed and should not have."""


def expect(what, got, *wanted):
    if got not in wanted:
        raise Wrong("%s: %.2000r, and not %s" % (what, got, " or ".join("%.2000r" % (it,) for it in wanted)))


@functools.lru_cache(maxsize=200_000)
def row_of(text):
    """A printed row. It is shared, and never changed."""
    return json.loads(text)


def stamp_of(table, row):
    return row[STAMP[table]] if table in STAMP else None if table in ("reviews", "graves") else row["mod"]


def with_stamp(table, row, stamp):
    if table in STAMP:
        return row[:STAMP[table]] + [stamp] + row[STAMP[table] + 1:]
    return row if table in ("reviews", "graves") else {**row, "mod": stamp}


def without_stamp(table, row):
    return with_stamp(table, row, 0)


def name_of(table, row):
    return ("graves", row[2], row[1]) if table == "graves" else (table, row["id"] if isinstance(row, dict) else row[0])


def grave_of(name):
    return ("graves", KINDS[name[0]], name[1]) if name[0] in KINDS else None


def changed(row, **columns):
    """A card or a note with other columns, by place: `at7=..`; an object with other keys."""
    if isinstance(row, dict):
        return {**row, **columns}
    row = list(row)
    for key, value in columns.items():
        row[int(key[2:])] = value
    return row


def note_fields(note):
    return note[6].split("\x1f")


def parts(deck):
    return deck["name"].split("::")


def is_under(deck, top):
    return parts(deck)[:len(parts(top))] == parts(top)


# Of a card in a collection: the searches of filtered decks, with what they mean, and where it stands in their orders.
SEARCHES = {"": lambda content, row: True, "is:new": lambda content, row: row[6] == 0, "-is:new": lambda content, row: row[6] != 0, "flag:3": lambda content, row: row[16] % 8 == 3,
            "prop:ivl>=1": lambda content, row: row[9] >= 1, "deck:french": lambda content, row: parts(deck_of(content, row))[0] == "French"}
PLACES = {2: lambda row: (row[9],), 3: lambda row: (-row[9],), 4: lambda row: (-row[12],), 5: lambda row: (row[1], row[3]), 6: lambda row: (row[8],), 7: lambda row: (-row[1], row[3])}


def deck_of(content, card):
    """The deck of a card, deck 1 if that is not held."""
    return content.row("decks", card[2]) or content.row("decks", 1)


def home_of(content, card):
    """A card at home, by docs/profile/filtered.md."""
    return changed(card, at2=card[15] if content.row("decks", card[15]) else 1, at8=card[14], at14=0, at15=0) if card[15] > 0 else card


def permille(text):
    whole, _, part = text.partition(".")
    return 1000 * int(whole) + int(part.ljust(3, "0"))


def early_interval(group, button, card, day):
    """The interval of an early answer, by the options of the card at home."""
    passed, rev = max(0, card[9] - (card[14] - day)), group["rev"]
    grown = max(passed * card[10], 1000, card[9] * 1000) * permille(rev["ivlFct"])
    if button == 2:
        factor = permille(rev["hardFactor"])
        days = max(passed * factor, 1000, card[9] * factor // 2) * permille(rev["ivlFct"]) // 10**6
    else:
        days = grown // 10**6 if button == 3 else grown * ((permille(rev["ease4"]) + 1000) // 2) // 10**9
    return min(rev["maxIvl"], max(1, days))


@functools.lru_cache(maxsize=None)
def has_filtered(anki):
    """Whether the program has lines about filtered decks."""
    ran = subprocess.run([anki, "-", "-", "lab"], input=b"device A\ndo A filter []\n", stdout=subprocess.PIPE, stderr=subprocess.DEVNULL)
    return b"json fault 2" in ran.stdout


@functools.lru_cache(maxsize=None)
def has_breaks(anki):
    """Whether the program has the line that makes a keeper fail."""
    ran = subprocess.run([anki, "-", "-", "lab"], input=b"break server\n", stdout=subprocess.PIPE, stderr=subprocess.DEVNULL)
    return ran.returncode == 0


class Content:
    """What a side holds: rows by name, settings, the second of its day's count, tags."""

    def __init__(self, rows, conf, crt, tags):
        self.rows, self.conf, self.crt, self.tags = rows, conf, crt, tags

    def table(self, table):
        return {name[-1]: row for name, row in self.rows.items() if name[0] == table}

    def row(self, table, number):
        return self.rows.get((table, number))

    def cards_of(self, note):
        return {number: row for number, row in self.table("cards").items() if row[1] == note}

    def is_taken(self, table, number):
        return (table, number) in self.rows or grave_of((table, number)) in self.rows

    def day(self, now):
        return (now // 1000 - self.crt) // 86_400

    def fault(self):
        """The first fault of the basic check, as it is printed."""
        notes, types, with_cards = self.table("notes"), self.table("types"), set()
        cards = sorted(self.table("cards").items())
        for number, row in cards:
            if row[1] not in notes:
                return "card %d without note" % number
            with_cards.add(row[1])
        for number in sorted(notes):
            if number not in with_cards:
                return "note %d without card" % number
        for number, row in sorted(notes.items()):
            if row[2] not in types:
                return "note %d without type" % number
        for number, row in cards:
            held = types[notes[row[1]][2]]
            if held["type"] == 0 and row[3] >= len(held["tmpls"]):
                return "card %d without template" % number
        return None

    def same(self, other):
        return self.rows == other.rows and (self.conf, self.crt, self.tags) == (other.conf, other.crt, other.tags)

    def difference(self, other):
        names = [it for it in {*self.rows, *other.rows} if self.rows.get(it) != other.rows.get(it)]
        told = ["%s: %s | %s" % (it, self.rows.get(it), other.rows.get(it)) for it in sorted(names, key=str)[:3]]
        if (self.conf, self.crt, self.tags) != (other.conf, other.crt, other.tags):
            told.append("%s | %s" % ((self.conf, self.crt, self.tags), (other.conf, other.crt, other.tags)))
        return "; ".join(told)


def join(device, server, device_is_newer):
    """The join of docs/profile/sync.md."""
    graves = {it for content in (device, server) for it in content.rows if it[0] == "graves"}
    rows = {}
    for name in {*device.rows, *server.rows}:
        if grave_of(name) in graves:
            continue
        mine, theirs = device.rows.get(name), server.rows.get(name)
        if mine is None or theirs is None:
            rows[name] = theirs if mine is None else mine
        else:
            rows[name] = mine if stamp_of(name[0], mine) is not None and stamp_of(name[0], mine) > stamp_of(name[0], theirs) else theirs
    newer = device if device_is_newer else server
    return Content(rows, newer.conf, newer.crt, device.tags | server.tags)


class Edit:
    """What an edit asks for: rows by name, names that go, tags that come, settings."""

    def __init__(self, rows=None, gone=(), tags=(), conf=None, schema=False):
        self.rows, self.gone, self.tags, self.conf, self.schema = rows or {}, set(gone), set(tags), conf or {}, schema


class Whole:
    """A collection of the rules: what it holds, its moments and its number, and the number of each row and tag, -1 if it was not sent yet. What has none here has 0."""

    def __init__(self, content, moment, schema, usn, usns=()):
        self.content, self.moment, self.schema, self.usn, self.usns = content, moment, schema, usn, dict(usns)

    def copy(self):
        held = self.content
        return Whole(Content(dict(held.rows), held.conf, held.crt, held.tags), self.moment, self.schema, self.usn, self.usns)

    def edited(self, content, now, usns, schema=False):
        """The collection after an edit."""
        return Whole(content, max(now, self.moment + 1), max(now, self.schema + 1) if schema else self.schema, self.usn, usns)

    # What a session asks of a collection

    def chosen(self, what, is_wanted):
        tables = SENT[what]
        if what == "graves":
            names = [it for it in self.content.rows if it[0] == "graves" and is_wanted(self.usns.get(it, 0))]
            names.sort(key=lambda it: (tables.index(BURIED[it[1]]), it[2]))
        else:
            names = [it for it in self.content.rows if it[0] in tables and is_wanted(self.usns.get(it, 0))]
            names.sort(key=lambda it: (tables.index(it[0]), it[1]))
        tags = [("tag", it) for it in sorted(self.content.tags) if is_wanted(self.usns.get(("tag", it), 0))] if what == "changes" else []
        return [(it, self.content.rows.get(it)) for it in names + tags]

    def take(self, given, usn, as_server):
        for name, row in given:
            if name[0] == "tag":
                self.take_tag(name, usn)
            elif name[0] == "graves":
                self.bury(name, row, usn)
            elif grave_of(name) not in self.content.rows and self.is_taken(name, row, as_server):
                self.content.rows[name], self.usns[name] = row, usn

    def take_tag(self, name, usn):
        if name[1] not in self.content.tags:
            self.content.tags, self.usns[name] = self.content.tags | {name[1]}, usn

    def bury(self, name, row, usn):
        if name not in self.content.rows:
            self.content.rows[name], self.usns[name] = row, usn
        for table in (self.content.rows, self.usns):
            table.pop((BURIED[name[1]], name[2]), None)

    def is_taken(self, name, row, as_server):
        """Whether a row comes in place of the one that is held: on the server a newer one, on a device one that is not older."""
        held = self.content.rows.get(name)
        if held is None:
            return True
        if name[0] == "reviews":
            return not as_server
        mine, theirs = stamp_of(name[0], held), stamp_of(name[0], row)
        return theirs > mine or theirs == mine and not as_server

    def settings(self):
        return self.content.conf, self.content.crt

    def set(self, settings):
        self.content.conf, self.content.crt = settings

    def fault(self):
        return self.content.fault()

    def counts(self):
        return collections.Counter(it[0] for it in self.content.rows)

    def finished(self, moment, usn):
        return Whole(self.content, moment, self.schema, usn + 1, {it: usn if number < 0 else number for it, number in self.usns.items()})

    def uploaded(self, moment, schema):
        held = self.content
        return Whole(Content({it: row for it, row in held.rows.items() if it[0] != "graves"}, held.conf, held.crt, held.tags), moment, schema, 1)

    def check_failed(self, now):
        return self.edited(self.content, now, self.usns, schema=True)


class Side(lab_rules.Device):
    """A device of the rules, with the steps that it can undo, and what it printed when it was looked at last."""

    def __init__(self, committed):
        super().__init__(committed)
        self.steps, self.texts = [], None

    @property
    def content(self):
        return self.collection.content

    @property
    def schema(self):
        return self.collection.schema

    def copy(self):
        made = super().copy()
        made.steps = list(self.steps)
        return made

    def ended(self, word, calls):
        super().ended(word, calls)
        self.steps = []

    def free(self, table, now, made=()):
        number = max(now, 1)
        while self.content.is_taken(table, number) or (table, number) in made:
            number += 1
        return number

    def after(self, edit, now):
        """The content that an edit leaves, by docs/profile/edits.md."""
        rows, second = dict(self.content.rows), now // 1000
        for name in edit.gone:
            del rows[name]
            if grave_of(name):
                rows[grave_of(name)] = [0, name[1], KINDS[name[0]]]
        for name, row in edit.rows.items():
            held = rows.get(name)
            if held is None:
                rows[name] = with_stamp(name[0], row, second)
            elif without_stamp(name[0], held) != without_stamp(name[0], row):
                rows[name] = with_stamp(name[0], row, max(second, stamp_of(name[0], held) + 1))
        return Content(rows, {**self.content.conf, **edit.conf}, self.content.crt, self.content.tags | edit.tags)

    def took(self, after, now, schema=False):
        """The side has got another content by an edit."""
        before = self.content
        names = {it for it in {*before.rows, *after.rows} if before.rows.get(it) != after.rows.get(it)}
        if not names and before.same(after) and not schema:
            return
        usns = {it: usn for it, usn in self.collection.usns.items() if it not in names}
        usns.update((it, -1) for it in (*(it for it in names if it in after.rows), *(("tag", it) for it in after.tags - before.tags)))
        self.collection = self.collection.edited(after, now, usns, schema)
        self.steps = [] if schema else [({it: before.rows.get(it) for it in names}, before.conf, before.tags)] + self.steps[:29]

    def clear(self, edit, now):
        """The side has done an edit after which nothing can be undone."""
        self.took(self.after(edit, now), now)
        self.steps = []

    def undo(self, now):
        """The side has taken its latest step back."""
        step, conf, tags = self.steps.pop(0)
        rows, second = dict(self.content.rows), now // 1000
        for name, row in step.items():
            if row is None:
                rows.pop(name, None)
            else:
                stamps = [second, stamp_of(name[0], row) + 1] + ([stamp_of(name[0], rows[name]) + 1] if name in rows else [])
                rows[name] = with_stamp(name[0], row, max(stamps))
        usns = {it: usn for it, usn in self.collection.usns.items() if (it[1] in tags if it[0] == "tag" else it in rows)}
        usns.update((it, -1) for it, row in step.items() if row is not None)
        self.collection = self.collection.edited(Content(rows, conf, self.content.crt, tags), now, usns)


class Run:
    """An `anki - - lab` that obeys line by line."""

    def __init__(self, anki):
        self.process = subprocess.Popen([anki, "-", "-", "lab"], stdin=subprocess.PIPE, stdout=subprocess.PIPE, stderr=subprocess.DEVNULL)
        self.rest, self.lines, self.given = b"", collections.deque(), 0

    def give(self, lines):
        self.given += len(lines)
        data = b"".join(it + b"\n" for it in lines)
        try:
            self.process.stdin.write(data)
            self.process.stdin.flush()
        except BrokenPipeError:
            pass

    def line(self):
        """The next line that is printed, None at the end."""
        while not self.lines:
            data = os.read(self.process.stdout.fileno(), 1 << 20)
            if not data:
                return None
            *whole, self.rest = (self.rest + data).split(b"\n")
            self.lines.extend(it.decode() for it in whole)
        return self.lines.popleft()

    def end(self):
        try:
            self.process.stdin.close()
        except BrokenPipeError:
            pass
        left = []
        while (line := self.line()) is not None:
            left.append(line)
        self.process.stdout.close()
        return self.process.wait(), left

    def kill(self):
        if self.process.poll() is None:
            self.process.kill()
            self.process.wait()
        self.process.stdout.close()
        try:
            self.process.stdin.close()
        except BrokenPipeError:
            pass


class ServerSide:
    """The server of the rules, and what it printed when it was looked at last, None if that was before it committed."""

    def __init__(self, server, texts):
        self.server, self.told, self.at = server, texts, server.committed

    @property
    def content(self):
        return self.server.committed.content

    @property
    def schema(self):
        return self.server.committed.schema

    @property
    def texts(self):
        return self.told if self.at is self.server.committed else None

    @texts.setter
    def texts(self, texts):
        self.told, self.at = texts, self.server.committed


class Lab:
    """A script under way: the run, the rules' lab beside it, the lines and what they printed."""

    def __init__(self, anki, chance, counts):
        self.anki, self.chance, self.counts = anki, chance, counts
        self.run, self.script, self.printed = Run(anki), [], []
        self.rules, self.server, self.spent, self.schemas, self.reviews = None, None, set(), {BEGIN}, set()
        _, [(content, texts)] = self.seen("server")
        self.rules = lab_rules.Lab(Whole(content, BEGIN, BEGIN, 1), Side)
        self.server = ServerSide(self.rules.server, texts)

    @property
    def clock(self):
        return self.rules.clock

    @property
    def devices(self):
        return self.rules.devices

    # What is printed

    def seen(self, *sides, line=None):
        """Gives a line, if any, and then asks what sides hold: what the line printed, and their contents. A refused line is answered with no contents."""
        asked = [] if line is None else [line]
        for side in sides:
            asked += [b"count %s" % side.encode(), *(b"show %s %s" % (side.encode(), it.encode()) for it in (*TABLES, "head"))]
        self.run.give(asked)
        own, contents = [], []
        # What a line `count` prints looks like what comes after it.
        counts = 1 if line is not None and line.startswith(b"count ") else 0
        while (text := self.run.line()) is not None and not (COUNT_LINE.match(text) and len(own) >= counts):
            own.append(text)
        if text is None:
            return own, None  # The lab ended.
        for number, side in enumerate(sides):
            if number:
                text = self.run.line()
                expect("a count of " + side, bool(COUNT_LINE.match(text or "")), True)
            contents.append(self.read(COUNT_LINE.match(text).groups()))
        return own, contents

    def read(self, numbers):
        """The tables of a side that was counted."""
        many = dict(zip(("notes", "cards", "reviews", "graves", "types", "decks", "options"), map(int, numbers)))
        rows, texts = {}, {}
        for table in TABLES:
            texts[table] = [self.run.line() for _ in range(many[table])]
            last = None
            for text in texts[table]:
                row = row_of(text)
                name = name_of(table, row)
                expect("a name once", name in rows, False)
                if table != "graves" and last is not None:
                    expect("rows by id in " + table, name[1] > last, True)
                last = name[-1]
                rows[name] = row
        texts["head"] = [self.run.line()]
        head = row_of(texts["head"][0])
        expect("keys of a head", sorted(head), ["conf", "crt", "tags"])
        expect("tags by bytes, each once", head["tags"], sorted(set(head["tags"]), key=lambda it: it.encode()))
        texts["count"] = ["notes %s cards %s reviews %s graves %s types %s decks %s options %s" % numbers]
        return Content(rows, head["conf"], head["crt"], frozenset(head["tags"])), texts

    def accepted(self, form, line, *sides):
        """Gives a line that is to be accepted: what it printed, and what each side holds after it."""
        data = line if isinstance(line, bytes) else line.encode()
        self.script.append(data)
        self.counts["form", form] += 1
        looked = sides or (self.looked(),)
        own, contents = self.seen(*looked, line=data)
        if contents is None:
            raise Wrong("a line that should be accepted: %r" % own[-1:])
        self.printed += own
        for side, (content, texts) in zip(looked, contents):
            held = self.side(side)
            expect("the check of what %s holds" % side, content.fault(), None)
            if side == "server":
                self.server_keeps(content)
            if not sides and held.texts is not None:
                expect("%s is as before" % side, texts == held.texts, True)
            held.texts = texts
        return (own, *(it[0] for it in contents)) if sides else (own,)

    def is_resumable(self):
        """Whether a request of the log, sent again, can tell that the server's session is there. Then nobody looks at the server, since that ends it."""
        server = self.rules.server
        return server.session is not None and any(it["key"] == server.session.key and it["method"] != "meta" and not server.is_repeat(it) for it in server.log)

    def looked(self):
        """The side that is looked at after a line that changes none."""
        return sorted(self.devices)[0] if self.is_resumable() else "server"

    def told(self, form, line):
        """Gives a line of which the rules say all. The devices that it names at an end or that it changed are looked at, and after a meeting the server. It gives what it printed."""
        kept, commits = {name: it.collection for name, it in self.devices.items()}, self.rules.server.commits
        wanted = self.say(line)
        sides = [name for name, it in self.devices.items() if it.collection is not kept.get(name) or any(" %s: " % name in text for text in wanted)]
        if form in MEETINGS and not self.is_resumable():
            sides.append("server")
        if any(re.fullmatch("upload .*: finished", it) for it in wanted):
            self.reviews = set()
        if form in LATE:
            self.counts["commit", LATE[form]] += self.rules.server.commits - commits - len([it for it in wanted if it.endswith(": finished")])
        own, *contents = self.accepted(form, line, *sides)
        expect(line, own, wanted)
        for side, content in zip(sides, contents):
            self.holds(side, content, line)
        return own

    def say(self, line):
        """What the rules print of a line."""
        self.rules.printed = []
        self.rules.obey(line)
        return self.rules.printed

    def refused(self, line, text):
        """Gives a line that is to be refused with this text. It ends the script."""
        data = line if isinstance(line, bytes) else line.encode()
        self.script.append(data)
        number = self.run.given + 1
        own, contents = self.seen("server", line=data)
        expect("a refused line: %.200r" % line, (own, contents), (["line %d: %s" % (number, text)], None))
        status, left = self.run.end()
        expect("the status after a refused line", (status, left), (3, []))
        self.printed.append("line %d: %s" % (len(self.script), text))
        self.counts["refusal", plain(text)] += 1

    def side(self, name):
        return self.server if name == "server" else self.devices.get(name)

    def now(self, device):
        return self.clock + self.devices[device].shift

    # Lines of the lab

    def set_clock(self, moment):
        self.told("clock", "clock %d" % moment)

    def at_own_moment(self, schemas_of):
        """Sets the clock to a moment at which no schema changed, and where none of the new schema moments is one that was ever there. They depend on the clock, which this takes."""
        found = schemas_of(self.clock)
        if not found:
            return
        if self.clock in self.spent or found & self.schemas or self.chance.random() < 0.7:
            moment = self.clock
            for turn in range(10):
                # Past all schema moments by more than any shift, if those that are near don't do.
                moment = (moment if turn < 5 else max(moment, *self.schemas) + 10_000_000) + self.chance.randint(1, 40_000)
                found = schemas_of(moment)
                if moment not in self.spent and not found & self.schemas:
                    break
            self.set_clock(moment)
        self.spent.add(self.clock)
        self.schemas |= found

    def new_schemas(self, line, clock):
        """The schema moments that a line brings at a moment of the clock."""
        tried = self.rules.copy()
        tried.clock = clock
        tried.obey(line)
        tried.server = ServerSide(tried.server, None)
        return {new.schema for new, old in ((tried.server, self.server), *((it, self.devices[name]) for name, it in tried.devices.items())) if new.schema != old.schema}

    def device(self, name):
        self.told("device", "device " + name)

    def holds(self, name, content, what):
        held = self.side(name).content
        if not held.same(content):
            raise Wrong("%s: %s holds what the rules don't say: %s" % (what, name, content.difference(held)))

    def shift(self, name, by):
        self.told("shift", "shift %s %d" % (name, by))

    def review(self, name, card, ease, count):
        side, rows, number = self.devices[name], {}, self.now(name)
        for _ in range(count):
            number = side.free("reviews", number)
            rows["reviews", number] = [number, card, 0, ease, 0, 0, 0, 0, 0]
            number += 1
        side.took(side.after(Edit(rows), self.now(name)), self.now(name))
        own, content = self.accepted("review", "review %s %d %d %d" % (name, card, ease, count), name)
        expect("a review line", own, [])
        self.holds(name, content, "reviews")

    def ask(self, form, line, wanted):
        if line.split(" ")[1] == "server":
            self.rules.held("server")
        (own,) = self.accepted(form, line)
        expect(line, own, wanted)

    def sync(self, name):
        """A sync, with all that lines planned for it."""
        line, side = "sync " + name, self.devices[name]
        self.at_own_moment(lambda clock: self.new_schemas(line, clock))
        held, lost = side.collection, set(side.lost)
        own = self.told("sync", line)
        names = [re.match("sync ([^:]*): ", it).group(1) for it in own]
        for number, text in enumerate(own):
            end = text.partition(": ")[2]
            self.counts["end", "sync " + plain(end)] += 1
            if number < len(own) - 1:
                self.counts["crossed", "sync " + plain(end)] += 1
        for it in sorted(set(names)):
            self.run.give([b"requests " + it.encode()])
            expect("the requests of a sync", self.run.line(), "requests %s: %d" % (it, self.devices[it].requests))
        self.keeps_promises(name, end, held, lost)

    def keeps_promises(self, name, end, held, lost):
        """What stands after a sync that ended so: the device held this when it began, and lost these messages."""
        mine, server = self.devices[name].collection, self.rules.server
        if end in ("finished", "no changes"):
            expect("one content on both sides", mine.content.same(server.committed.content), True)
        if end == "finished":
            joined = join(held.content, server.before.content, held.moment > server.before.moment)
            if not joined.same(mine.content):
                raise Wrong("a sync of %s finished with what is not the join: %s" % (name, mine.content.difference(joined)))
        elif not held.content.same(mine.content):
            raise Wrong("a sync of %s did not finish, and changed what it holds: %s" % (name, mine.content.difference(held.content)))
        if end == "lost":
            calls = {it[0] for it in lost}
            expect("losses at three calls in a row", any({it, it + 1, it + 2} <= calls for it in calls), True)

    def server_keeps(self, content):
        """Reviews that the server held stay."""
        found = {it for it in content.rows if it[0] == "reviews"}
        expect("reviews that the server lost", self.reviews - found, set())
        self.reviews = found

    def upload(self, name):
        line = "upload " + name
        self.at_own_moment(lambda clock: self.new_schemas(line, clock))
        self.transferred(name, "upload")

    def download(self, name):
        self.transferred(name, "download")

    def transferred(self, name, word):
        own = self.told(word, "%s %s" % (word, name))
        end = own[-1].partition(": ")[2]
        self.counts["end", "%s %s" % (word, plain(end))] += 1
        if end == "finished":
            expect("one content after the " + word, self.devices[name].content.same(self.server.content), True)

    def resend(self, requests):
        for text in self.told("resend", "resend " + requests):
            self.counts["resent", text] += 1

    # Lines of the desk

    def do(self, name, form, line, edit=None, wanted=None):
        """A line of the desk of which the rules say all: its edit, and what it prints."""
        side, now = self.devices[name], self.now(name)
        if edit and edit.schema:
            self.at_own_moment(lambda clock: {max(clock + side.shift, side.schema + 1)})
            now = self.now(name)
        if edit:
            side.took(side.after(edit, now), now, edit.schema)
        own, content = self.accepted("do " + form, "do %s %s" % (name, line), name)
        if wanted is not None:
            expect(line, own, wanted)
        self.holds(name, content, line)
        return own

    def do_by_law(self, name, form, line, schema=False):
        """A line of the desk of which the rules of all edits are looked at."""
        side = self.devices[name]
        if schema:
            self.at_own_moment(lambda clock: {max(clock + side.shift, side.schema + 1)})
        now, before = self.now(name), side.content
        own, after = self.accepted("do " + form, "do %s %s" % (name, line), name)
        keeps_law(before, after, now // 1000, schema)
        side.took(after, now, schema)
        return own, before, after

    def undo(self, name):
        side, now = self.devices[name], self.now(name)
        side.undo(now)
        self.do(name, "undo", "undo", None, ["ok"])

    def finish(self):
        """Looks at all sides, ends the first run, and lets a second one obey the whole script."""
        for name in ("server", *self.devices):
            _, [(content, texts)] = self.seen(name)
            self.holds(name, content, "the end")
            expect("%s is as before" % name, texts == (self.side(name).texts or texts), True)
        expect("the end of the lab", self.run.end(), (0, []))

    def again(self, refused):
        ran = subprocess.run([self.anki, "-", "-", "lab"], input=b"".join(it + b"\n" for it in self.script), stdout=subprocess.PIPE,
                             stderr=subprocess.DEVNULL)
        expect("the status of the whole script", ran.returncode, 3 if refused else 0)
        wanted = "".join(it + "\n" for it in self.printed)
        if ran.stdout.decode() != wanted:
            raise Wrong("the whole script prints something else than its lines one by one")


def keeps_law(before, after, second, schema):
    """What every edit keeps, whatever it is made for."""
    expect("the second of the day's count", after.crt, before.crt)
    expect("tags that went", before.tags - after.tags, frozenset())
    for name in {*before.rows, *after.rows}:
        table, old, new = name[0], before.rows.get(name), after.rows.get(name)
        if old == new:
            continue
        if table == "graves":
            expect("a new grave of a row that went", (old, ({0: "cards", 1: "notes", 2: "decks"}[name[1]], name[2]) in before.rows), (None, True))
        elif new is None:
            may_go = grave_of(name) in after.rows if table in KINDS else table in ("types", "options") and schema
            expect("a row that may go: %s" % (name,), may_go, True)
        elif old is None:
            expect("the stamp of a new row", stamp_of(table, new), *((None,) if table == "reviews" else (second,)))
            expect("a new row over a grave", grave_of(name) in before.rows, False)
        else:
            expect("a review that changed", table == "reviews", False)
            expect("a row that changed but for its stamp", without_stamp(table, old) != without_stamp(table, new), True)
            expect("the stamp of a changed row", stamp_of(table, new), max(second, stamp_of(table, old) + 1))


def plain(text):
    """A text of a refusal or an end without its numbers and names."""
    text = re.sub(r"(no device|no field|no filter) .*", r"\1 <name>", text)
    if text.startswith("not answerable: queue"):
        return "not answerable: queue <n>"
    for word in ("full needed: schema", "clock off", "own check failed"):
        if text.startswith(word):
            return word
    if text.startswith("refused "):
        return text
    if re.match(r"(json|search|template|row) fault", text):
        return re.sub(r" at \d+", " at <n>", text)
    return re.sub(r"\d+", "<n>", text)


# Scripts by chance

WORDS = ("dog", "cat", "house", "tree", "sun", "la casa", "der Hund", "\u732b", "na\u00efve", "x y z", "<b>bold</b>", "a:b", "9")
TAGS = ("noun", "verb", "hard", "a::b", "\u00e9t\u00e9", "leech")


def dumps(value):
    return json.dumps(value, ensure_ascii=False, separators=(",", ":"))


def stripped(text):
    return text.replace("<b>", "").replace("</b>", "")


def checksum(text):
    return int(hashlib.sha1(stripped(text).encode()).hexdigest()[:8], 16)


def shown(held, fields):
    """The places of the cards that a note's fields show."""
    texts = dict(zip((it["name"] for it in held["flds"]), fields))
    if held["type"] == 1:
        found = set()
        for it in re.findall(r"\{\{cloze:(\w+)\}\}", held["tmpls"][0]["qfmt"]):
            found |= {int(n) - 1 for n in re.findall(r"\{\{c(\d+)::", texts.get(it, ""))}
        return sorted(found)
    return [n for n, it in enumerate(held["tmpls"]) if any(texts.get(name, "") != "" for name in re.findall(r"\{\{(\w+)\}\}", it["qfmt"]))]


class Maker:
    """Makes a script by chance, and gives it to a lab."""

    def __init__(self, lab, chance):
        self.lab, self.chance = lab, chance

    def some(self, values):
        values = list(values)
        return self.chance.choice(values) if values else None

    def many(self, values, most=4):
        values = list(values)
        return self.chance.sample(values, self.chance.randint(1, min(most, len(values)))) if values else []

    def device(self):
        return self.some(sorted(self.lab.devices))

    def new_name(self):
        while True:
            name = self.some(("A", "B", "C", "D", "Phone", "laptop", "1", "z9", "DeskOfTheOffice1", "n%d" % self.chance.randint(0, 999)))
            if name not in self.lab.devices:
                return name

    def script(self, size):
        lab = self.lab
        for _ in range(self.chance.randint(1, 3)):
            lab.device(self.new_name())
        weights = WEIGHTS + (FILTERED if has_filtered(lab.anki) else ()) + (BROKEN if has_breaks(lab.anki) else ())
        steps = [(getattr(self, name), weight) for name, weight in weights]
        calls, weights = zip(*steps)
        while len(lab.script) < size - 1:
            self.chance.choices(calls, weights)[0]()

    def fields(self, held):
        count = len(held["flds"])
        if held["type"] == 1:
            text = "".join("{{c%d::%s}} " % (self.chance.randint(1, 4), self.some(("one", "two", "three"))) for _ in range(self.chance.randint(0, 3)))
            return [text + self.some(WORDS), *(self.field() for _ in range(count - 1))]
        return [self.field() for _ in range(count)]

    def field(self):
        return "" if self.chance.random() < 0.15 else " ".join(self.many(WORDS, 3))

    # The lab

    def a_device(self):
        if len(self.lab.devices) < 5:
            self.lab.device(self.new_name())

    def a_clock(self):
        way = self.chance.random()
        by = -self.chance.randint(0, 100_000) if way < 0.15 else self.chance.randint(0, 5_000 if way < 0.5 else 40 * 86_400_000)
        moment = self.some((0, 1, 999, 86_400_000)) if way > 0.99 else min(self.lab.clock + by, 2_000_000_000_000)
        self.lab.set_clock(max(moment, *(-it.shift for it in self.lab.devices.values()), 0))

    def a_shift(self):
        near, far = self.chance.randint(-299_000, 299_000), self.some((-1, 1)) * self.chance.randint(301_000, 10_000_000)
        self.lab.shift(self.device(), max(self.some((0, 1, -1, 999, near, near, near, far)), -self.lab.clock))

    def a_review(self):
        name = self.device()
        cards = sorted(self.lab.devices[name].content.table("cards"))
        card = self.some(cards) if cards and self.chance.random() < 0.8 else self.chance.randint(1, 99)
        # Chunks of a sync have 250 rows.
        many = self.some((249, 250, 251, 500, self.chance.randint(200, 600))) if self.chance.random() < 0.03 else self.some((1, 1, 2, 3, self.chance.randint(1, 40)))
        self.lab.review(name, card, self.chance.randint(1, 4), many)

    def a_sync(self):
        name = self.device()
        if abs(self.lab.devices[name].shift) > 300_000 and self.chance.random() < 0.6:
            self.lab.shift(name, max(self.chance.randint(-200_000, 200_000), -self.lab.clock))
        self.lab.sync(name)

    def a_way_out(self):
        """What follows a sync that needs the whole collection, mostly; or an upload or a download at any time."""
        apart = [it for it, side in sorted(self.lab.devices.items()) if side.schema != self.lab.server.schema]
        if not apart and self.chance.random() < 0.7:
            return
        name = self.some(apart) if apart else self.device()
        if self.chance.random() < 0.35:
            self.lab.upload(name)
        else:
            self.lab.download(name)

    def a_look(self):
        side = self.some(("server", *sorted(self.lab.devices)))
        held, table = self.lab.side(side), self.some((*TABLES, "head", "count", "requests"))
        if table == "requests":
            name = self.device()
            self.lab.ask("requests", "requests " + name, ["requests %s: %d" % (name, self.lab.devices[name].requests)])
        elif held.texts is not None:
            self.lab.ask(*("count", "count " + side) if table == "count" else ("show " + table, "show %s %s" % (side, table)), held.texts[table])

    def a_skipped(self):
        (own,) = self.lab.accepted("skipped", self.some(("", "# a word", "#", "#sync A")))
        expect("a skipped line", own, [])

    # Losses, and what comes between the calls of a sync

    def call(self):
        """The number of a call, mostly of one that a sync makes."""
        return self.some((0, 0, 1, 1, 2, 3, 4, 5, 6, 6, 7, 8, 9, 12, 40, 2**63 - 1))

    def lose(self, name, call):
        what = self.some(("request", "reply"))
        self.lab.told("lose " + what, "lose %s %d %s" % (name, call, what))

    def a_loss(self):
        self.lose(self.device(), self.call())

    def a_lost(self):
        """Losses at three calls in a row, and mostly the sync that meets them. Then it may be taken up again."""
        name, call = self.device(), self.chance.randint(0, 7)
        for it in range(call, call + 3):
            self.lose(name, it)
        if self.chance.random() < 0.8:
            self.lab.sync(name)
            if self.chance.random() < 0.6:
                self.a_resend()

    def a_repeat(self):
        self.lab.told("repeat", "repeat %s %d" % (self.device(), self.call()))

    def two_devices(self):
        return self.chance.sample(sorted(self.lab.devices), 2) if len(self.lab.devices) > 1 else None

    def a_cross(self):
        names = self.two_devices()
        if names:
            self.lab.told("cross", "cross %s %d %s" % (names[0], self.call(), names[1]))

    def stretches(self):
        """The requests of the log in stretches of one session: of each the key, the first, and how many."""
        found, first = [], 0
        for key, stretch in itertools.groupby(self.lab.rules.server.log, lambda it: it["key"]):
            count = len(list(stretch))
            found.append((key, first, count))
            first += count
        return found

    def requests(self):
        """Requests of the log: the first, and how many."""
        count, way = len(self.lab.rules.server.log), self.chance.random()
        if count and way < 0.5:
            return "%d %d" % self.some(self.stretches()[-6:])[1:]
        if count and way < 0.95:
            first = self.chance.randint(max(0, count - 30), count - 1)
            return "%d %d" % (first, self.chance.randint(1, min(count - first, self.some((1, 1, 12)))))
        return "%d 0" % self.some((0, count, count + 1, 2**63 - 1))

    def a_replay(self):
        self.lab.told("replay", "replay %s %d %s" % (self.device(), self.call(), self.requests()))

    def a_resend(self):
        self.lab.resend(self.requests())

    def a_late(self):
        """A sync before whose finish another one comes; and then its requests again, now or in another sync. They commit it if the other one committed nothing."""
        names = self.two_devices()
        if not names:
            return
        tried = self.lab.rules.copy()
        tried.obey("sync " + names[0])
        self.lab.told("cross", "cross %s %d %s" % (names[0], tried.devices[names[0]].requests - 1, names[1]))
        key = self.lab.rules.sessions + 1
        self.lab.sync(names[0])
        again = ["%d %d" % (first, count) for of, first, count in self.stretches() if of == key]
        if self.chance.random() < 0.5:
            for it in again:
                self.lab.resend(it)
            return
        for it in again:
            self.lab.told("replay", "replay %s 1 %s" % (names[1], it))
        if self.chance.random() < 0.5:
            self.lab.told("cross", "cross %s 0 %s" % tuple(names))
        self.lab.sync(names[0])
        self.lab.sync(names[1])

    def a_break(self):
        side = self.some(("server", *sorted(self.lab.devices)))
        self.lab.told("break server" if side == "server" else "break device", "break " + side)

    # The desk

    def filled_notes(self):
        """A device, and the ids of its notes that have as many fields as their types. Two devices may give two types one id, and then the later one is joined."""
        name = self.device()
        types = self.lab.devices[name].content.table("types")
        return name, sorted(number for number, row in self.lab.devices[name].content.table("notes").items() if len(note_fields(row)) == len(types[row[2]]["flds"]))

    def of(self, table, where=lambda number, row: True):
        """A device that has rows of a table, and the ids of these."""
        name = self.device()
        return name, sorted(number for number, row in self.lab.devices[name].content.table(table).items() if where(number, row))

    def a_note(self):
        name, types = self.of("types")
        side, now = self.lab.devices[name], self.lab.now(name)
        held = side.content.row("types", self.some(types))
        deck, fields = self.some(sorted(side.content.table("decks"))), self.fields(held)
        note, rows = side.free("notes", now), {}
        ords, at = shown(held, fields) or [0], now
        place, cards = side.content.conf["nextPos"], []
        for ord_ in ords:
            at = side.free("cards", at, rows)
            rows["cards", at] = [at, note, deck, ord_, 0, 0, 0, 0, place, *[0] * 8, ""]
            cards.append(at)
        rows["notes", note] = [note, "%d-0000" % note, held["id"], 0, 0, "", "\x1f".join(fields), stripped(fields[held["sortf"]]), checksum(fields[0]), 0, ""]
        self.lab.do(name, "note", "note %d %d %s" % (held["id"], deck, dumps(fields)), Edit(rows, conf={"nextPos": place + 1}),
                    ["note %d cards %s" % (note, " ".join(map(str, cards)))])

    def edit_note(self, name, number, fields, tags):
        """The edit that gives a note other fields and tags."""
        side, now = self.lab.devices[name], self.lab.now(name)
        note = side.content.row("notes", number)
        held, mine = side.content.row("types", note[2]), side.content.cards_of(number)
        rows, at, conf = {}, now, {}
        lacking = sorted(set(shown(held, fields)) - {row[3] for row in mine.values()})
        for ord_ in lacking:
            at = side.free("cards", at, rows)
            rows["cards", at] = [at, number, mine[min(mine)][2] if mine else 1, ord_, 0, 0, 0, 0, side.content.conf["nextPos"], *[0] * 8, ""]
            conf = {"nextPos": side.content.conf["nextPos"] + 1}
        kept = sorted(set(tags), key=lambda it: it.encode())
        stored = " %s " % " ".join(kept) if kept else ""
        rows["notes", number] = changed(note, at5=stored, at6="\x1f".join(fields), at7=stripped(fields[held["sortf"]]), at8=checksum(fields[0]))
        return Edit(rows, tags=kept, conf=conf)

    def a_change(self):
        name, notes = self.of("notes")
        if notes:
            number = self.some(notes)
            note = self.lab.devices[name].content.row("notes", number)
            fields = self.fields(self.lab.devices[name].content.row("types", note[2]))
            self.lab.do(name, "fields", "fields %d %s" % (number, dumps(fields)), self.edit_note(name, number, fields, note[5].split()), ["ok"])

    def a_tag(self):
        name, notes = self.filled_notes()
        if notes:
            number, tags = self.some(notes), self.many(TAGS, 3) if self.chance.random() < 0.9 else []
            fields = note_fields(self.lab.devices[name].content.row("notes", number))
            self.lab.do(name, "tags", "tags %d %s" % (number, dumps(tags)), self.edit_note(name, number, fields, tags), ["ok"])

    def a_delete(self):
        name, notes = self.of("notes")
        if notes:
            gone, content = self.many(notes, 2), self.lab.devices[name].content
            cards = [number for it in gone for number in content.cards_of(it)]
            self.lab.do(name, "delete", "delete " + " ".join(map(str, gone)), Edit(gone=[*(("notes", it) for it in gone), *(("cards", it) for it in cards)]), ["ok"])

    def missing(self, side, now, path, rows):
        """Makes the decks that are missing above a path and at it; the id of the last."""
        names, at = {row["name"]: number for number, row in side.content.table("decks").items()}, now
        number = None
        for upto in range(1, len(path) + 1):
            name = "::".join(path[:upto])
            number = names.get(name)
            if number is None:
                number = at = side.free("decks", at, rows)
                rows["decks", number] = {"conf": 1, "dyn": 0, "id": number, "mod": 0, "name": name, "newToday": [0, 0], "revToday": [0, 0], "usn": 0}
        return number

    def new_path(self, side):
        held = {row["name"] for row in side.content.table("decks").values()}
        while True:
            path = self.many(("French", "Food", "German", "Verbs", "Old", "D%d" % self.chance.randint(0, 99)), 3)
            if "::".join(path) not in held:
                return path

    def a_deck(self):
        name = self.device()
        side, rows = self.lab.devices[name], {}
        path = self.new_path(side)
        number = self.missing(side, self.lab.now(name), path, rows)
        self.lab.do(name, "deck", "deck " + "::".join(path), Edit(rows), ["deck %d" % number])

    def a_rename(self):
        name, decks = self.of("decks")
        side, content = self.lab.devices[name], self.lab.devices[name].content
        number, path, rows = self.some(decks), self.new_path(self.lab.devices[name]), {}
        top = content.row("decks", number)
        below = {it: row for it, row in content.table("decks").items() if is_under(row, top)}
        moved = {it: "::".join(path + parts(row)[len(parts(top)):]) for it, row in below.items()}
        others = {row["name"] for it, row in content.table("decks").items() if it not in below}
        if path[:len(parts(top))] == parts(top) or set(moved.values()) & others or len(set(moved.values())) < len(moved):
            return
        left = Content({it: row for it, row in content.rows.items() if it[0] != "decks" or it[1] not in below}, content.conf, content.crt, content.tags)
        names, at = {row["name"] for row in left.table("decks").values()}, self.lab.now(name)
        for upto in range(1, len(path)):
            if "::".join(path[:upto]) not in names:
                at = side.free("decks", at, rows)
                rows["decks", at] = {"conf": 1, "dyn": 0, "id": at, "mod": 0, "name": "::".join(path[:upto]), "newToday": [0, 0], "revToday": [0, 0], "usn": 0}
        rows.update({("decks", it): changed(below[it], name=moved[it]) for it in below})
        self.lab.do(name, "rename", "rename %d %s" % (number, "::".join(path)), Edit(rows), ["ok"])

    def a_drop(self):
        name, decks = self.of("decks", lambda number, row: number != 1)
        content = self.lab.devices[name].content
        number = self.some(decks)
        if number is None:
            return
        below = {it for it, row in content.table("decks").items() if is_under(row, content.row("decks", number))}
        if 1 in below:
            return
        for it in sorted(below):
            if content.row("decks", it)["dyn"] == 1:
                self.go_home(name, [card for card, row in self.lab.devices[name].content.table("cards").items() if row[2] == it], always=True)
        content = self.lab.devices[name].content
        cards = {it: row for it, row in content.table("cards").items() if row[2] in below}
        notes = {row[1] for row in cards.values() if all(row_[2] in below for row_ in content.cards_of(row[1]).values()) and content.row("notes", row[1])}
        gone = [*(("decks", it) for it in below), *(("cards", it) for it in cards), *(("notes", it) for it in notes)]
        self.lab.do(name, "drop", "drop %d" % number, Edit(gone=gone), ["ok"])

    def cards_edit(self, form, words, change):
        name, cards = self.of("cards")
        if cards:
            chosen = self.many(cards)
            rows = {("cards", it): change(self.lab.devices[name].content.row("cards", it)) for it in chosen}
            self.lab.do(name, form, "%s %s" % (words, " ".join(map(str, chosen + chosen[:self.chance.randint(0, 1)]))), Edit(rows), ["ok"])

    def a_move(self):
        name, cards = self.of("cards")
        if cards:
            deck, chosen = self.some(sorted(self.lab.devices[name].content.table("decks"))), self.many(cards)
            self.go_home(name, chosen)
            rows = {("cards", it): changed(self.lab.devices[name].content.row("cards", it), at2=deck) for it in chosen}
            self.lab.do(name, "move", "move %d %s" % (deck, " ".join(map(str, chosen))), Edit(rows), ["ok"])

    def a_flag(self):
        flag = self.chance.randint(0, 7)
        self.cards_edit("flag", "flag %d" % flag, lambda row: changed(row, at16=row[16] - row[16] % 8 + flag))

    def a_suspend(self):
        self.cards_edit("suspend", "suspend", lambda row: changed(row, at7=-1))

    def an_unsuspend(self):
        self.cards_edit("unsuspend", "unsuspend", lambda row: changed(row, at7=came_back(row)) if row[7] == -1 else row)

    def a_bury(self):
        self.cards_edit("bury", "bury", lambda row: changed(row, at7=-3) if row[7] >= 0 else row)

    def an_adopt(self):
        name, decks = self.of("decks")
        deck, group = self.some(decks), self.some(sorted(self.lab.devices[name].content.table("options")))
        row = changed(self.lab.devices[name].content.row("decks", deck), conf=group)
        self.lab.do(name, "adopt", "adopt %d %d" % (deck, group), Edit({("decks", deck): row}), ["ok"])

    def an_options(self):
        name, groups = self.of("options")
        side, old = self.lab.devices[name], self.some(groups)
        row = side.content.row("options", old)
        new = changed(row, name=self.some(("Slow", "Fast", "Default", "x")), maxTaken=self.chance.randint(0, 100))
        steps = self.some(([60, 600], [], [1], [60, 86_400]))
        new["new"] = {**row["new"], "perDay": self.chance.randint(0, 30), "bury": self.some((True, False)), "steps": steps}
        new["rev"] = {**row["rev"], "bury": self.some((True, False)), "perDay": self.chance.randint(0, 200), "hardFactor": self.some(("1.2", "0.85"))}
        new["lapse"] = {**row["lapse"], "leechFails": self.chance.randint(0, 3), "leechAction": self.chance.randint(0, 1), "mult": self.some(("0", "1"))}
        number = old if self.chance.random() < 0.5 else side.free("options", self.lab.now(name))
        given = {**new, "id": old if number == old else 0, "mod": 0, "usn": 0}
        self.lab.do(name, "options", "options " + dumps(given), Edit({("options", number): {**new, "id": number, "usn": 0}}), ["options %d" % number])

    def an_unoptions(self):
        name, groups = self.of("options", lambda number, row: number != 1)
        if groups:
            gone, content = self.some(groups), self.lab.devices[name].content
            rows = {("decks", it): changed(row, conf=1) for it, row in content.table("decks").items() if row["conf"] == gone}
            self.lab.do(name, "unoptions", "allow unoptions %d" % gone, Edit(rows, gone=[("options", gone)], schema=True), ["ok"])

    def new_type(self, number, fields, templates, name="Word"):
        back = "{{FrontSide}}<hr>{{%s}}" % fields[-1]
        return {"flds": [{"name": it, "ord": n} for n, it in enumerate(fields)], "id": number, "mod": 0, "name": name,
                "sortf": self.chance.randrange(len(fields)), "type": 0, "usn": 0,
                "tmpls": [{"afmt": back, "name": "Card %d" % (n + 1), "ord": n, "qfmt": it} for n, it in enumerate(templates)]}

    def a_type(self):
        name = self.device()
        number = self.lab.devices[name].free("types", self.lab.now(name))
        fields = self.some((["Word"], ["Word", "Meaning"], ["Front", "Back", "More"]))
        held = self.new_type(number, fields, self.some((["{{%s}}" % fields[0]], ["{{%s}}" % fields[0], "x {{%s}}" % fields[-1]])))
        line = {**held, "id": 1, **{key: [{k: v for k, v in it.items() if k != "ord"} for it in held[key]] for key in ("flds", "tmpls")}}
        self.lab.do(name, "type", "type " + dumps(line), Edit({("types", number): held}), ["type %d" % number])

    def a_retype(self):
        """Another name or front; with `allow` fields and templates that come, go or change places."""
        name, types = self.of("types", lambda _, row: row["type"] == 0)
        if not types:
            return
        number = self.some(types)
        held = self.lab.devices[name].content.row("types", number)
        fields, templates = list(range(len(held["flds"]))), list(range(len(held["tmpls"])))
        if self.chance.random() < 0.5:
            way = self.chance.randrange(6)
            if way == 0 and len(fields) < 4:
                fields.append(None)
            elif way == 1 and len(fields) > 1:
                fields.remove(self.some(fields))
            elif way == 2:
                self.chance.shuffle(fields)
            elif way == 3 and len(templates) < 3:
                templates.append(None)
            elif way == 4 and len(templates) > 1:
                templates.remove(self.some(templates))
            else:
                self.chance.shuffle(templates)
        schema = fields != list(range(len(held["flds"]))) or templates != list(range(len(held["tmpls"])))
        names = ["N%d" % n if it is None else held["flds"][it]["name"] for n, it in enumerate(fields)]
        fronts = []
        for it in templates:
            front = None if it is None else held["tmpls"][it]["qfmt"]
            named = re.findall(r"\{\{(\w+)\}\}", front or "")
            fronts.append(front if front and named[0] in names and self.chance.random() < 0.8 else "{{%s}}" % self.some(names))
        new = self.new_type(number, names, fronts, name=self.some(("Word", "Basic", "Other")))
        line = "retype " + dumps([new, fields, templates])
        own, before, after = self.lab.do_by_law(name, "retype", ("allow " if schema or self.chance.random() < 0.2 else "") + line, schema)
        expect("a changed type", own, ["ok"])
        expect("the type that was asked for", without_stamp("types", after.row("types", number)), new)
        for it, note in before.table("notes").items():
            if note[2] == number:
                old = note_fields(note)
                wanted = ["" if place is None or place >= len(old) else old[place] for place in fields]
                got = after.row("notes", it)
                expect("the fields of a note of the type", note_fields(got), wanted)
                expect("the texts of a note of the type", (got[7], got[8]), (stripped(wanted[new["sortf"]]), checksum(wanted[0])))
                ords = sorted(row[3] for row in after.cards_of(it).values())
                # Two devices may have given a note a card for one template each.
                kept = [templates.index(row[3]) for row in before.cards_of(it).values() if row[3] in templates]
                expect("the cards of a note of the type", ords, sorted(kept + [ord_ for ord_ in shown(new, wanted) if ord_ not in kept]) or [0])
            else:
                expect("a note of another type", after.row("notes", it), note)

    def an_untype(self):
        name = self.device()
        content = self.lab.devices[name].content
        used = {row[2] for row in content.table("notes").values()}
        free = sorted(it for it in content.table("types") if it not in used)
        if free and len(content.table("types")) > 2:
            gone = self.some(free)
            self.lab.do(name, "untype", "allow untype %d" % gone, Edit(gone=[("types", gone)], schema=True), ["ok"])

    def a_spread(self):
        spread = self.chance.randint(0, 2)
        self.lab.do(self.device(), "spread", "spread %d" % spread, Edit(conf={"newSpread": spread}), ["ok"])

    def morning(self, name):
        """The edit with which a day begins, if it has not."""
        content = self.lab.devices[name].content
        day = content.day(self.lab.now(name))
        if content.conf["lastUnburied"] >= day:
            return Edit()
        rows = {("cards", it): changed(row, at7=came_back(row)) for it, row in content.table("cards").items() if row[7] in (-2, -3)}
        return Edit(rows, conf={"lastUnburied": day})

    def an_answer(self):
        name = self.device()
        side, now = self.lab.devices[name], self.lab.now(name)
        begun = side.after(self.morning(name), now)
        cards = sorted(it for it, row in begun.table("cards").items() if row[7] >= 0 and side.content.row("notes", row[1]))
        if not cards:
            return
        number, button, spent = self.some(cards), self.chance.randint(1, 4), self.chance.randint(0, 90_000)
        card = side.content.row("cards", number)
        if card[15] > 0:
            if (card[7], card[6]) not in ((0, 0), (2, 2)):
                return
            if card[6] == 2 and card[14] > side.content.day(now) and button >= 2:
                self.early(name, number, button, spent)
                return
            self.go_home(name, [number])
            begun = side.after(self.morning(name), now)
        review = side.free("reviews", now)
        own, before, after = self.lab.do_by_law(name, "answer", "answer %d %d %d" % (number, button, spent))
        old, new = begun.row("cards", number), after.row("cards", number)
        expect("an answer", own, ["answered queue %d due %d ivl %d" % (new[7], new[8], new[9])])
        deck = begun.row("decks", old[2])
        group = deck and begun.row("options", deck["conf"]) or begun.row("options", 1)
        made = after.row("reviews", review)
        expect("the review of an answer", made and [*made[:4], *made[6:]],
               [review, number, 0, button, new[10], min(spent, 1000 * (group["maxTaken"] if group else 60)), {0: 0, 1: 0, 2: 1, 3: 2}[old[6]]])
        expect("reviews that came", len(after.table("reviews")) - len(before.table("reviews")), 1)
        expect("answers of the card", new[11], old[11] + 1)
        expect("what an answer leaves of the card", [new[n] for n in (0, 1, 2, 3, 14, 15, 16, 17)], [old[n] for n in (0, 1, 2, 3, 14, 15, 16, 17)])
        for it, row in after.table("cards").items():
            if it != number:
                was = begun.row("cards", it)
                expect("another card", row[8:] == was[8:] and (row[7] == was[7] or row[7] == -2 and row[1] == old[1]), True)

    def early(self, name, number, button, spent):
        """An early answer, of which the rules say all."""
        side, now = self.lab.devices[name], self.lab.now(name)
        card, day, review = side.content.row("cards", number), side.content.day(now), side.free("reviews", now)
        home = home_of(side.content, card)
        deck = side.content.row("decks", home[2])
        group = deck and side.content.row("options", deck["conf"]) or side.content.row("options", 1)
        days, factor = early_interval(group, button, card, day), min(100_000, max(1300, card[10] + {2: -150, 3: 0, 4: 150}[button]))
        rows = {("cards", number): changed(home, at8=day + days, at9=days, at10=factor, at11=card[11] + 1),
                ("reviews", review): [review, number, 0, button, days, card[9], factor, min(spent, 1000 * group["maxTaken"]), 3]}
        side.clear(Edit(rows), now)
        self.lab.do(name, "answer", "answer %d %d %d" % (number, button, spent), None, ["answered queue 2 due %d ivl %d" % (day + days, days)])

    # Filtered decks

    def go_home(self, name, cards, always=False):
        """Those of the cards that are away go home, in an edit that comes before that of a line. If none is, there is no such edit, or one that changes nothing."""
        side = self.lab.devices[name]
        rows = {("cards", it): home_of(side.content, side.content.row("cards", it)) for it in cards if side.content.row("cards", it)[15] > 0}
        if rows or always:
            side.clear(Edit(rows), self.lab.now(name))

    def filtered(self):
        """A device, and the ids of its filtered decks."""
        return self.of("decks", lambda number, row: row["dyn"] == 1)

    def a_filter(self):
        name = self.device()
        side, now, rows, path = self.lab.devices[name], self.lab.now(name), {}, self.new_path(self.lab.devices[name])
        number, plan = self.missing(side, now, path, rows), [self.some(sorted(SEARCHES)), self.some((1, 2, 5, 99_999)), self.chance.randint(2, 7)]
        rows["decks", number].update(dyn=1, terms=[plan])
        side.clear(Edit(rows), now)
        self.lab.do(name, "filter", "filter " + dumps(["::".join(path), *plan]), None, ["deck %d" % number])

    def a_build(self):
        name, decks = self.filtered()
        if not decks:
            return
        deck, side = self.some(decks), self.lab.devices[name]
        content = side.content
        search, limit, order = content.row("decks", deck)["terms"][0]
        cards = {it: home_of(content, row) if row[2] == deck else row for it, row in content.table("cards").items()}
        can = [row for row in cards.values() if row[7] in (0, 2) and row[15] == 0 and deck_of(content, row)["dyn"] == 0 and SEARCHES[search](content, row)]
        can.sort(key=lambda row: (*PLACES[order](row), row[0]))
        for place, row in enumerate(can[:limit]):
            cards[row[0]] = changed(row, at2=deck, at8=place - 100_000, at14=row[8], at15=row[2])
        side.clear(Edit({("cards", it): row for it, row in cards.items()}), self.lab.now(name))
        self.lab.do(name, "build", "build %d" % deck, None, ["built %d" % min(limit, len(can))])

    def an_empty(self):
        name, decks = self.filtered()
        if not decks:
            return
        deck = self.some(decks)
        away = [it for it, row in self.lab.devices[name].content.table("cards").items() if row[2] == deck and row[15] > 0]
        self.go_home(name, away, always=True)
        self.lab.do(name, "empty", "empty %d" % deck, None, ["emptied %d" % len(away)])

    def a_next(self):
        name, decks = self.of("decks")
        word = self.some(("next", "counts"))
        own = self.lab.do(name, word, "%s %d" % (word, self.some(decks)), self.morning(name))
        content = self.lab.devices[name].content
        if word == "next":
            card = content.row("cards", int(own[0][5:])) if re.fullmatch(r"card \d+", own[0]) else None
            expect("a next card: %s" % own, own == ["none"] or card is not None and card[7] >= 0, True)
        else:
            told = re.fullmatch(r"new (\d+) learning (\d+) review (\d+)", own[0])
            expect("counts", bool(told) and sum(map(int, told.groups())) <= len(content.table("cards")), True)

    def a_find(self):
        name, cards = self.of("cards")
        content = self.lab.devices[name].content
        note = content.row("cards", self.some(cards))[1] if cards else 5
        text, where = self.some((("", lambda row: True), ("is:suspended", lambda row: row[7] == -1), ("nid:%d" % note, lambda row: row[1] == note),
                                 ("-is:suspended", lambda row: row[7] != -1), ("(dog or cat) deck:french", None), ("tag:noun -is:new", None),
                                 ("flag:3", lambda row: row[16] % 8 == 3)))
        own = self.lab.do(name, "find", "find " + text)
        told = re.fullmatch(r"found (\d+)((?: \d+)*)", own[0])
        ids = [int(it) for it in told.group(2).split()] if told else None
        expect("what is found", ids is not None and len(ids) == int(told.group(1)) and set(ids) <= set(cards), True)
        if where:
            expect("what %s finds" % (text or "no term"), sorted(ids), [it for it in cards if where(content.row("cards", it))])

    def a_page(self):
        name = self.device()
        content = self.lab.devices[name].content
        cards = sorted(it for it, row in content.table("cards").items() if content.row("notes", row[1]) and self.has_page(content, row))
        if cards:
            self.lab.do(name, "page", "page %d %s" % (self.some(cards), self.some(("front", "back"))))

    def has_page(self, content, card):
        held = content.row("types", content.row("notes", card[1])[2])
        names = {it["name"] for it in held["flds"]} | {"FrontSide"}
        if held["type"] == 1 or card[3] >= len(held["tmpls"]):
            return held["type"] == 1
        return set(re.findall(r"\{\{(\w+)\}\}", held["tmpls"][card[3]]["qfmt"] + held["tmpls"][card[3]]["afmt"])) <= names

    def an_undo(self):
        name = self.some(sorted(it for it, side in self.lab.devices.items() if side.steps))
        if name is not None:
            for _ in range(self.chance.randint(1, min(3, len(self.lab.devices[name].steps)))):
                self.lab.undo(name)

    def a_check(self):
        name = self.device()
        self.lab.do(name, "check", "check", None, ["sound"])

    # What the rules call the join's faults: a delete against a new card, and two halves of a note that go

    def a_clash(self):
        if len(self.lab.devices) < 2:
            return
        one, two = self.chance.sample(sorted(self.lab.devices), 2)
        shared = sorted(it for it in self.lab.devices[one].content.table("notes") if self.lab.devices[two].content.row("notes", it))
        if not shared:
            return
        number = self.some(shared)
        content, other = self.lab.devices[one].content, self.lab.devices[two].content
        note, held = other.row("notes", number), other.row("types", other.row("notes", number)[2])
        if held["type"] == 1:
            fields = ["{{c%d::new}} %s" % (self.chance.randint(5, 9), note_fields(note)[0]), *note_fields(note)[1:]]
        else:
            fields = [it or "now" for it in note_fields(note)]
        if len(fields) != len(held["flds"]):
            return
        if self.chance.random() < 0.6 or len(content.cards_of(number)) < 2:
            cards = [("cards", it) for it in content.cards_of(number)]
            self.lab.do(one, "delete", "delete %d" % number, Edit(gone=[("notes", number), *cards]), ["ok"])
            self.lab.do(two, "fields", "fields %d %s" % (number, dumps(fields)), self.edit_note(two, number, fields, note[5].split()), ["ok"])
        else:
            for name, card in zip((one, two), sorted(content.cards_of(number))):
                self.alone(name, card)
        self.lab.sync(one)
        if self.chance.random() < 0.3:
            self.lab.told("cross", "cross %s 0 %s" % (one, two))
            self.lab.sync(one)
        else:
            self.lab.sync(two)

    def alone(self, name, card):
        """Moves a card into a new deck, and drops that."""
        side, rows = self.lab.devices[name], {}
        if side.content.row("cards", card) is None:
            return
        path = ["Alone%d" % self.chance.randint(0, 10**9)]
        number = self.missing(side, self.lab.now(name), path, rows)
        self.lab.do(name, "deck", "deck " + path[0], Edit(rows), ["deck %d" % number])
        self.go_home(name, [card])
        row = side.content.row("cards", card)
        self.lab.do(name, "move", "move %d %d" % (number, card), Edit({("cards", card): changed(row, at2=number)}), ["ok"])
        gone = [("decks", number), ("cards", card)]
        if len(side.content.cards_of(row[1])) == 1 and side.content.row("notes", row[1]):
            gone.append(("notes", row[1]))
        self.lab.do(name, "drop", "drop %d" % number, Edit(gone=gone), ["ok"])

    # Lines that are refused

    def a_refusal(self):
        """A line that is to be refused, and its text; lines that lead to it are given before."""
        ways = [getattr(self, it) for it in dir(self) if it.startswith("refused_")]
        for _ in range(20):
            told = self.some(ways)()
            if told:
                self.lab.refused(*told)
                return True
        return False

    def refused_by_form(self):
        name = self.device()
        of_it = ("sync %s %s", "sync %s ", " sync %s", "SYNC %s", "download %s x", "shift %s x", "shift %s 99999999999999", "review %s 5 0 1", "review %s 5 5 1",
                 "review %s 0 3 1", "review %s 5 3 0", "review %s 5 3 100001", "show %s card", "do %s", "do %s ", "do %s #x", "do %s flag 8 1", "do %s flag 1",
                 "do %s spread 3", "do %s answer 1 5 10", "do %s note 1 1", "do %s allow flag 1 1", "do %s page 1 middle", "do %s delete 9223372036854775808",
                 "do %s undo 1", "lose %s 0", "lose %s 0 Request", "lose %s x reply", "lose %s 0 reply ", "lose %s 9223372036854775808 request", "repeat %s", "repeat %s -1", "repeat %s 0 0",
                 "cross %s 1", "cross %s 1 %s", "replay %s 0 0", "replay %s 0 x 1", "replay %s 0 0 00", "break %s 0", "break %s ")
        alone = ("frobnicate", "count\r", "sync", "upload", "clock", "clock x", "clock -1", "clock 01", "clock %d" % (LAST_CLOCK + 1), "device",
                 "device a-b", "device server", "device abcdefghijklmnopq", "review Z 5 9 1", "show server", "count", "requests", "requests server x", "lose", "repeat", "cross", "replay", "resend", "resend 0", "resend -1 1", "resend 0 1 1", "break")
        return self.some((*alone, *(it.replace("%s", name) for it in of_it))), "bad line"

    def refused_by_name(self):
        name = self.some(("Zz", "a-b", "server", self.device() + "\r"))
        lines = ["sync %s", "upload %s", "download %s", "requests %s", "shift %s 1", "review %s 5 3 1", "do %s check", "lose %s 0 reply", "repeat %s 0", "cross %s 0 Zy", "replay %s 0 0 1",
                 "cross " + self.device() + " 0 %s"]
        if name != "server":
            lines += ["count %s", "show %s cards"] + (["break %s"] if has_breaks(self.lab.anki) else [])
        return self.some(lines) % name, "no device " + name

    def refused_request(self):
        held = len(self.lab.rules.server.log)
        first, count = self.some(((held, 1), (held + 7, 2), (0, held + 1), (max(0, held - 1), 2), (2**63 - 1, 1), (0, 2**63 - 1)))
        if first + count <= held:
            return None
        return self.some(("resend", "replay %s %d" % (self.device(), self.call()))) + " %d %d" % (first, count), "no request %d" % max(first, held)

    def refused_device(self):
        if self.chance.random() < 0.5:
            return "device " + self.device(), "device held"
        number = 0
        while len(self.lab.devices) < 16:
            self.lab.device("many%d" % number)
            number += 1
        return "device onemore", "too many devices"

    def refused_bytes(self):
        if self.chance.random() < 0.1:
            return b"#" * 1_048_577, "long line"
        return self.some((b"sync \xff", b"#\xc3", b"do A find \xe9")), "not text"

    def refused_json(self):
        name, notes = self.filled_notes()
        if not notes:
            return None
        group = dict(self.lab.devices[name].content.row("options", 1))
        number = self.some(notes)
        line, fault = self.some((("tags %d [" % number, 1), ("fields %d x" % number, 1), ("tags %d [1]" % number, 3), ("tags %d {}" % number, 3), ("options {}", 2),
                                 ("options " + dumps({**group, "maxTaken": 86_401}), 4), ("options " + dumps({**group, "name": 5}), 3),
                                 ("type " + dumps({**self.new_type(1, ["A"], ["{{A}}"]), "flds": []}), 4)))
        return "do %s %s" % (name, line), "json fault %d" % fault

    def refused_search(self):
        text, fault, place = self.some((('"abc', 1, 0), ('tag:"a b', 1, 4), ("(dog", 2, 0), ("tag:a ()", 3, 6), ("a )", 3, 2), ("is:due or", 4, 7), ("AND a", 4, 0),
                                        ("is:", 5, 0), ("flag:8", 5, 0), ("prop:ivl>=x", 5, 0), ("\u00e9 nid:1,,2", 5, 3), ("(" * 33 + "a" + ")" * 33, 6, 32)))
        return "do %s find %s" % (self.device(), text), "search fault %d at %d" % (fault, place)

    def refused_no_such(self):
        name = self.device()
        lines = {"note": ("delete %d", "tags %d []", 'fields %d ["a"]'),
                 "card": ("flag 1 %d", "suspend %d", "unsuspend %d", "bury %d", "answer %d 3 1", "move 1 %d", "page %d front"),
                 "type": ('note %d 1 ["a","b"]', "untype %d", "allow untype %d"), "options": ("adopt 1 %d", "unoptions %d", "allow unoptions %d"),
                 "deck": ("next %d", "counts %d", "drop %d", "rename %d x", "adopt %d 1", "move %d 5")}
        what, number = self.some(sorted(lines)), self.some((0, 77, 9_007_199_254_740_992, 9_223_372_036_854_775_807))
        line, what = self.some(lines[what]) % number, "%s %d" % (what, number)
        return "do %s %s" % (name, line), "no such " + what

    def refused_in_use(self):
        name, decks = self.of("decks")
        content = self.lab.devices[name].content
        used = sorted({row[2] for row in content.table("notes").values() if content.row("types", row[2])})
        if used and self.chance.random() < 0.5:
            return "do %s allow untype %d" % (name, used[0]), "in use: type %d" % used[0]
        deck = self.some(decks)
        same = min(it for it, row in content.table("decks").items() if row["name"] == content.row("decks", deck)["name"])
        return "do %s deck %s" % (name, content.row("decks", deck)["name"]), "in use: deck %d" % same

    def refused_count(self):
        name, types = self.of("types")
        number = self.some(types)
        wanted = len(self.lab.devices[name].content.row("types", number)["flds"])
        got = self.some((0, wanted + 1, wanted + 2))
        return "do %s note %d 1 %s" % (name, number, dumps(["x"] * got)), "fields %d, wanted %d" % (got, wanted)

    def refused_default(self):
        name = self.device()
        return "do %s %s" % (name, self.some(("drop 1", "unoptions 1", "allow unoptions 1"))), "default kept"

    def refused_stamp(self):
        name, cards = self.of("cards")
        if not cards:
            return None
        if self.lab.devices[name].shift:
            self.lab.shift(name, 0)
        for it in self.lab.devices:
            if self.lab.devices[it].shift:
                self.lab.shift(it, 0)
        self.lab.set_clock(LAST_CLOCK)
        card = self.some(cards)
        row = self.lab.devices[name].content.row("cards", card)
        flags = [it for it in range(8) if it != row[16] % 8]
        for flag in flags[:2]:
            row = self.lab.devices[name].content.row("cards", card)
            self.lab.do(name, "flag", "flag %d %d" % (flag, card), Edit({("cards", card): changed(row, at16=row[16] - row[16] % 8 + flag)}), ["ok"])
        return "do %s flag %d %d" % (name, flags[2], card), "stamp end"

    def refused_row(self):
        name = self.device()
        lines = [("deck a::::b", 4, 3), ("deck " + "x" * 513, 1, 3), ("deck ::a", 4, 3), ("deck a::", 4, 3)]
        other, notes = self.filled_notes()
        if notes and other == name:
            lines += [("tags %d %s" % (notes[0], dumps(["a b"])), 4, 5), ("tags %d %s" % (notes[0], dumps([""])), 4, 5)]
        if self.lab.devices[name].content.row("types", 2):
            lines += [("note 2 1 " + dumps(["a\x1fb", "c"]), 4, 6), ("note 2 1 " + dumps(["x" * 65_536, ""]), 1, 6)]
        line, fault, column = self.some(lines)
        return "do %s %s" % (name, line), "row fault %d at %d" % (fault, column)

    def refused_template(self):
        name = self.device()
        front, fault, place = self.some((("{{#A}}x", 1, 0), ("x{{#A}}{{#B}}", 1, 1), ("{{#A}}{{/B}}", 2, 6), ("x{{/A}}", 2, 1), ("{{ }}", 3, 0), ("ab{{}}}}", 3, 2),
                                         ("{{#A}}" * 33 + "{{/A}}" * 33, 4, 6 * 32)))
        held = self.new_type(1, ["A", "B"], ["{{A}}"])
        held["tmpls"][0][self.some(("qfmt", "afmt"))] = front
        return "do %s type %s" % (name, dumps(held)), "template fault %d at %d" % (fault, place)

    def refused_page(self):
        name = self.device()
        if self.chance.random() < 0.3:
            return "do %s mute %s" % (name, "hint"), "no filter hint"
        side, now = self.lab.devices[name], self.lab.now(name)
        number, field = side.free("types", now), self.chance.random() < 0.5
        held = self.new_type(number, ["Word"], ["{{Word}}"])
        held["tmpls"][0]["afmt"] = "{{Nope}}" if field else "{{hint:Word}}"
        self.lab.do(name, "type", "type " + dumps({**held, "id": 1}), Edit({("types", number): held}), ["type %d" % number])
        note, card, place = side.free("notes", now), side.free("cards", now), side.content.conf["nextPos"]
        rows = {("cards", card): [card, note, 1, 0, 0, 0, 0, 0, place, *[0] * 8, ""],
                ("notes", note): [note, "%d-0000" % note, number, 0, 0, "", "w", "w", checksum("w"), 0, ""]}
        self.lab.do(name, "note", 'note %d 1 ["w"]' % number, Edit(rows, conf={"nextPos": place + 1}), ["note %d cards %d" % (note, card)])
        return "do %s page %d back" % (name, card), "no field Nope" if field else "no filter hint"

    def refused_answer(self):
        name, cards = self.of("cards", lambda _, row: row[7] == -1 or row[7] >= 0)
        if not cards:
            return None
        card = self.some(cards)
        row = self.lab.devices[name].content.row("cards", card)
        if row[7] >= 0:
            self.lab.do(name, "suspend", "suspend %d" % card, Edit({("cards", card): changed(row, at7=-1)}), ["ok"])
        return "do %s answer %d 3 100" % (name, card), "not answerable: queue -1"

    def refused_filtered(self):
        name, decks = self.of("decks", lambda number, row: row["dyn"] == 0)
        if not decks or not has_filtered(self.lab.anki):
            return None
        line, text = self.some((("build %d" % decks[0], "not filtered: %d" % decks[0]), ("empty %d" % decks[0], "not filtered: %d" % decks[0]), ("build 77", "no such deck 77"),
                                ("empty 77", "no such deck 77"), ('filter ["Q","",0,2]', "bad plan: 0"), ('filter ["Q","",100000,2]', "bad plan: 0"),
                                ('filter ["Q","()",1,1]', "bad plan: 0"), ('filter ["Q","()",1,2]', "search fault 3 at 0"), ('filter ["Q","",1]', "json fault 2"),
                                ('filter ["Q","",1.5,2]', "json fault 3"), ('filter ["Q::","(",0,0]', "row fault 4 at 3")))
        return "do %s %s" % (name, line), text

    def refused_schema(self):
        name, types = self.of("types")
        content = self.lab.devices[name].content
        used = {row[2] for row in content.table("notes").values()}
        free = [it for it in types if it not in used]
        groups = [it for it in content.table("options") if it != 1]
        if groups and self.chance.random() < 0.5:
            return "do %s unoptions %d" % (name, groups[0]), "schema change not allowed"
        if free:
            return "do %s untype %d" % (name, free[0]), "schema change not allowed"
        return None

    def refused_map(self):
        name, types = self.of("types", lambda _, row: row["type"] == 0 and len(row["flds"]) == 2)
        if not types:
            return None
        number = self.some(types)
        held = self.lab.devices[name].content.row("types", number)
        new = self.new_type(number, ["A", "B"], ["{{A}}"])
        fields, templates, place = self.some((([0, 0], [0], 1), ([2, 1], [0], 0), ([0, 1], [len(held["tmpls"])], 2)))
        return "do %s allow retype %s" % (name, dumps([new, fields, templates])), "bad map at %d" % place

    def refused_undo(self):
        name = self.device()
        while self.lab.devices[name].steps:
            if len(self.lab.devices[name].steps) > 4:
                self.lab.sync(name)
            else:
                self.lab.undo(name)
        return "do %s undo" % name, "nothing to undo"


def came_back(card):
    """The queue of a card that is set aside no longer."""
    return {0: 0, 2: 2}.get(card[6], 1 if card[8] > 1_000_000_000 else 3)


WEIGHTS = (("a_device", 2), ("a_clock", 6), ("a_shift", 2), ("a_review", 5), ("a_sync", 16), ("a_way_out", 6), ("a_look", 5), ("a_skipped", 1), ("a_note", 12),
           ("a_change", 6), ("a_tag", 4), ("a_delete", 3), ("a_deck", 4), ("a_rename", 2), ("a_drop", 2), ("a_move", 3), ("a_flag", 3), ("a_suspend", 2),
           ("an_unsuspend", 2), ("a_bury", 3), ("an_adopt", 2), ("an_options", 2), ("an_unoptions", 1), ("a_type", 1), ("a_retype", 2), ("an_untype", 1),
           ("a_spread", 2), ("an_answer", 10), ("a_next", 4), ("a_find", 3), ("a_page", 3), ("an_undo", 4), ("a_check", 3), ("a_clash", 2), ("a_loss", 4), ("a_lost", 2),
           ("a_repeat", 2), ("a_cross", 4), ("a_replay", 3), ("a_resend", 4), ("a_late", 1))
FILTERED = (("a_filter", 4), ("a_build", 9), ("an_empty", 3))
BROKEN = (("a_break", 3),)


def try_script(anki, seed, number, counts):
    """Makes and tries the script of a number: its lines, and what was wrong, if anything."""
    chance = random.Random("%d %d" % (seed, number))
    lab = Lab(anki, chance, counts)
    try:
        maker, refused = Maker(lab, chance), False
        maker.script(chance.randint(20, 100))
        if number % 2:
            refused = maker.a_refusal()
        if not refused:
            lab.finish()
        lab.again(refused)
        return lab.script, None
    except Wrong as fault:
        return lab.script, "Wrong: %s" % fault
    except (OSError, ValueError, LookupError, TypeError, AttributeError) as fault:
        return lab.script, "%s: %s" % (type(fault).__name__, fault)
    finally:
        lab.run.kill()


def table(counts, breaks=True):
    """How often each form, end and refusal came, and why some did not."""
    wanted = [("form", it) for it in FORMS] + [("end", "%s %s" % (word, it)) for word, ends in ENDS.items() for it in ends] + [("crossed", "sync " + it) for it in CROSSED]
    wanted += [("resent", it) for it in RESENT] + [("commit", it) for it in LATE.values()] + [("refusal", it) for it in REFUSALS]
    reasons = UNREACHED if breaks else {**UNREACHED, **dict.fromkeys(BREAKS, "the program has no line that breaks a keeper")}
    for key in sorted(set(counts) - set(wanted)):
        yield "%-8s %-48s %9d" % (*key, counts[key])
    for kind, what in wanted:
        yield ("%-8s %-48s %9d%s" % (kind, what, counts[kind, what], "" if counts[kind, what] else "  " + reasons.get(what, "by chance"))).rstrip()


def main():
    reader = argparse.ArgumentParser(description=__doc__, formatter_class=argparse.RawDescriptionHelpFormatter)
    reader.add_argument("--anki")
    reader.add_argument("--count", type=int, default=1000)
    reader.add_argument("--seed", type=int, default=1)
    reader.add_argument("--first", type=int, default=0)
    reader.add_argument("--step", type=int, default=1)
    reader.add_argument("--seconds", type=float, help="after which no further script is begun")
    reader.add_argument("--keep", help="a folder for the scripts that showed something wrong")
    words = reader.parse_args()
    if words.anki:
        anki = os.path.abspath(words.anki)
    else:
        anki = subprocess.run([os.path.join(TOP, "bin", "anki"), "--program"], stdout=subprocess.PIPE, text=True, check=True).stdout.strip()
    counts, failed, done, lines, began = collections.Counter(), 0, 0, 0, time.monotonic()
    for number in range(words.first, words.count, words.step):
        if words.seconds is not None and time.monotonic() - began > words.seconds:
            break
        script, wrong = try_script(anki, words.seed, number, counts)
        done, lines = done + 1, lines + len(script)
        if wrong:
            failed += 1
            print("script %d of seed %d, line %d: %s" % (number, words.seed, len(script), wrong), flush=True)
            if words.keep:
                os.makedirs(words.keep, exist_ok=True)
                with open(os.path.join(words.keep, "%d-%d.lab" % (words.seed, number)), "wb") as file:
                    file.write(b"".join(it + b"\n" for it in script))
            if failed == 10:
                break
    print("\n".join(table(counts, has_breaks(anki))))
    print("%d scripts, %d lines, %d of them wrong, %.0f s" % (done, lines, failed, time.monotonic() - began))
    return 1 if failed else 0


if __name__ == "__main__":
    sys.exit(main())
