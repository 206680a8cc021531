"""The work that is measured, in plain Python over `sqlite3`: what bench.py compares the program with.

    in_python.py FILE desk              lines `next 1`, `counts 1`, `answer CARD BUTTON MS`, `find EXPRESSION`, `page CARD back` and `check` from the input
    in_python.py FILE rows              reads every row of every table into memory, as the program does when it opens a file
    in_python.py FILE import TYPE DECK  records of CSV from the input
    in_python.py FILE export TYPE       records of CSV to the output
    in_python.py - make SEED SIZE       makes the collection, and does the day of work on it; it does not sync

Statements are prepared once, each commit is one transaction, and the file has the indexes that these statements want. It does less than the program: it trusts
its file and its input, knows one deck, one type's page and the searches of FINDS by heart, schedules reviews alone, and keeps nothing for an undo.
"""
import csv
import hashlib
import json
import re
import sqlite3
import sys
import time

INDEXES = ("create index if not exists cards_nid on cards (nid)", "create index if not exists cards_due on cards (did, queue, due)",
           "create index if not exists cards_queue on cards (queue, due)", "create index if not exists revlog_cid on revlog (cid)",
           "create index if not exists notes_guid on notes (guid)", "create index if not exists notes_mid on notes (mid)")

# A search of the desk, and the same in SQL. `today` and `cutoff` are bound in each.
OF_NOTES = "select cards.id from cards join notes on notes.id = cards.nid where %s order by cards.id"
OF_CARDS = "select id from cards where %s order by id"
FINDS = {
    "deck:Default": OF_CARDS % "did = 1",
    "is:due": OF_CARDS % "queue in (2, 3) and due <= :today or queue = 1 and due <= :cutoff",
    "is:new": OF_CARDS % "type = 0",
    "is:suspended": OF_CARDS % "queue = -1",
    "front 7": OF_NOTES % "flds like '%front%' and flds like '%7%'",
    "Front:front*1": OF_NOTES % "sfld like 'front%1'",
    "Back:back*9": OF_NOTES % "substr(flds, instr(flds, char(31)) + 1) like 'back%9'",
    "note:Basic": OF_NOTES % "mid = 1",
    "card:2 prop:ivl>50": OF_CARDS % "ord = 1 and ivl > 50",
    "rated:30": OF_CARDS % "exists (select 1 from revlog where cid = cards.id and ease between 1 and 4 and revlog.id >= :month)",
    "tag:none -is:due": OF_NOTES % "tags = '' and not (queue in (2, 3) and due <= :today or queue = 1 and due <= :cutoff)",
    "nid:1500000000000": OF_CARDS % "nid = 1500000000000",
}


def connect(path):
    link = sqlite3.connect(path, isolation_level=None, cached_statements=256)
    if path != ":memory:":
        link.execute("pragma journal_mode = wal")
        link.execute("pragma synchronous = full")
    return link


def now_ms():
    return time.time_ns() // 1_000_000


class Desk:
    """A collection, and the lines of a desk over it."""

    def __init__(self, link, clock=now_ms):
        self.link, self.clock = link, clock
        self.crt, decks, dconf, models = link.execute("select crt, decks, dconf, models from col").fetchone()
        self.decks, self.models = json.loads(decks), json.loads(models)
        self.limits = json.loads(dconf)["1"]

    def days(self, moment):
        today = (moment // 1000 - self.crt) // 86400
        cutoff = self.crt + (today + 1) * 86400
        return {"today": today, "cutoff": cutoff, "month": (cutoff - 30 * 86400) * 1000}

    def bound(self, sql, days):
        return self.link.execute(sql, {key: days[key] for key in days if ":" + key in sql})

    def left(self, key, limit, today):
        day, count = self.decks["1"][key]
        return max(0, limit - (count if day == today else 0))

    def next(self):
        days = self.days(self.clock())
        if self.left("revToday", self.limits["rev"]["perDay"], days["today"]):
            found = self.link.execute("select id from cards where did = 1 and queue = 2 and due <= ? order by due, id limit 1", (days["today"],)).fetchone()
            if found:
                return "card %d" % found
        return "none"

    def counts(self):
        days = self.days(self.clock())
        counted = []
        for key, limit, queue, due in (("newToday", self.limits["new"]["perDay"], 0, 1 << 60), ("revToday", self.limits["rev"]["perDay"], 2, days["today"])):
            left = self.left(key, limit, days["today"])
            counted.append(self.link.execute("select count(*) from (select 1 from cards where did = 1 and queue = ? and due <= ? limit ?)", (queue, due, left)).fetchone()[0])
        # Two counts, each over its part of the index: with an `or` of the two all cards of the deck would be gone through.
        learning = self.link.execute("select (select count(*) from cards where did = 1 and queue = 1 and due < ?) + (select count(*) from cards where did = 1 and queue = 3 and due <= ?)",
                                     (self.clock() // 1000 + 1200, days["today"])).fetchone()[0]
        return "new %d learning %d review %d" % (counted[0], learning, counted[1])

    def answer(self, card, button, taken):
        """A review that is answered Hard, Good or Easy, or lapses; its row, its log, the deck's count and the collection's moment, in one transaction."""
        moment = self.clock()
        days = self.days(moment)
        today = days["today"]
        self.link.execute("begin immediate")
        due, ivl, factor, lapses = self.link.execute("select due, ivl, factor, lapses from cards where id = ?", (card,)).fetchone()
        late = max(0, today - due)
        if button == 1:
            after, factor, lapses = 1, max(1300, factor - 200), lapses + 1
        else:
            held = ivl + (late // 4 if button == 2 else late // 2 if button == 3 else late)
            after = max(ivl + 1, held * (1200 if button == 2 else factor) // 1000 * (1300 if button == 4 else 1000) // 1000)
            factor = max(1300, factor + (-150 if button == 2 else 150 if button == 4 else 0))
        after = min(after, 36500)
        self.link.execute("update cards set mod = max(mod + 1, ?), usn = -1, due = ?, ivl = ?, factor = ?, reps = reps + 1, lapses = ? where id = ?",
                          (moment // 1000, today + after, after, factor, lapses, card))
        last = self.link.execute("select max(id) from revlog").fetchone()[0] or 0
        self.link.execute("insert into revlog values (?, ?, -1, ?, ?, ?, ?, ?, 1)", (max(moment, last + 1), card, button, after, ivl, factor, taken))
        deck = self.decks["1"]
        deck["revToday"] = [today, deck["revToday"][1] + 1 if deck["revToday"][0] == today else 1]
        deck["usn"], deck["mod"] = -1, max(deck["mod"] + 1, moment // 1000)
        self.link.execute("update col set decks = ?, mod = max(mod + 1, ?)", (json.dumps(self.decks, separators=(",", ":")), moment))
        self.link.execute("commit")
        return "answered queue 2 due %d ivl %d" % (today + after, after)

    def find(self, expression):
        found = [row[0] for row in self.bound(FINDS[expression], self.days(self.clock()))]
        return " ".join(["found", str(len(found))] + [str(card) for card in found])

    def page(self, card):
        """The back of a card, its front in it."""
        mid, flds, ord_ = self.link.execute("select mid, flds, ord from cards join notes on notes.id = cards.nid where cards.id = ?", (card,)).fetchone()
        model = self.models[str(mid)]
        template = model["tmpls"][ord_]
        fields = dict(zip((field["name"] for field in model["flds"]), flds.split("\x1f")))
        shown = lambda text: re.sub(r"\{\{([^{}]*)\}\}", lambda tag: fields.get(tag.group(1), ""), text)
        fields["FrontSide"] = shown(template["qfmt"])
        return shown(template["afmt"])

    def check(self):
        looks = (("card %d without note", "select min(id) from cards where nid not in (select id from notes)"),
                 ("note %d without card", "select min(id) from notes where id not in (select nid from cards)"),
                 ("note %d without type", "select min(id) from notes where mid not in (%s)" % ",".join(self.models)))
        for text, sql in looks:
            found = self.link.execute(sql).fetchone()[0]
            if found is not None:
                return text % found
        return "sound"

    def obey(self, line):
        word, _, rest = line.partition(" ")
        if word == "next":
            return self.next()
        if word == "counts":
            return self.counts()
        if word == "answer":
            return self.answer(*map(int, rest.split()))
        if word == "find":
            return self.find(rest)
        if word == "page":
            return self.page(int(rest.split()[0]))
        if word == "check":
            return self.check()
        raise SystemExit("no such line: " + line)


def run_desk(path):
    desk = Desk(connect(path))
    for line in sys.stdin:
        print(desk.obey(line.rstrip("\n")))


def run_rows(path):
    """All rows by id, as tuples, and the objects of `col`."""
    link = connect(path)
    held = {table: {row[0]: row for row in link.execute("select * from " + table)} for table in ("notes", "cards", "revlog")}
    held["graves"] = link.execute("select * from graves").fetchall()
    [col] = link.execute("select * from col").fetchall()
    held["col"] = [json.loads(text) for text in col[8:]]
    print(sum(len(rows) for rows in held.values()))


def note_row(note, guid, kind, second, tags, fields):
    plain = re.sub(r"<[^>]*>", "", fields[0])
    check = int(hashlib.sha1(plain.encode()).hexdigest()[:8], 16)
    return note, guid, kind, second, -1, " %s " % " ".join(sorted(set(tags))) if tags else "", "\x1f".join(fields), plain, check, 0, ""


def run_import(path, kind, deck):
    """New notes, each with one card, in one transaction. A guid that is held is left as it is."""
    link = connect(path)
    moment = now_ms()
    link.execute("begin immediate")
    conf, tags = map(json.loads, link.execute("select conf, tags from col").fetchone())
    held = {guid for (guid,) in link.execute("select guid from notes")}
    note = max(moment, (link.execute("select max(id) from notes").fetchone()[0] or 0) + 1)
    card = max(moment, (link.execute("select max(id) from cards").fetchone()[0] or 0) + 1)
    notes, cards, same = [], [], 0
    for guid, words, *fields in csv.reader(sys.stdin):
        if guid in held:
            same += 1
            continue
        held.add(guid)
        words = words.split()
        tags.update(dict.fromkeys(words, -1))
        notes.append(note_row(note + len(notes), guid, int(kind), moment // 1000, words, fields))
        cards.append((card + len(cards), notes[-1][0], int(deck), 0, moment // 1000, -1, 0, 0, conf["nextPos"], 0, 0, 0, 0, 0, 0, 0, 0, ""))
        conf["nextPos"] += 1
    link.executemany("insert into notes values (?,?,?,?,?,?,?,?,?,?,?)", notes)
    link.executemany("insert into cards values (?,?,?,?,?,?,?,?,?,?,?,?,?,?,?,?,?,?)", cards)
    link.execute("update col set conf = ?, tags = ?, mod = max(mod + 1, ?)", (json.dumps(conf), json.dumps(tags), moment))
    link.execute("commit")
    print("added %d updated 0 same %d" % (len(notes), same))


def run_export(path, kind):
    out = csv.writer(sys.stdout, lineterminator="\n")
    for guid, tags, flds in connect(path).execute("select guid, tags, flds from notes where mid = ? order by id", (int(kind),)):
        out.writerow([guid, " ".join(tags.split())] + flds.split("\x1f"))


def run_make(seed, size):
    """The rows of the collection in tables in memory, 180 answers and 12 notes. There is no server here."""
    import made

    link = connect(":memory:")
    link.execute("create table notes (id integer primary key, guid, mid, mod, usn, tags, flds, sfld, csum, flags, data)")
    link.execute("create table cards (id integer primary key, nid, did, ord, mod, usn, type, queue, due, ivl, factor, reps, lapses, left, odue, odid, flags, data)")
    link.execute("create table revlog (id integer primary key, cid, usn, ease, ivl, lastIvl, factor, time, type)")
    link.execute("create table col (crt, mod, decks, dconf, models)")
    deck = {"1": {"mod": 0, "newToday": [0, 0], "revToday": [0, 0], "usn": 0}}
    link.execute("insert into col values (?, 1700000000000, ?, ?, '{}')", (made.CRT, json.dumps(deck), '{"1":{}}'))
    link.execute("begin")
    link.executemany("insert into notes values (?,?,?,?,?,?,?,?,?,?,?)", made.notes_of(seed, size))
    link.executemany("insert into cards values (?,?,?,?,?,?,?,?,?,?,?,?,?,?,?,?,?,?)", made.cards_of(seed, size))
    link.executemany("insert into revlog values (?,?,?,?,?,?,?,?,?)", made.reviews_of(seed, size))
    link.execute("commit")
    words = 2 * size + 11 * made.cards_before(size)
    moments = [0]
    desk = Desk(link, lambda: moments[0])
    answers = min(made.cards_before(size), 180)
    for number in range(answers):
        moments[0] = 1_700_000_001_000 + 1000 * number
        desk.answer(made.FIRST_ID + number, 1 + made.nth_word(seed, words + 2 * number) % 4, 5000)
    for number in range(12):
        note = 1_700_000_200_000 + number
        guid = "%d-%04x" % (note, made.nth_word(seed, words + 2 * answers + number) % 65536)
        link.execute("begin")
        link.execute("insert into notes values (?,?,?,?,?,?,?,?,?,?,?)", note_row(note, guid, 1, note // 1000, [], ["new %d" % (number + 1), "x"]))
        link.execute("insert into cards values (?, ?, 1, 0, ?, -1, 0, 0, ?, 0, 0, 0, 0, 0, 0, 0, 0, '')", (note, note, note // 1000, number + 1))
        link.execute("commit")
    counts = [link.execute("select count(*) from " + table).fetchone()[0] for table in ("notes", "cards", "revlog")]
    print("notes %d cards %d reviews %d" % tuple(counts))


def main(words):
    path, command, *more = words
    if command == "desk":
        run_desk(path)
    elif command == "rows":
        run_rows(path)
    elif command == "import":
        run_import(path, *more)
    elif command == "export":
        run_export(path, *more)
    elif command == "make":
        run_make(int(more[0]), int(more[1]))
    else:
        raise SystemExit(__doc__)


if __name__ == "__main__":
    main(sys.argv[1:])
