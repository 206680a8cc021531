"""What imports and exports of many notes take, beside Python's `csv` and `sqlite3` doing the same work, from the top:

    ANKI_PROGRAM=dist/anki python3 -m tools.tests.measure_csv

20,000 notes of two fields, with tags, quotes and commas, are imported as new, imported again as they are, imported with a field changed in each, and
exported. Each is a process of its own, over a file on the disk of the temporary folder; printed are the least seconds of three runs, from the start of the process
to its end, and the most memory that one took. At the end the two files must hold the same texts of notes and as many cards, and both exports must have the
same bytes. Without ANKI_PROGRAM it ends: no measurement is to build a program first.
"""
import csv
import os
import random
import shutil
import sqlite3
import subprocess
import sys
import tempfile
import time

from front import program as programs

NOTES, RUNS = 20_000, 3

# The same work by Python: prepared statements, one transaction. A record whose guid is held is compared and updated; any other adds a note and a card.
IN_PYTHON = r'''
import csv, hashlib, json, re, sqlite3, sys, time
word, path, kind, deck = sys.argv[1], sys.argv[2], 1, 1
link = sqlite3.connect(path, isolation_level=None)
models, conf, tags, moment = link.execute("select models, conf, tags, mod from col").fetchone()
fields = len(json.loads(models)[str(kind)]["flds"])
if word == "export":
    out = csv.writer(open(1, "w", encoding="utf-8", newline="", closefd=False), lineterminator="\n")
    for guid, held, flds in link.execute("select guid, tags, flds from notes where mid = ? order by id", (kind,)):
        texts = flds.split("\x1f")
        out.writerow([guid, " ".join(held.split())] + (texts + [""] * fields)[:fields])
    sys.exit(0)
csv.field_size_limit(1 << 30)
rows = list(csv.reader(open(0, encoding="utf-8-sig", newline="", closefd=False)))
others = {row[0] for row in link.execute("select guid from notes where mid <> ?", (kind,))}
number = 0
for row in rows:
    if not row:
        continue
    number += 1
    if len(row) != fields + 2 or not row[0] or row[0] in others:
        sys.exit("record %d" % number)
now = time.time_ns() // 1_000_000
second, counts = now // 1000, [0, 0, 0]
conf, tags = json.loads(conf), json.loads(tags)
held = dict(link.execute("select guid, min(id) from notes group by guid"))
used = [{row[0] for row in link.execute(text, (now,))} for text in ("select id from notes where id >= ?", "select id from cards where id >= ?")]
note_id = card_id = now
link.execute("begin")
for row in rows:
    if not row:
        continue
    guid, words, texts = row[0], sorted(set(row[1].split())), row[2:]
    stored, flds = " %s " % " ".join(words) if words else "", "\x1f".join(texts)
    plain = re.sub("<[^>]*>", "", texts[0])
    check = int(hashlib.sha1(plain.encode()).hexdigest()[:8], 16)
    found = held.get(guid)
    if found is not None:
        old = link.execute("select tags, flds, mod from notes where id = ?", (found,)).fetchone()
        if old[:2] == (stored, flds):
            counts[2] += 1
            continue
        link.execute("update notes set tags = ?, flds = ?, sfld = ?, csum = ?, mod = ?, usn = -1 where id = ?", (stored, flds, plain, check, max(second, old[2] + 1), found))
        counts[1] += 1
    else:
        while note_id in used[0]:
            note_id += 1
        while card_id in used[1]:
            card_id += 1
        used[0].add(note_id)
        used[1].add(card_id)
        link.execute("insert into notes values (?, ?, ?, ?, -1, ?, ?, ?, ?, 0, '')", (note_id, guid, kind, second, stored, flds, plain, check))
        link.execute("insert into cards values (?, ?, ?, 0, ?, -1, 0, 0, ?, 0, 0, 0, 0, 0, 0, 0, 0, '')", (card_id, note_id, deck, second, conf["nextPos"]))
        conf["nextPos"] += 1
        held[guid] = note_id
        counts[0] += 1
    for tag in words:
        tags.setdefault(tag, -1)
if counts[0] or counts[1]:
    link.execute("update col set conf = ?, tags = ?, mod = ?", (json.dumps(conf), json.dumps(tags), max(now, moment + 1)))
link.execute("commit")
print("added %d updated %d same %d" % tuple(counts))
'''


def write_tables(first, second):
    """The records as new, and with another back each."""
    chance = random.Random(1)
    words = ["chien", "maison", "manger", "lire", "école", "日本語", "سلام", "dog", "house", "to eat", 'say "hi"', "a, b", "two<br>lines"]
    with open(first, "w", encoding="utf-8", newline="") as one, open(second, "w", encoding="utf-8", newline="") as other:
        outs = [csv.writer(out, lineterminator="\n") for out in (one, other)]
        for place in range(NOTES):
            guid, tags = "g%d" % place, "animal tag%d" % (place % 50)
            front, back = "%s %d %s" % (chance.choice(words), place, chance.choice(words) * 3), chance.choice(words) * 5
            outs[0].writerow([guid, tags, front, back])
            outs[1].writerow([guid, tags, front, back + " again"])


def run(words, given, taken):
    """Runs words with files as input and output, and gives the seconds and the most memory in MB."""
    with open(given, "rb") as source, open(taken, "wb") as sink:
        began = time.perf_counter()
        child = subprocess.Popen(words, stdin=source, stdout=sink)
        _, status, used = os.wait4(child.pid, 0)
        taken_time = time.perf_counter() - began
    if status != 0:
        raise SystemExit("%s ended with status %d" % (words[:5], os.waitstatus_to_exitcode(status)))
    return taken_time, used.ru_maxrss / 1024


class Side:
    """One of the two that are compared: how it imports and exports, and its file."""

    def __init__(self, name, folder, fresh):
        self.name, self.folder, self.file = name, folder, os.path.join(folder, "%s.anki" % name)
        self.fresh, self.rows = fresh, []

    def put(self, held):
        """Puts a whole file in place of the side's own, and takes away what stands beside it."""
        for end in ("", "-wal", "-shm", "-journal"):
            if os.path.exists(self.file + end):
                os.remove(self.file + end)
        shutil.copyfile(held, self.file)

    def words(self, command):
        raise NotImplementedError

    def measure(self, what, command, given, said):
        """One line of the result: the best of the runs, each over the file as it was before."""
        kept, taken, best = self.file + ".before", os.path.join(self.folder, "out"), None
        shutil.copyfile(self.file, kept)
        for _ in range(RUNS):
            self.put(kept)
            got = run(self.words(command), given, taken)
            best = got if best is None else (min(best[0], got[0]), max(best[1], got[1]))
            with open(taken, "rb") as out:
                printed = out.read()
            if said is not None and printed != said:
                raise SystemExit("%s: %s printed %r" % (self.name, what, printed[:200]))
        self.rows.append((what,) + best)
        return printed

    def measure_all(self, first, second):
        self.put(self.fresh)
        self.measure("as new", "import", first, b"added %d updated 0 same 0\n" % NOTES)
        self.measure("the same again", "import", first, b"added 0 updated 0 same %d\n" % NOTES)
        self.measure("another field each", "import", second, b"added 0 updated %d same 0\n" % NOTES)
        return self.measure("export", "export", os.devnull, None)

    def held(self):
        """The texts of the notes, by guid, and the number of cards."""
        link = sqlite3.connect(self.file)
        try:
            return link.execute("select guid, tags, flds from notes order by guid").fetchall(), link.execute("select count(*) from cards").fetchone()
        finally:
            link.close()


class OfProgram(Side):
    program = None

    def words(self, command):
        return programs.words_for(self.program, self.file, command, *(("1", "1") if command == "import" else ("1",)))


class OfPython(Side):
    def words(self, command):
        return [sys.executable, "-c", IN_PYTHON, command, self.file]


def main():
    if not os.environ.get("ANKI_PROGRAM"):
        raise SystemExit("ANKI_PROGRAM must name the program")
    program = programs.find_program()
    with tempfile.TemporaryDirectory(prefix="anki-measure-") as folder:
        first, second, fresh = (os.path.join(folder, name) for name in ("first.csv", "second.csv", "fresh.anki"))
        write_tables(first, second)
        programs.make_collection(program, fresh)
        sides = [OfProgram("anki", folder, fresh), OfPython("python", folder, fresh)]
        sides[0].program = program
        if programs.run_over(program, fresh, "import", "1", "1")[0] == programs.USAGE:
            raise SystemExit("%s is older than the command import" % program)
        exported = [side.measure_all(first, second) for side in sides]
        if exported[0] != exported[1] or sides[0].held() != sides[1].held():
            raise SystemExit("the two sides hold other notes")
        print("%d notes, a file of %.1f MB; the least seconds of %d runs, and the most memory" % (NOTES, os.path.getsize(first) / 1e6, RUNS))
        print("| | anki | Python |\n|---|---|---|")
        for one, other in zip(*(side.rows for side in sides)):
            print("| %s | %.2f s, %.0f MB | %.2f s, %.0f MB |" % (one + other[1:]))


if __name__ == "__main__":
    main()
