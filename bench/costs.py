#!/usr/bin/env python3
"""Measures what each request costs a server, and each long line the desk, over a collection, one of ten times its size and one of a hundred times.

    bench/costs.py [--anki PATH] [--ankid PATH] [--size N] [--runs N] [--seed N] [--room FOLDER] [server|desk]

A size is a collection of so many notes, of those that `anki - - make` would make; tags, decks, graves, and the entries of a line or a body grow with it. The programs are those in dist/, or
those of --anki and --ankid. Each number is the median of the runs, each over files of its own. What a request takes is the server's processor time from when it is asked until the
reply is there; what a line takes is what a process takes that does it, less one that only opens the file. Of each it tells whether it grew from the second size to the third as n log n does, where n is the
bytes that came and went and the rows, decks and tags of the collection; a quarter more may be chance, and a time below a millisecond tells nothing. Those that are known to grow faster are named so, with what
they grow with. The files lie in a folder in FOLDER, which goes at the end.
"""
import argparse
import collections
import json
import math
import os
import shutil
import sqlite3
import statistics
import sys
import tempfile
from unittest import mock

HERE = os.path.dirname(os.path.realpath(__file__))
sys.dont_write_bytecode = True
sys.path.insert(0, HERE)

import bench  # noqa: E402
import made  # noqa: E402
import try_server  # noqa: E402

LEAST = 0.001
CLOZE, FIRST_DECK, FIRST_CARD = 2, 1_400_000_000_000, made.FIRST_ID
# What grows faster than n log n is known to: words for it, and what it grows with.
KNOWN = {"`find` of as many ids": "cards x ids", "`find` of as many terms": "cards x terms", "`rename` of half the decks": "decks outside x decks moved",
         "`drop` of as many filtered decks": "filtered decks x cards"}
# What was measured of one thing: the processor time in seconds, and n.
Cost = collections.namedtuple("Cost", "seconds entries")


# ---- collections
def deck_of(number, name, **more):
    return dict({"conf": 1, "dyn": 0, "id": number, "mod": 1, "name": name, "newToday": [0, 0], "revToday": [0, 0], "usn": 0}, **more)


def decks_of(size):
    """Half of them under one deck, and half beside it."""
    yield deck_of(FIRST_DECK, "D")
    yield from (deck_of(FIRST_DECK + 1 + n, ("D::%d" if n % 2 else "E%d") % n) for n in range(size))


def filtered_of(size):
    yield deck_of(FIRST_DECK, "D")
    yield from (deck_of(FIRST_DECK + 1 + n, "D::%d" % n, dyn=1, terms=[["", 10, 2]]) for n in range(size // 10))


def tags_of(size):
    return {"t%06d" % n: 0 for n in range(size)}


def change(path, size, decks=(), tags=(), front=None, sent=False):
    """Puts more into a collection's file, and gives how many rows, decks, tags and bytes of templates it has then. With `sent` a server may hold it, and it has graves."""
    link = sqlite3.connect(path)
    with link:
        models, held, groups = (json.loads(text) for text in link.execute("select models, decks, dconf from col").fetchone())
        held.update((str(it["id"]), it) for it in decks)
        if front:
            for it in models.values():
                it["tmpls"][0]["qfmt"] = front
        if sent:
            for it in (*models.values(), *held.values(), *groups.values()):
                it["usn"] = 0
            for table in ("notes", "cards", "revlog"):
                link.execute("update %s set usn = 0" % table)
            link.executemany("insert into graves (usn, oid, type) values (0, ?, 1)", ((n,) for n in range(1, size + 1)))
            link.execute("update col set usn = 1")
        link.execute("update col set models = ?, decks = ?, dconf = ?, tags = ?", (*map(json.dumps, (models, held, groups)), json.dumps(dict(tags))))
    rows = sum(link.execute("select count(*) from %s" % table).fetchone()[0] for table in ("notes", "cards", "revlog", "graves"))
    link.close()
    return rows + len(held) + len(tags) + len(json.dumps(models))


def new_file(path, seed, size):
    bench.run([bench.path_of(bench.PROGRAM), path, "-", "init"])
    made.fill(path, seed, size)
    return path


def long_front(size):
    """A front of as many tags as there may be in one."""
    return "{{Front}}" * max(1, size // 4)


# ---- requests
def spent(server):
    """The processor time of a server. Its one thread tells it in nanoseconds, where the system counts them."""
    try:
        with open("/proc/%d/schedstat" % server.process.pid) as file:
            return int(file.read().split()[0]) / 1e9
    except OSError:
        return server.seconds()


class Session:
    """The requests of one sync, an upload or a download, and what each of them cost."""

    def __init__(self, server, number, rows, costs):
        self.server, self.session, self.rows, self.costs, self.step, self.base = server, "%016x" % number, rows, costs, 0, 0
        self.base = self.ask("a meta", "meta", {})["mod"]

    def ask(self, name, method, body):
        """What a request is answered; of several of one name the dearest counts."""
        sent, before = json.dumps(body).encode(), spent(self.server)
        headers = try_server.envelope(self.server.key(), self.session, self.step, self.base)
        status, reply = try_server.ask(self.server.port, "/sync/" + method, sent, headers=headers, seconds=600)
        cost = Cost(spent(self.server) - before, self.rows + len(sent) + len(reply))
        if status != 200:
            raise bench.Wrong("%s was answered %d %s" % (name, status, reply[:100].decode(errors="replace")))
        self.costs[name] = max(cost, self.costs.get(name, cost))
        self.step += 1
        return json.loads(reply)

    def sync(self, size, counts):
        """A whole sync, up to its sanity check. It gives the counts of the server, if those that were sent are others."""
        self.ask("a start, which gives all graves", "start", {"minUsn": 0, "lmod": 0})
        self.ask("250 graves", "applyGraves", {"chunk": {"cards": list(range(10**6, 10**6 + 250)), "decks": [], "notes": []}})
        decks = [deck_of(10**6 + n, "N%d" % n) for n in range(size)]
        self.ask("changes: as many tags and decks, both ways", "applyChanges", {"changes": {"decks": [decks, []], "models": [], "tags": ["n%06d" % n for n in range(size)]}})
        while not self.ask("a chunk", "chunk", {})["done"]:
            pass
        reviews = [[10**6 + n, FIRST_CARD, 0, 3, 10, 5, 2500, 1500, 1] for n in range(250)]
        self.ask("250 reviews", "applyChunk", {"chunk": {"cards": [], "done": True, "notes": [], "revlog": reviews}})
        return self.ask("a sanity check", "sanityCheck2", {"client": counts}).get("s")


def of_server(room, given, size):
    """What each request costs a server over a collection of a size."""
    costs, tools = {}, try_server.Tools(mock.Mock(anki=bench.path_of(bench.PROGRAM), ankid=bench.path_of("ankid")))
    server = try_server.Server(tools, os.path.join(room, "server"))
    rows = change(new_file(server.file(), given.seed, size), size, decks_of(size), tags_of(size), sent=True)
    try:
        server.start()
        # The first one tells the counts, and warms up; its check is bad, so it leaves the collection as it was.
        counts = Session(server, 1, rows, {}).sync(size, [[0, 0, 0]] + [0] * 7)
        last = Session(server, 2, rows, costs)
        if last.sync(size, counts) is not None:
            raise bench.Wrong("the sanity check is bad")
        last.ask("a finish", "finish", {})
        whole = Session(server, 3, rows, costs).ask("a download", "download", {})
        Session(server, 4, rows, costs).ask("an upload", "upload", {key: it for key, it in whole.items() if key not in ("graves", "usn")})
        server.end()
        # The same check, where each note's type is long.
        rows = change(server.file(), size, front=long_front(size))
        server.start()
        checked = {}
        Session(server, 5, rows, checked).sync(size, counts)
        costs["a sanity check with long templates"] = checked["a sanity check"]
        server.end()
    finally:
        tools.end_all()
    return costs


# ---- lines
def ids(numbers):
    return " ".join(map(str, numbers))


def works_of(size):
    """What is measured at the desk: words for it, what its collection has besides, the line, and how its answer begins."""
    cards = [FIRST_CARD + n for n in range(made.cards_before(size))]
    notes = [made.FIRST_ID + n for n in range(size)]
    few = max(1, size // 20)
    yield "`suspend` of each card", {}, "suspend " + ids(cards), "ok"
    yield "`flag` of each card", {}, "flag 1 " + ids(cards), "ok"
    yield "`delete` of each note", {}, "delete " + ids(notes), "ok"
    yield "`tags` of a note, as many", {}, "tags %d %s" % (notes[0], json.dumps(["t%d" % n for n in range(few)], separators=(",", ":"))), "ok"
    yield "`note` with as many clozes", {}, "note %d 1 %s" % (CLOZE, json.dumps(["{{c1::a}}" * (size // 4 + 1), ""], separators=(",", ":"))), "note"
    yield "`note` beside as many tags", {"tags": tags_of(size)}, 'note 1 1 ["a","b"]', "note"
    yield "`page` of as many tags of a template", {"front": long_front(size)}, "page %d front" % FIRST_CARD, "front 0"
    yield "`find` of as many ids", {}, "find cid:" + ",".join(map(str, cards)), "found %d" % len(cards)
    yield "`find` of as many terms", {}, "find " + " or ".join(["is:new"] * few), "found 0"
    yield "`counts` beside as many decks", {"decks": list(decks_of(size))}, "counts 1", "new"
    yield "`rename` of half the decks", {"decks": list(decks_of(size))}, "rename %d F" % FIRST_DECK, "ok"
    yield "`drop` of as many filtered decks", {"decks": list(filtered_of(size))}, "drop %d" % FIRST_DECK, "ok"
    yield "`check`", {}, "check", "sound"
    yield "`check` with long templates", {"front": long_front(size)}, "check", "sound"


def of_desk(room, given, size):
    """What each long line costs the desk over a collection of a size."""
    costs, first = {}, new_file(os.path.join(room, "first.anki"), given.seed, size)
    path = os.path.join(room, "work.anki")
    for name, more, line, wanted in works_of(size):
        took = []
        for said in ([], [line]):
            for part in bench.PARTS:
                if os.path.exists(path + part):
                    os.remove(path + part)
            shutil.copyfile(first, path)
            rows = change(path, size, **more)
            taken, printed = bench.desk_on(path, said)
            took.append(taken)
        if not printed.decode().startswith(wanted):
            raise bench.Wrong("%s: %s, and not %s" % (name, printed[:100].decode(errors="replace"), wanted))
        costs[name] = Cost(bench.less(took[1], took[0]).processor, rows + len(line) + len(printed))
    return costs


# ---- the whole
def measure(given):
    """Of each part that is asked for, each work and each size, the median of the runs."""
    found = collections.defaultdict(lambda: collections.defaultdict(list))
    for _ in range(given.runs):
        for size in given.sizes:
            for part in given.parts:
                room = tempfile.mkdtemp(prefix="anki-costs-", dir=given.room)
                try:
                    for name, cost in PARTS[part](room, given, size).items():
                        found[name][size].append(cost)
                finally:
                    shutil.rmtree(room)
    return {name: [Cost(statistics.median(it.seconds for it in by_size[size]), by_size[size][0].entries) for size in given.sizes] for name, by_size in found.items()}


PARTS = {"server": of_server, "desk": of_desk}


def most_of(before, after):
    """How many times n log n is, from one cost to another."""
    return after.entries * math.log(after.entries) / (before.entries * math.log(before.entries))


def verdict(name, costs):
    """Whether a cost grew as it may from the second size to the third."""
    before, after = costs[1:]
    if before.seconds < LEAST:
        return "not told"
    grew, most = after.seconds / before.seconds, bench.SLACK * most_of(before, after)
    return "%.1f, at most %.1f: %s" % (grew, most, "met" if grew <= most else "known: " + KNOWN[name] if name in KNOWN else "missed")


def text_of(given, found):
    head = ["Made by `bench/costs.py`: milliseconds of processor time at so many notes, on %s." % bench.machine(), "",
            "| what | %s | growth, of n log n |" % " | ".join("{:,}".format(size) for size in given.sizes), "|---|" + "---:|" * len(given.sizes) + "---|"]
    body = ["| %s | %s | %s |" % (name, " | ".join(bench.number_text(it.seconds) for it in costs), verdict(name, costs)) for name, costs in found.items()]
    return "\n".join(head + body) + "\n"


def arguments(words):
    reader = argparse.ArgumentParser(description=__doc__, formatter_class=argparse.RawDescriptionHelpFormatter)
    reader.add_argument("--anki", default=os.environ.get("ANKI_PROGRAM"))
    reader.add_argument("--ankid")
    reader.add_argument("--size", default=200, type=int)
    reader.add_argument("--runs", default=3, type=int)
    reader.add_argument("--seed", default=7, type=int)
    reader.add_argument("--room")
    reader.add_argument("parts", nargs="*", metavar="server|desk")
    given = reader.parse_args(words)
    given.parts = given.parts or list(PARTS)
    if not 1 <= given.size <= 200 or given.runs < 1 or not 0 <= given.seed < made.ALL or any(part not in PARTS for part in given.parts):
        reader.error("the size is 1 to 200 notes, there is at least one run, and the parts are server and desk")
    given.sizes = [given.size * times for times in (1, 10, 100)]
    return given


def main(words):
    given = arguments(words)
    left_out = bench.places(given)
    if "server" in given.parts and "ankid" not in bench.PLACES:
        print("costs.py: %s" % left_out[0], file=sys.stderr)
        return 1
    try:
        found = measure(given)
    except (bench.Wrong, try_server.Wrong) as fault:
        print("costs.py: %s" % fault, file=sys.stderr)
        return 1
    print(text_of(given, found), end="")
    return 1 if any(verdict(name, costs).endswith("missed") for name, costs in found.items()) else 0


if __name__ == "__main__":
    sys.exit(main(sys.argv[1:]))
