#!/usr/bin/env python3
"""Tries `anki` over journals as they are: real processes, real files, real kills. What a file holds is read by deploy/journal_rules.py, which knows the rules alone.

    deploy/try_journal.py [--anki PATH] [--ankid PATH] [--kills N] [--step N] [--first N] [--seconds N] [--page PATH] [TRIAL ...]

Each trial has a folder of its own, which goes afterwards. Without a trial all are done. Each prints what it saw, and `<trial>: passed` or why not. Trials:

    kills     `kill -9` at moments spread over desk sessions, over syncs, and over the opening after either: the file holds what was told as done, or the commit under way too; a third of the kills
              at least come while a run has work to do
    full      a file that may grow by so many bytes, each number in its turn, and a full disk (root: it mounts a small one), then room again
    second    a second program on one file: status 6, and nothing is changed
    cuts      a small journal, cut at each byte: it opens with the first of its commits, or its damage is told with status 16
    bytes     any one byte changed to five others: it opens or says so within a second, no signal ends it, and each payload that is read as another one is told
    taken     what is no journal: a database of SQLite is refused with status 6 and stays; other files, and ones of a byte or none
    wholes    from a journal into SQLite and back, by `upload` and `download` through a server: one content; and the command lines of the page, docs/FILES.md
    faults    each call of the system on the file and its folder fails in its turn (it needs strace), of an init, an opening after a crash, a desk, a sync, an upload and a download: the
              file holds what was printed, or the commit under way too, and goes on

With --step each Nth place of `full`, `cuts`, `bytes` and `faults` is tried, from --first on. A kill leaves what the system holds in memory: what a loss of power leaves is tried over disks in
memory, by the cases of crates/. The status is 1 if a trial saw what it should not.
"""
import argparse
import collections
import contextlib
import fcntl
import json
import os
import random
import resource
import shutil
import signal
import sqlite3
import subprocess
import sys
import tempfile
import time

HERE = os.path.dirname(os.path.realpath(__file__))
sys.dont_write_bytecode = True
sys.path.insert(0, HERE)

import journal_rules as rules  # noqa: E402
from front.names import JOURNAL  # noqa: E402
from try_server import TOP, Device, Server, Tools, Wrong, copy_files, expect, free_port  # noqa: E402

DONE, REFUSED, FILE_FAILED, DAMAGED = 0, 3, 6, 16


class Span(collections.namedtuple("Span", "opened ended")):
    """From when on a run has its file open, and when it has printed all; in seconds from its start."""

    def moment(self, chance, part=1):
        """A moment in it, or in the first part of it."""
        return chance.uniform(self.opened, self.opened + part * (self.ended - self.opened))


class Kept(Device):
    """A device whose collection is kept in a journal."""

    def __init__(self, tools, file, key=""):
        super().__init__(tools, JOURNAL + file, key)
        self.file = file

    def bytes(self):
        return rules.bytes_of(self.file)

    def payloads(self):
        return rules.payloads_in(self.bytes())[0]

    def held(self):
        return rules.read_file(self.file)

    def put(self, data):
        with open(self.file, "wb") as file:
            file.write(data)

    def start(self, *words, **more):
        """A run that goes on meanwhile."""
        ran = subprocess.Popen([self.tools.anki, self.path, *words], stdin=subprocess.PIPE, stdout=subprocess.PIPE, stderr=subprocess.DEVNULL, **more)
        self.tools.started.append(ran)
        return ran

    def give(self, ran, lines):
        """Hands lines to a run, which may have ended."""
        with contextlib.suppress(BrokenPipeError):
            ran.stdin.write("".join(line + "\n" for line in lines).encode())
            ran.stdin.flush()

    def is_open_in(self, ran):
        """Whether a run has the file open. One that has ended has not."""
        folder, path = "/proc/%d/fd" % ran.pid, os.path.realpath(self.file)
        try:
            return any(os.path.realpath(os.path.join(folder, name)) == path for name in os.listdir(folder))
        except OSError:
            return False

    def timed(self, lines, count, *words):
        """A whole run: what it prints, which is so many lines; and after how many seconds it has the file open, and has printed them."""
        began = time.monotonic()
        ran = self.start(*words)
        self.give(ran, lines)
        while not self.is_open_in(ran) and ran.poll() is None:
            time.sleep(0.0002)
        opened = time.monotonic() - began
        printed = [ran.stdout.readline().decode().rstrip("\n") for _ in range(count)]
        ended = time.monotonic() - began
        ran.communicate()
        expect("a whole run of " + " ".join(words[1:]), ran.returncode, DONE)
        return printed, Span(opened, ended)

    def killed_at(self, moment, lines, *words):
        """A run that is killed so many seconds after its start: what it had printed, and whether it had the file open then and had not ended."""
        began = time.monotonic()
        ran = self.start(*words)
        self.give(ran, lines)
        time.sleep(max(0, began + moment - time.monotonic()))
        is_under_way = self.is_open_in(ran) and ran.poll() is None
        ran.kill()
        return ran.communicate()[0].decode(), is_under_way

    def opened(self):
        """Has the program open the file: the status, and what it prints."""
        ran = subprocess.run([self.tools.anki, self.path, "-", "desk"], stdin=subprocess.DEVNULL, stdout=subprocess.PIPE, stderr=subprocess.DEVNULL)
        return ran.returncode, ran.stdout.decode("utf-8", "replace")

    def agrees(self):
        """The program opens the file with the collection that is read here, and leaves its frames and a shut gate."""
        held, payloads = self.held(), self.payloads()
        cards = sum(table == rules.CARD for table, _ in held.rows)
        said = self.desk("check", "find -tag:never")
        expect("check of " + self.file, said[0], "sound")
        expect("cards of " + self.file, int(said[1].split()[1]), cards)
        expect("bytes of " + self.file, self.bytes() == rules.journal_of(payloads), True)


def begun(tools, room, name="one.log", notes=3):
    """A device with a collection in a journal, and its notes and cards."""
    device = Kept(tools, os.path.join(room, name))
    device.begin()
    said = device.desk(*(note("note %d of %s" % (number, name)) for number in range(notes))) if notes else []
    device.notes, device.cards = ([line.split()[place] for line in said] for place in (1, 3))
    return device


def note(text):
    return 'note 1 1 ["%s","back"]' % text


def lines_of_day(chance, device, count):
    """Lines of which each is one commit and prints one line. A flag that a card has, say, would be no change, and no commit."""
    forms = (lambda: note("word %d" % chance.randrange(10**9)), lambda: "answer %s %d 1000" % (chance.choice(device.cards), chance.randint(2, 4)),
             lambda: 'fields %s ["edited %d","back"]' % (chance.choice(device.notes), chance.randrange(10**9)), lambda: "deck D%d" % chance.randrange(10**9))
    return [chance.choice(forms)() for _ in range(count)]


def is_told(line, printed, payload):
    """Whether a payload holds what a line was answered."""
    change, word = json.loads(payload), line.split()[0]
    put = {(table, rules.id_in(table, row)) for table, row in change["put"]}
    if word == "answer":
        return (rules.CARD, int(line.split()[1])) in put and any(table == rules.REVIEW for table, _ in put)
    if word == "note":
        return (rules.NOTE, int(printed.split()[1])) in put
    if word == "deck":
        return (rules.DECK, int(printed.split()[1])) in put
    if word == "fields":
        return (rules.NOTE, int(line.split()[1])) in put
    return (rules.CARD, int(line.split()[2])) in put


def compare_kept(device, before, lines, printed, what):
    """The file has the frames of before, those of each line that was answered, and at most the one under way."""
    after = device.payloads()
    expect(what + ": the frames of before", after[:len(before)] == before, True)
    more = after[len(before):]
    expect(what + ": the commits", len(more), len(printed), len(printed) + 1)
    for line, said, payload in zip(lines, printed, more):
        expect("%s: what was answered to %s is kept" % (what, line), is_told(line, said, payload), True)
    device.held()
    return len(more) - len(printed)


# ---- kills
def try_kills(tools, room):
    chance = random.Random(7)
    kill_desks(tools, room, chance)
    kill_syncs(tools, room, chance)


def expect_within(counts, what):
    """The kills show something only if enough of them came while a run had work to do."""
    if 3 * counts["within a run"] < counts["kills"]:
        raise Wrong("only %d of %d kills of %s came within a run" % (counts["within a run"], counts["kills"], what))


def time_desk(device, chance):
    before, lines = device.payloads(), lines_of_day(chance, device, 8)
    printed, span = device.timed(lines, len(lines), "-", "desk")
    expect("a whole session's commits", compare_kept(device, before, lines, printed, "a whole session"), 0)
    return span


def kill_desks(tools, room, chance):
    device, counts = begun(tools, room), collections.Counter()
    while counts["kills"] < tools.words.kills:
        # The file grows, so that it takes longer to open it.
        if counts["kills"] % 50 == 0:
            span = time_desk(device, chance)
        before, lines = device.payloads(), lines_of_day(chance, device, 8)
        # In every second session most likely while it opens the file.
        said, is_under_way = device.killed_at(span.moment(chance, 0.2 if counts["kills"] % 2 else 1), lines, "-", "desk")
        printed = said.split("\n")[:-1]
        under_way = compare_kept(device, before, lines, printed, "kill %d" % counts["kills"])
        counts["kills"] += 1
        counts["within a run"] += is_under_way and len(printed) < len(lines)
        counts["with the commit under way"] += under_way
        counts["answered lines"] += len(printed)
        counts["left more than frames and a gate"] += device.bytes() != rules.journal_of(device.payloads())
        counts["before any answer"] += not printed
        # The others are opened by the next session, which is killed too.
        if counts["kills"] % 3 == 0:
            device.agrees()
    device.agrees()
    expect_within(counts, "desks")
    print("%d kills of desks (the last whole session of 8 lines had its file open from %.3f to %.3f s), %d of them within a run: %d lines were answered, and %d times none; each was kept, and %d times the commit "
          "under way too; %d times bytes stood behind the gate; %d commits in the end"
          % (counts["kills"], *span, counts["within a run"], counts["answered lines"], counts["before any answer"], counts["with the commit under way"], counts["left more than frames and a gate"],
             len(device.payloads())))


def linked(tools, room):
    """A server, a device with a journal that began its account, and one with SQLite in step with it."""
    os.makedirs(room, exist_ok=True)
    server = Server(tools, os.path.join(room, "server"))
    server.start()
    device = begun(tools, room, "synced.log")
    other = Device(tools, os.path.join(room, "other.anki"), server.key())
    device.key = server.key()
    device.upload(server.port)
    other.begin()
    other.download(server.port)
    other.file = other.path
    return server, device, other


def time_sync(server, device):
    device.finish(server.port)
    device.desk(note("one more"))
    printed, span = device.timed([], 1, "127.0.0.1:%d" % server.port, "sync", device.key)
    expect("a whole sync", printed, ["finished"])
    return span


def kill_syncs(tools, room, chance):
    server, device, other = linked(tools, room)
    counts = collections.Counter()
    while counts["kills"] < tools.words.kills // 2:
        if counts["kills"] % 50 == 0:
            span = time_sync(server, device)
        device.desk(*lines_of_day(chance, device, 2))
        other.desk(note("of the other %d" % counts["kills"]))
        other.finish(server.port)
        before, old = device.held(), device.payloads()
        word = "download" if counts["kills"] % 4 == 3 else "sync"
        said, is_under_way = device.killed_at(span.moment(chance), [], "127.0.0.1:%d" % server.port, word, device.key)
        said = said.strip()
        counts["kills"] += 1
        counts["within a run"] += is_under_way and not said
        counts[said or "nothing printed"] += 1
        expect("the frames of before", device.payloads()[:len(old)] == old, True)
        held = device.held()
        joined = held.content() == rules.of_sqlite(server.file()).content()
        expect("kill %d of a %s, which printed %s: as before, or as the server" % (counts["kills"], word, said or "nothing"), held == before or joined, True)
        if said in ("finished", "no changes"):
            expect("what was told as done", joined, True)
        counts["joined"] += held != before
        if counts["kills"] % 3 == 0:
            device.finish(server.port)
            expect("one content", device.held().content() == rules.of_sqlite(server.file()).content(), True)
    device.finish(server.port)
    device.agrees()
    server.end()
    expect_within(counts, "syncs and downloads")
    print("%d kills of syncs and downloads (the last whole sync had its file open from %.3f to %.3f s), %d of them within a run: %d left the device as the server, the others as it was; of those %d printed nothing"
          % (counts["kills"], *span, counts["within a run"], counts["joined"], counts["nothing printed"]))


# ---- a full disk
def limited(size):
    """What a process does before it begins, so that no file of its becomes longer than this: a write past it is refused, and no signal comes."""
    def begin():
        signal.signal(signal.SIGXFSZ, signal.SIG_IGN)
        resource.setrlimit(resource.RLIMIT_FSIZE, (size, resource.RLIM_INFINITY))

    return begin


def try_full(tools, room):
    for what, begin in (("an init", lambda: Kept(tools, os.path.join(room, "new.log"))), ("a line of a desk", lambda: begun(tools, room))):
        grow_by_each(tools, what, begin())
    on_full_disk(tools, room)


def grow_by_each(tools, what, device):
    """A run whose file may grow by each number of bytes in its turn, and one with room after each."""
    start = device.bytes() if os.path.exists(device.file) else b""
    words, given = (["init"], b"") if not start else (["desk"], note("one more").encode() + b"\n")
    before, counts, by = rules.payloads_in(start)[0], collections.Counter(), tools.words.first
    while counts["done"] == 0:
        device.put(start)
        ran = subprocess.run([tools.anki, device.path, "-", *words], input=given, stdout=subprocess.PIPE, stderr=subprocess.DEVNULL, preexec_fn=limited(len(start) + by))
        what_now = "%s with room for %d bytes" % (what, by)
        expect(what_now + ": the status", ran.returncode, DONE, FILE_FAILED)
        expect(what_now + ": what is printed", bool(ran.stdout), ran.returncode == DONE and words != ["init"])
        after = device.payloads()
        expect(what_now + ": the frames of before", after[:len(before)] == before, True)
        expect(what_now + ": one commit at most", len(after) - len(before), *((1,) if ran.returncode == DONE else (0, 1)))
        counts["done" if ran.returncode == DONE else "refused"] += 1
        counts["left bytes behind the gate"] += device.bytes() != rules.journal_of(after)
        # With room again it goes on.
        again = subprocess.run([tools.anki, device.path, "-", *words], input=given, stdout=subprocess.PIPE, stderr=subprocess.DEVNULL)
        expect(what_now + ", then with room", again.returncode, DONE, *((REFUSED,) if words == ["init"] and len(after) > len(before) else ()))
        expect(what_now + ", then with room: the commits", len(device.payloads()), max(len(after), len(before) + 1) if words == ["init"] else len(after) + 1)
        device.agrees()
        by += tools.words.step if ran.returncode != DONE else 1
    print("%s: refused %d times with status 6 by a limit of the file's size, %d of which left bytes behind the gate, and done with room for %d bytes; with room it went on each time"
          % (what, counts["refused"], counts["left bytes behind the gate"], by - 1))


def on_full_disk(tools, room):
    disk = os.path.join(room, "disk")
    os.mkdir(disk)
    if subprocess.run(["mount", "-t", "tmpfs", "-o", "size=256k", "tmpfs", disk], stderr=subprocess.DEVNULL).returncode != 0:
        print("a full disk: not tried, since no disk can be mounted here")
        return
    try:
        device = begun(tools, disk)
        filler, chance = os.path.join(disk, "filler"), random.Random(7)
        for turn in range(5):
            fill_disk(filler)
            before, lines = device.payloads(), [note("long %d %s" % (number, "x" * 300)) for number in range(40)]
            ran = device.run("-", "desk", given="".join(line + "\n" for line in lines))
            expect("a desk on a full disk", ran.returncode, FILE_FAILED)
            compare_kept(device, before, lines, ran.stdout.split("\n")[:-1], "a desk on a full disk")
            os.remove(filler)
            before, lines = device.payloads(), lines_of_day(chance, device, 3)
            compare_kept(device, before, lines, device.desk(*lines), "with room again")
            device.agrees()
        print("a full disk: five desks ended with 6, what they had printed was held, and with room again the file went on, to %d commits" % len(device.payloads()))
    finally:
        subprocess.run(["umount", disk])


def fill_disk(path):
    with open(path, "wb", buffering=0) as file:
        with contextlib.suppress(OSError):
            while file.write(b"x" * 512):
                pass


# ---- a second program
def try_second(tools, room):
    device = begun(tools, room)
    first = device.start("-", "desk")
    first.stdin.write(b"check\n")
    first.stdin.flush()
    expect("the first program", first.stdout.readline(), b"sound\n")
    before = device.bytes()
    for words in (("-", "desk"), ("-", "init"), ("-", "export", "1"), ("-", "lab"), ("127.0.0.1:1", "sync", "0" * 32), ("-", "nothing")):
        ran = device.run(*words, given="deck Two\n")
        expect("a second program, %s" % (words,), (ran.returncode, ran.stdout), (FILE_FAILED, ""))
        expect("the bytes beside a second program", device.bytes() == before, True)
    first.stdin.write(b"deck Three\n")
    first.stdin.flush()
    expect("the first goes on", first.stdout.readline()[:5], b"deck ")
    first.stdin.close()
    expect("the first ends", first.wait(timeout=60), DONE)
    first.stdout.close()
    with open(device.file, "rb+") as file:
        fcntl.flock(file, fcntl.LOCK_EX)
        expect("a file that another program locked", device.opened(), (FILE_FAILED, ""))
    device.agrees()
    print("six commands beside an open desk ended with status 6 and printed nothing; no byte was changed, and the first went on")


# ---- cuts and changed bytes
def small(tools, room):
    """A small journal as the program writes one, and the payloads in it."""
    device = begun(tools, room, notes=0)
    card = device.desk('note 1 1 ["dog","der Hund"]')[0].split()[3]
    device.desk("answer %s 3 5000" % card, "flag 1 %s" % card)
    return device, device.bytes()


def foretold(data):
    """What opening these bytes should give by the rules: the status, what is printed, and the payloads."""
    try:
        payloads = rules.payloads_in(data)[0]
        held = rules.fold(payloads)
    except rules.Damaged as fault:
        return DAMAGED, "%s\n" % fault, None
    return (DONE, "", payloads) if held.head is not None else (REFUSED, "no collection\n", payloads)


def open_as_foretold(device, data, what, longest=None):
    """Opens these bytes, which must end as is foretold, in at most so many seconds; gives the payloads, or None."""
    status, printed, payloads = foretold(data)
    for turn in (1, 2, 3):
        device.put(data)
        began = time.monotonic()
        got = device.opened()
        # On a machine with other work a run may wait: the best of three counts.
        if longest is None or time.monotonic() - began <= longest:
            break
        if turn == 3:
            raise Wrong("%s: it took over %g s" % (what, longest))
    expect(what, got, (status, printed))
    left = device.bytes()
    expect(what + ": what is left", left == (data if payloads is None else rules.journal_of(payloads)), True)
    return payloads


def try_cuts(tools, room):
    device, whole = small(tools, room)
    all_of, counts = rules.payloads_in(whole)[0], collections.Counter()
    ends = {*range(rules.HEAD + 1), *range(len(whole) - rules.HEAD, len(whole) + 1)}
    for size in sorted(ends.union(range(tools.words.first, len(whole) + 1, tools.words.step))):
        payloads = open_as_foretold(device, whole[:size], "cut to %d bytes" % size)
        if payloads is None:
            counts["damaged"] += 1
        else:
            expect("cut to %d bytes: the first commits" % size, payloads == all_of[:len(payloads)], True)
            counts["opens with %d commits" % len(payloads)] += 1
    print("a journal of %d commits and %d bytes, cut at %d places: %s" % (len(all_of), len(whole), sum(counts.values()), told(counts)))


def told(counts):
    return ", ".join("%s %d times" % it for it in sorted(counts.items()))


def try_bytes(tools, room):
    device, whole = small(tools, room)
    tiny = Kept(tools, os.path.join(room, "tiny.log"))
    for what, it, data in (("the journal of 58 bytes", tiny, rules.journal_of([b'{"all":false,"cut":[[2,7]],"head":null,"put":[]}'])), ("a small journal", device, whole)):
        change_each(tools, what, it, data)


def others_of(byte):
    """Other values for a byte: its neighbour, both ends, the gate's, and its first bit turned."""
    return sorted({byte ^ 1, 0, 1, 255, byte ^ 128} - {byte})


def change_each(tools, what, device, whole):
    all_of, counts, example = rules.payloads_in(whole)[0], collections.Counter(), None
    for place in range(tools.words.first, len(whole), tools.words.step):
        for value in others_of(whole[place]):
            data = whole[:place] + bytes([value]) + whole[place + 1:]
            payloads = open_as_foretold(device, data, "%s, byte %d changed to %d" % (what, place, value), tools.words.seconds)
            if payloads is None:
                counts["damage is told"] += 1
            elif payloads == all_of[:len(payloads)]:
                counts["it opens with the first commits"] += 1
            else:
                counts["a payload is read as another one"] += 1
                example = example or (place, whole[place], value, another(all_of, payloads))
    print("%s of %d bytes, changed %d times: %s" % (what, len(whole), sum(counts.values()), told(counts)))
    if example:
        print("the first that is read as another: byte %d, %r in place of %r: %s" % (example[0], chr(example[2]), chr(example[1]), example[3]))


def another(wanted, got):
    """Where two lists of payloads first differ."""
    one, other = next((one, other) for one, other in zip(wanted, got) if one != other)
    place = next(place for place, (a, b) in enumerate(zip(one, other)) if a != b)
    return "%s was %s" % tuple(it[max(0, place - 20):place + 20].decode("utf-8", "replace") for it in (other, one))


# ---- what is no journal
def try_taken(tools, room):
    device = Kept(tools, os.path.join(room, "taken"))
    learner = Device(tools, os.path.join(room, "learner.anki"), "")
    learner.begin()
    learner.desk(note("years of work"))
    database = rules.bytes_of(learner.path)
    for what, data in (("a database of SQLite", database), ("the first 15 bytes of one", database[:15]), ("a database with a changed byte", database[:40] + b"\xff" + database[41:])):
        for words in (("-", "desk"), ("-", "init"), ("-", "lab"), ("127.0.0.1:1", "download", "0" * 32), ("-", "nothing")):
            device.put(data)
            ran = device.run(*words)
            expect("%s, %s" % (what, words), (ran.returncode, ran.stdout), (FILE_FAILED, ""))
            expect("%s, %s: its bytes" % (what, words), device.bytes() == data, True)
    # With its log beside it, as after a kill.
    shutil.copyfile(learner.path, device.file)
    with open(device.file + "-wal", "wb") as file:
        file.write(b"log")
    expect("a database with a log", (device.opened(), device.bytes() == database), ((FILE_FAILED, ""), True))
    os.remove(device.file + "-wal")
    for data in (b"", b"\0", b"\1", b"\0" * 30, b"\1\0\0\0\0\0\0\0", b"\2", b"text\n", database[:14], b"PK\3\4" + b"\0" * 60):
        open_as_foretold(device, data, "the bytes %r" % data[:16])
        expect("the bytes %r: what is left" % data[:16], device.bytes(), b"\0")
    for path in (os.path.join(room, "none", "file"), room):
        expect("a file that can't be opened", Kept(tools, path).opened(), (FILE_FAILED, ""))
    script = Kept(tools, device.file)
    script.tools = argparse.Namespace(anki=os.path.join(TOP, "bin", "anki"))
    for data in (b"\2", b"text\n", database):
        device.put(data)
        expect("bin/anki over %r" % data[:6], (script.opened(), device.bytes() == data), ((FILE_FAILED, ""), True))
    print("a database of SQLite was refused with status 6 by each of five commands, and stayed byte for byte; the program itself takes other files for empty journals and cuts them to one byte, "
          "and bin/anki refuses those whose first byte is above 1")


# ---- from one to the other
def try_wholes(tools, room):
    server, device, other = linked(tools, room)
    expect("one content", device.held().content() == rules.of_sqlite(other.path).content() == rules.of_sqlite(server.file()).content(), True)
    expect("rows and numbers after a download", rules.of_sqlite(other.path).rows == rules.of_sqlite(server.file()).rows, True)
    held = device.held()
    for turn in range(3):
        device.day(turn, 8)
        expect("a sync of the journal", device.finish(server.port), "finished")
        expect("a sync of SQLite", other.finish(server.port), "finished")
        other.day(turn + 10, 5)
        other.upload(server.port)
        device.download(server.port)
        expect("one content, turn %d" % turn, device.held().content() == rules.of_sqlite(other.path).content(), True)
        expect("rows and numbers of a journal after a download", device.held().rows == rules.of_sqlite(server.file()).rows, True)
        device.agrees()
    expect("the journal was changed", device.held() == held, False)
    server.end()
    print("from a journal into SQLite and back three times through a server: one content, of %d rows; the journal has %d commits and %d bytes"
          % (len(device.held().rows), len(device.payloads()), len(device.bytes())))
    run_page(tools, os.path.join(room, "page"))


def page_lines(path):
    """The command lines of a page that lead from one to the other."""
    from tools.pages import blocks_under

    return [line for block in blocks_under(path, "From a file to a journal, and back") for line in block]


def run_page(tools, room):
    """Does what the page says, over the programs that are tried, at a port of its own."""
    os.makedirs(os.path.join(room, "bin"))
    for name, program in (("anki", tools.anki), ("ankid", tools.ankid)):
        path = os.path.join(room, "bin", name)
        with open(path, "w") as file:
            file.write('#!/bin/sh\ncase $1 in new-account) exec "%s/bin/ankid" "$@" ;; esac\nexec "%s" "$@"\n' % (TOP, program))
        os.chmod(path, 0o755)
    one = Device(tools, os.path.join(room, "my.anki"), "")
    one.begin()
    one.day(1, 4)
    lines = page_lines(os.path.abspath(tools.words.page))
    text = "set -e\n" + "\n".join(lines).replace("27701", str(free_port())) + "\n"
    ran = subprocess.run(["sh", "-c", text], cwd=room, stdout=subprocess.PIPE, stderr=subprocess.PIPE, text=True, timeout=120)
    expect("the page's lines: %s" % ran.stderr[-300:], (ran.returncode, ran.stdout.count("finished")), (0, 2))
    made = Kept(tools, os.path.join(room, "my.log"))
    expect("the page's journal", made.held().content() == rules.of_sqlite(one.path).content(), True)
    made.agrees()
    print("the %d command lines of the page made a journal with the content of the file" % len(lines))


# ---- faults of the system
FAULTS = {"openat": ("EACCES", "EIO"), "flock": ("EAGAIN", "ENOLCK"), "fstat": ("EIO",), "newfstatat": ("EIO",), "statx": ("EIO",), "pread64": ("EIO", "EINTR"), "pwrite64": ("EIO", "ENOSPC", "EINTR"),
          "ftruncate": ("EIO", "ENOSPC", "EINTR"), "fdatasync": ("EIO", "ENOSPC"), "fsync": ("EIO", "ENOSPC"), "readlink": ("EIO",)}


class Faulted:
    """A run over a journal that is made again with each call of the system on it, or on its folder, failing: this call, or it and all later ones of its name."""

    def __init__(self, device, name, words, lines=()):
        self.device, self.name, self.words, self.lines = device, name, words, lines
        self.start = device.bytes() if os.path.exists(device.file) else None
        self.before = rules.payloads_in(self.start or b"")[0]

    def run(self, inject=None):
        """The run under strace from the same file on: its status and the lines that it printed."""
        if self.start is None:
            with contextlib.suppress(FileNotFoundError):
                os.remove(self.device.file)
        else:
            self.device.put(self.start)
        self.report = self.device.file + ".report"
        paths = ["-P", self.device.file, "-P", os.path.dirname(self.device.file)]
        words = ["strace", "-f", "-qq", "-o", self.report, *paths, "-e", "trace=" + ",".join(FAULTS), *(["-e", "inject=" + inject] if inject else [])]
        given = "".join(line + "\n" for line in self.lines)
        ran = subprocess.run([*words, self.device.tools.anki, self.device.path, *self.words], input=given, stdout=subprocess.PIPE, stderr=subprocess.PIPE, text=True, timeout=120)
        return ran.returncode, ran.stdout.split("\n")[:-1]

    def faults(self):
        """Each fault of each call of a whole run."""
        status, _ = self.run()
        expect("a whole run of " + self.name, status, DONE)
        with open(self.report) as file:
            names = [line.split(None, 1)[1].split("(", 1)[0] for line in file if "(" in line and "resumed>" not in line]
        calls = collections.Counter(it for it in names if it in FAULTS)
        expect("calls that were seen", bool(calls["pwrite64"] and calls["fdatasync"]), True)
        every = ["%s:error=%s:when=%d%s" % (call, error, number, onward) for call, count in sorted(calls.items()) for error in FAULTS[call]
                 for number in range(1, count + 1) for onward in ("", "+")[:1 if error == "EINTR" else 2]]
        return every[self.device.tools.words.first::self.device.tools.words.step]

    def tried(self, commits):
        """Makes each try. `commits` tells how many commits a run of this end has made at least; at most one more is held."""
        ends = collections.Counter()
        for fault in self.faults():
            status, printed = self.run(fault)
            what = "%s, %s" % (self.name, fault)
            expect(what + ": the status", status, DONE, FILE_FAILED)
            if ":error=EINTR" in fault:
                expect(what + ": a call that a signal interrupts is made again", status, DONE)
            after = self.device.payloads() if os.path.exists(self.device.file) else []
            expect(what + ": the frames of before", after[:len(self.before)] == self.before, True)
            done = commits(status, printed)
            expect(what + ": the commits", len(after) - len(self.before), done, *((done + 1,) if status != DONE else ()))
            self.look(what, after)
            ends["status %d%s" % (status, ", with the commit under way" if len(after) - len(self.before) > done else "")] += 1
        print("%s: %d tries: %s" % (self.name, sum(ends.values()), told(ends)))

    def look(self, what, after):
        """With no fault it goes on."""
        if after:
            self.device.agrees()
        else:
            expect(what + ", then without a fault", self.device.run("-", "init").returncode, DONE)


class FaultedSync(Faulted):
    """A sync, an upload or a download of a device, whose server begins each time with the same file."""

    def __init__(self, server, device, word):
        super().__init__(device, word, ["127.0.0.1:%d" % server.port, word, device.key])
        self.server, self.kept = server, server.file() + ".kept"
        server.end()
        copy_files(server.file(), self.kept)

    def run(self, inject=None):
        if self.server.process.poll() is None:
            self.server.end()
        copy_files(self.kept, self.server.file())
        self.server.start()
        return super().run(inject)

    def look(self, what, after):
        held, there = self.device.held(), rules.of_sqlite(self.server.file())
        expect(what + ": as before, or what the server has", held == rules.fold(self.before) or held.content() == there.content(), True)
        again = self.device.run(*self.words) if self.name != "sync" else None
        expect(what + ", then without a fault", again.stdout if again else self.device.finish(self.server.port) + "\n", "finished\n", "no changes\n")
        expect(what + ": one content", self.device.held().content() == rules.of_sqlite(self.server.file()).content(), True)


def try_faults(tools, room):
    if not shutil.which("strace"):
        print("not tried: there is no strace here")
        return
    alone = os.path.join(room, "alone")
    os.mkdir(alone)
    Faulted(Kept(tools, os.path.join(alone, "new.log")), "init", ["-", "init"]).tried(lambda status, printed: status == DONE)
    device = begun(tools, alone)
    lines = ["deck Before", note("one"), "flag 2 %s" % device.cards[0]]
    Faulted(device, "a desk of %d lines" % len(lines), ["-", "desk"], lines).tried(lambda status, printed: len(printed))
    # As a crash in the middle of a commit left it.
    device.put(rules.journal_of(device.payloads()) + (1000).to_bytes(8, "big") + b'{"all":fal')
    Faulted(device, "an opening after a crash", ["-", "desk"], ["check"]).tried(lambda status, printed: 0)
    for word in ("sync", "upload", "download"):
        server, device, other = linked(tools, os.path.join(room, word))
        device.desk(note("of the device"))
        other.desk(note("of the other"))
        expect("a sync of the other", other.finish(server.port), "finished")
        FaultedSync(server, device, word).tried(lambda status, printed: status == DONE)
        server.end()


TRIALS = {"kills": try_kills, "full": try_full, "second": try_second, "cuts": try_cuts, "bytes": try_bytes, "taken": try_taken, "wholes": try_wholes, "faults": try_faults}


def main():
    reader = argparse.ArgumentParser(description=__doc__, formatter_class=argparse.RawDescriptionHelpFormatter)
    reader.add_argument("--anki")
    reader.add_argument("--ankid")
    reader.add_argument("--kills", type=int, default=300)
    reader.add_argument("--step", type=int, default=1)
    reader.add_argument("--first", type=int, default=0)
    reader.add_argument("--seconds", type=float, default=1)
    reader.add_argument("--page", default=os.path.join(TOP, "docs", "FILES.md"))
    reader.add_argument("trials", nargs="*", metavar="TRIAL", choices=[*TRIALS, []])
    words = reader.parse_args()
    tools, failed = Tools(words), 0
    for name in words.trials or TRIALS:
        print("== %s" % name, flush=True)
        room = tempfile.mkdtemp(prefix="journal-trial-")
        began = time.monotonic()
        try:
            TRIALS[name](tools, room)
            print("%s: passed, %.0f s" % (name, time.monotonic() - began), flush=True)
        except (Wrong, rules.Damaged, OSError, subprocess.SubprocessError, sqlite3.Error) as fault:
            failed += 1
            print("%s: FAILED: %s %s" % (name, type(fault).__name__, fault), flush=True)
        finally:
            tools.end_all()
            shutil.rmtree(room, ignore_errors=True)
    return 1 if failed else 0


if __name__ == "__main__":
    sys.exit(main())
