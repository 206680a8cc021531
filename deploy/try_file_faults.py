#!/usr/bin/env python3
"""Lets each call of `anki` and `ankid` that concerns a file fail in its turn, and looks at what is left: real processes, real files.

    deploy/try_file_faults.py [--anki PATH] [--ankid PATH] [--first N] [--step N] [TRIAL ...]

Each trial lists the calls of a run to the system that are about its files: the collection, its log and their folder, the input and the output, the accounts. Then
it makes the run again for each of them by `strace`'s faults: this call fails with EIO, or it and all later ones of its name; what writes, syncs, cuts or opens
fails with ENOSPC too. Each try begins with the same files and the same moment of the clock, which stands still. Trials:

    init        a new collection
    opening     a session that only looks, over a file that was closed in order
    crashed     the same over a file and its log as `kill -9` left them
    desk        a session with notes, answers, tags, a deck, undone edits and a deleted note
    sync, upload, download                                  one of them, the calls failing at the device
    sync-server, upload-server, download-server             the same, at the server; of the last two without the calls before it listens
    full        init, the session, the sync, the upload and the download at the device over limits of a file's size, which cut writes anywhere; and
                over disks of few pages, for who may mount them

After each try the status and the text are documented ones, and no run ended by a signal or went on for 60 s; the stock SQLite opens a copy and finds it whole, and
`anki FILE - desk` finds it sound; what is held is, in all tables, what a whole run cut at a line holds: the last line that was printed, or the one after it. The rest
of the session, without faults, comes to the same end. Of a sync, an upload and a download each side holds what it held or what a whole one leaves, and the next one
without faults brings both to the same content, with nothing lost.

With --step each Nth try is made, from the one numbered by --first, so that several processes can share them. `strace` and a C compiler (`cc`) are needed, the latter
for the few lines of fixed_clock.c. How often each end came is told. The status is 1 if a trial saw what it should not; the try is named then.
"""
import argparse
import collections
import ctypes
import json
import os
import re
import resource
import shutil
import signal
import sqlite3
import subprocess
import sys
import tempfile
import time

HERE = os.path.dirname(os.path.realpath(__file__))
sys.dont_write_bytecode = True
sys.path.insert(0, HERE)

from try_server import Server, Tools, Wrong, copied, copy_files, expect, wait_for_port  # noqa: E402

# Moments of the clocks: of the server's own collection, of `init`, of the session, of what comes after it, and of what comes between device and server.
MADE, BEGUN, MORNING, NOON, MEETING = (1_800_000_000_000 + n for n in (0, 1_000, 60_000, 120_000, 180_000))
# Ids are the least free ones from the moment on. Each line prints one line.
LINES = ('note 1 1 ["one","back"]', 'note 1 1 ["two","back"]', "answer %d 3 1000" % MORNING, 'note 3 1 ["three","back"]', 'tags %d ["a","b"]' % MORNING,
         "deck Two::Three", "undo", "answer %d 4 1000" % (MORNING + 1), 'fields %d ["one","other"]' % MORNING, "delete %d" % (MORNING + 1), "undo",
         "flag 3 %d %d" % (MORNING, MORNING + 2), "deck Four", "spread 1", "check")
ABOUT_PATHS = ("openat", "open", "readlink", "access", "unlink", "unlinkat", "rename", "renameat", "renameat2", "mkdir", "stat", "lstat", "statx", "newfstatat")
WRITE = ("pwrite64", "write", "ftruncate", "fsync", "fdatasync", "fallocate", "openat", "open")
SIDES = ("sync", "upload", "download")
SECONDS = 60


class Clock:
    """The library by which a clock stands still, built in a folder."""

    def __init__(self, room):
        self.library = os.path.join(room, "fixed_clock.so")
        subprocess.run(["cc", "-shared", "-fPIC", "-O2", "-o", self.library, os.path.join(HERE, "fixed_clock.c")], check=True)

    def at(self, moment):
        return {"LD_PRELOAD": self.library, "FIXED_CLOCK": str(moment)}


class Fault(collections.namedtuple("Fault", "call number error onward subject")):
    """The call of this name and number, from 1 in its process, fails with this error, and all later ones of the name too if `onward`."""

    def __str__(self):
        return "%s %d%s %s on %s" % (self.call, self.number, " and on" if self.onward else "", self.error, self.subject)

    def words(self):
        return ["strace", "-o", "/dev/null", "-e", "trace=" + self.call, "-e", "signal=none",
                "-e", "inject=%s:error=%s:when=%d%s" % (self.call, self.error, self.number, "+" if self.onward else "")]


def calls_of(log, room):
    """The calls of a log of `strace -y` that concern a file of a folder: name, number among all of the name, and the file's name."""
    counted, found = collections.Counter(), []
    for line in log.splitlines():
        told = re.match(r"(\w+)\((.*)", line)
        if not told:
            continue
        name, rest = told.groups()
        counted[name] += 1
        path = re.search(r'"([^"]*)"', rest)
        if name in ABOUT_PATHS and path and path.group(1):
            subject = os.path.join(room, path.group(1))
        else:
            held = re.match(r"\d+<([^>]*)>", rest)
            subject = held.group(1) if held else room if name == "getcwd" else ""
        if subject == room or subject.startswith(room + "/"):
            found.append((name, counted[name], os.path.basename(subject)))
    return found


def faults_of(calls):
    """Each fault of each call, one after another."""
    return [Fault(name, number, error, onward, subject) for name, number, subject in calls
            for error in (("EIO", "ENOSPC") if name in WRITE else ("EIO",)) for onward in (False, True)]


class Site:
    """A folder in which programs run at moments that are told, with or without a fault."""

    def __init__(self, tools, words, room):
        self.tools, self.words, self.room = tools, words, room
        self.clock = Clock(room)
        # The files that are looked at stand alone in a folder.
        self.files = os.path.join(room, "files")
        os.mkdir(self.files)
        self.path = self.file("one.anki")

    def file(self, name):
        return os.path.join(self.files, name)

    def under(self, moment, before):
        """A command's words and its environment, whether `strace` comes before it or not."""
        told = self.clock.at(moment)
        if not before:
            return [], dict(os.environ, **told)
        return [*before, *(word for it in told.items() for word in ("-E", "%s=%s" % it))], dict(os.environ)

    def run(self, moment, *words, given="", before=(), limit=None):
        """A run of anki over the file: its status and what it printed."""
        front, environment = self.under(moment, before)
        with open(self.file("input"), "w", encoding="utf-8") as file:
            file.write(given)
        with open(self.file("input"), "rb") as source, open(self.file("output"), "wb") as sink:
            ran = subprocess.run([*front, self.tools.anki, self.path, *words], stdin=source, stdout=sink, stderr=subprocess.PIPE, timeout=SECONDS, env=environment,
                                 preexec_fn=None if limit is None else lambda: limited(limit))
        with open(self.file("output"), encoding="utf-8") as file:
            printed = file.read()
        if ran.returncode < 0 or ran.returncode > 127:
            raise Wrong("it was ended by a signal: %d" % ran.returncode)
        return ran.returncode, printed

    def desk(self, moment, lines, **more):
        return self.run(moment, "-", "desk", given="".join(line + "\n" for line in lines), **more)

    def done(self, moment, *words, **more):
        """A run that is to end well, and what it printed."""
        status, printed = self.run(moment, *words, **more)
        expect("%s, which printed %r" % (" ".join(words[:2]), printed[-200:]), status, 0)
        return printed

    def listed(self, moment, *words, given=""):
        """The calls of a whole run that concern files."""
        log = os.path.join(self.room, "log")
        self.done(moment, *words, given=given, before=["strace", "-y", "-o", log])
        with open(log, encoding="utf-8", errors="replace") as file:
            return calls_of(file.read(), self.files)

    def forget(self):
        for name in (self.path, self.path + "-wal"):
            if os.path.exists(name):
                os.remove(name)

    def chosen(self, tries):
        return tries[self.words.first::self.words.step]


def limited(size):
    """What a process does before a program with a limit of a file's size: a write past it is cut or refused, and no signal comes."""
    signal.signal(signal.SIGXFSZ, signal.SIG_IGN)
    resource.setrlimit(resource.RLIMIT_FSIZE, (size, size))


def has_begun(path):
    """Whether a file has its first byte, which comes last of its header: before that nothing was committed, and the stock SQLite takes it for none of its own."""
    if not os.path.exists(path):
        return False
    with open(path, "rb") as file:
        return file.read(1) == b"S"


def tables(path):
    """All rows of all tables of a copy, after the stock SQLite found it whole; None if nothing was committed yet."""
    if not has_begun(path):
        return None
    with tempfile.TemporaryDirectory(prefix="faults-trial-") as room:
        link = sqlite3.connect(copied(path, room))
        try:
            expect("what the stock SQLite says of %s" % os.path.basename(path), link.execute("pragma integrity_check").fetchall(), [("ok",)])
            names = [it[0] for it in link.execute("select name from sqlite_master where type = 'table' order by name")]
            found = {name: link.execute("select * from %s" % name).fetchall() for name in names}
            return {name: sorted(rows) for name, rows in found.items()} if found.get("col") else None
        finally:
            link.close()


COUNTED = {"notes": 4, "cards": 5, "revlog": 2, "graves": 0}


def content(held):
    """What a sync makes the same on both sides, of all tables."""
    if held is None:
        return None
    found = {name: sorted(row[:at] + row[at + 1:] for row in held[name]) for name, at in COUNTED.items()}
    (row,) = held["col"]
    found["crt"] = row[1]
    conf, models, decks, groups, tags = map(json.loads, row[8:13])
    found["settings"], found["tags"] = conf, sorted(tags)
    for name, rows in (("types", models), ("decks", decks), ("options", groups)):
        found[name] = {key: {**it, "usn": 0} for key, it in rows.items()}
    return found


def told(what, tries, ends):
    print("%s: %d tries: %s" % (what, tries, ", ".join("%s %d times" % it for it in sorted(ends.items()))), flush=True)


def named(fault, work, *words):
    """Does a try, and names it in what went wrong."""
    try:
        return work(fault, *words)
    except (Wrong, OSError, subprocess.SubprocessError, sqlite3.Error, ValueError) as wrong:
        raise Wrong("%s: %s %s" % (fault, type(wrong).__name__, wrong)) from wrong


def statuses(fault):
    """With which a run may end, by what failed."""
    subject = fault.subject if isinstance(fault, Fault) else "limit"
    return {"input": (0, 4), "output": (0, 5), "limit": (0, 5, 6)}.get(subject, (0, 6))


def make_base(site):
    """A collection that was closed in order."""
    site.forget()
    site.done(BEGUN, "-", "init")
    kept = os.path.join(site.room, "base.anki")
    copy_files(site.path, kept)
    return kept


def how_far(what, held, cuts, printed):
    """At which cut a collection stands: that of the lines that were printed, or the next."""
    for upto in range(printed, min(printed + 2, len(cuts))):
        if held == cuts[upto]:
            return upto
    raise Wrong("%s: what is held is what none of %d and %d lines left" % (what, printed, printed + 1))


def rest_of(lines, done):
    """The lines behind the first so many, for a session of their own: without an undo whose edit is not among them."""
    return lines[done + 1:] if lines[done:done + 1] == ("undo",) else lines[done:]


class Session:
    """A session's lines over a collection, and what it holds after none, one, two and so on of them, and then after the rest in another session."""

    def __init__(self, site, base, lines):
        self.site, self.base, self.lines, self.cuts, self.ends = site, base, lines, [], []
        self.again()
        self.printed = site.done(MORNING, "-", "desk", given=self.given(lines))
        expect("lines printed", self.printed.count("\n"), len(lines))
        for upto in range(len(lines) + 1):
            self.again()
            site.done(MORNING, "-", "desk", given=self.given(lines[:upto]))
            self.cuts.append(tables(site.path))
            self.ends.append(self.rest(upto))

    def given(self, lines):
        return "".join(line + "\n" for line in lines)

    def again(self):
        self.site.forget()
        copy_files(self.base, self.site.path)

    def rest(self, done):
        self.site.done(MORNING, "-", "desk", given=self.given(rest_of(self.lines, done)))
        return tables(self.site.path)

    def tried(self, fault, **how):
        """A try of the session: how it ended."""
        self.again()
        status, printed = self.site.desk(MORNING, self.lines, **how)
        expect("the status", status, *statuses(fault))
        expect("the front of what is printed", printed, self.printed[:len(printed)])
        if status == 0:
            expect("what is printed", printed, self.printed)
        done = self.found(printed.count("\n"))
        return "status %d%s" % (status, "" if done == printed.count("\n") else " with the line that was not printed")

    def found(self, printed):
        done = how_far("at once", tables(self.site.path), self.cuts, printed)
        expect("the check", self.site.desk(NOON, ["check"]), (0, "sound\n"))
        expect("what is held after the check", tables(self.site.path) == self.cuts[done], True)
        expect("the end after the rest of the session", self.rest(done) == self.ends[done], True)
        return done


def try_session(site, name, base, lines):
    session = Session(site, base, lines)
    session.again()
    faults = faults_of(site.listed(MORNING, "-", "desk", given=session.given(lines)))
    ends = collections.Counter()
    for fault in site.chosen(faults):
        ends[named(fault, lambda it: session.tried(it, before=it.words()))] += 1
    told(name, sum(ends.values()), ends)


def try_desk(site):
    try_session(site, "desk", make_base(site), LINES)


def try_opening(site):
    base = make_base(site)
    site.done(BEGUN, "-", "desk", given='note 1 1 ["held","back"]\n')
    copy_files(site.path, base)
    try_session(site, "opening", base, ("check",))


def try_crashed(site):
    base = make_base(site)
    _, environment = site.under(BEGUN, ())
    process = subprocess.Popen([site.tools.anki, site.path, "-", "desk"], stdin=subprocess.PIPE, stdout=subprocess.PIPE, env=environment)
    site.tools.started.append(process)
    for number in range(5):
        process.stdin.write(b'note 1 1 ["held %d","back"]\n' % number)
        process.stdin.flush()
        process.stdout.readline()
    process.kill()
    process.wait()
    process.stdout.close()
    try:
        process.stdin.close()
    except BrokenPipeError:
        pass
    copy_files(site.path, base)
    try_session(site, "crashed", base, ("check",))


def try_init(site):
    whole, begin = init_of(site)
    site.forget()
    ends = collections.Counter()
    for fault in site.chosen(faults_of(site.listed(BEGUN, "-", "init"))):
        ends[named(fault, lambda it: begin(it, before=it.words()))] += 1
    told("init", sum(ends.values()), ends)


def init_of(site):
    """What init leaves, and a try of it."""
    site.forget()
    site.done(BEGUN, "-", "init")
    whole = tables(site.path)

    def begin(fault, **how):
        site.forget()
        status, printed = site.run(BEGUN, "-", "init", **how)
        expect("the status", status, *statuses(fault))
        expect("what is printed", printed, "")
        held, begun = tables(site.path), has_begun(site.path)
        expect("nothing or all of it is held", held in (None, whole), True)
        if status == 0:
            expect("all of it is held", held == whole, True)
        expect("the check", site.desk(NOON, ["check"]), (0, "sound\n") if held else (3, "no collection\n"))
        expect("init again", site.run(BEGUN, "-", "init"), (3, "collection held\n") if held else (0, ""))
        expect("what is held then", tables(site.path) == whole, True)
        return "status %d, %s" % (status, "all is held" if held else "nothing is held" if begun else "nothing is held and the header not written")

    return whole, begin


class Pair:
    """A device and a server that were in step, and of which the device worked since; the files of both as each try begins with them."""

    def __init__(self, site):
        self.site = site
        make_base(site)
        self.server = Server(site.tools, os.path.join(site.room, "server"))
        self.key, self.address, self.moment = self.server.key(), "127.0.0.1:%d" % self.server.port, MADE
        with self:
            expect("the first sync", self.meet("sync")[0], 10)
            expect("the first upload", self.meet("upload"), (0, "finished\n"))
        self.moment = MEETING
        site.done(MORNING, "-", "desk", given="".join(line + "\n" for line in LINES))
        # Another device's work is at the server.
        mine, site.path = site.path, site.file("two.anki")
        with self:
            site.done(BEGUN, "-", "init")
            expect("the first download", self.meet("download"), (0, "finished\n"))
            site.done(MORNING + 20_000, "-", "desk", given='note 1 1 ["theirs","back"]\nanswer %d 2 900\ndeck Five\n' % (MORNING + 20_000))
            expect("the other device's sync", self.meet("sync"), (0, "finished\n"))
        site.forget()
        site.path = mine
        self.paths = (site.path, self.server.file())
        for path in self.paths:
            copy_files(path, self.kept(path))
        self.before = [tables(path) for path in self.paths]
        self.ends = {}
        for word in SIDES:
            self.again()
            with self:
                expect("a whole " + word, self.meet(word), (0, "finished\n"))
            self.ends[word] = [tables(path) for path in self.paths]
            expect("contents after a whole " + word, content(self.ends[word][0]) == content(self.ends[word][1]), True)

    def kept(self, path):
        return os.path.join(self.site.room, "kept-" + os.path.basename(path))

    def again(self):
        for path in self.paths:
            for name in (path, path + "-wal"):
                if os.path.exists(name):
                    os.remove(name)
            copy_files(self.kept(path), path)

    def begin(self, before=()):
        """Starts the server; whether it answers."""
        front, environment = self.site.under(self.moment, before)
        words = [*front, self.site.tools.ankid, "--listen", self.address, "--accounts", "accounts.toml"]
        server = self.server
        server.process = subprocess.Popen(words, cwd=server.room, stdin=subprocess.DEVNULL, stdout=subprocess.PIPE, stderr=subprocess.DEVNULL, env=environment)
        server.tools.started.append(server.process)
        if wait_for_port(server.port, server.process) is not None:
            return True
        server.process.wait()
        server.process.stdout.close()
        return False

    def end(self):
        if self.server.process.poll() is None:
            self.server.end()

    def __enter__(self):
        expect("the server answers", self.begin(), True)
        return self

    def __exit__(self, *_):
        self.end()

    def meet(self, word, **how):
        return self.site.run(MEETING, self.address, word, self.key, **how)

    def stands(self, word):
        """Which sides hold what a whole one leaves; the others hold what they held. A side that a whole one leaves alone is not named."""
        names = []
        for side, held, before, after in zip(("device", "server"), self.held(), self.before, self.ends[word]):
            expect("the %s holds what it held, or what a whole %s leaves" % (side, word), held == after or held == before, True)
            if before != after == held:
                names.append(side)
        return names

    def held(self):
        return [tables(path) for path in self.paths]

    def came(self, word, status, printed):
        """What stands after a try, told."""
        found = self.stands(word)
        if printed == "finished\n" or "device" in found:
            expect("both sides hold what a whole %s leaves" % word, self.held() == self.ends[word], True)
        return "%d %s, done at %s" % (status, printed.strip() or "nothing printed", " and ".join(found) or "neither")

    def goes_on(self, word):
        """The next one without faults, over a server that is started anew."""
        with self:
            expect("the check", self.site.desk(MEETING, ["check"]), (0, "sound\n"))
            expect("the next " + word, self.meet(word), *((0, it + "\n") for it in (("finished", "no changes") if word == "sync" else ("finished",))))
        device, server = map(content, self.held())
        expect("one content after the next %s" % word, device == server, True)
        expect("the content of a whole %s" % word, device == content(self.ends[word][0]), True)

    def at_device(self, word, fault, **how):
        self.again()
        with self:
            status, printed = self.meet(word, **how)
        expect("the status, which printed %r" % printed, status, *statuses(fault))
        wanted = {0: ("finished\n",), 6: ("keeper failed\n", "")}
        if status in wanted:
            expect("what is printed", printed, *wanted[status])
        line = self.came(word, status, printed)
        self.goes_on(word)
        return line

    def at_server(self, word, fault):
        self.again()
        if not self.begin(["strace", "-D", *fault.words()[1:]]):
            ended = self.server.process.returncode
            expect("the server's status", ended, *((4,) if fault.subject == "accounts.toml" else (4, 6)))
            expect("what was done where no server was", self.stands(word), [])
            self.goes_on(word)
            return "the server ends with %d" % ended
        status, printed = self.meet(word)
        expect("the server goes on", self.server.process.poll(), None)
        expect("the status, which printed %r" % printed, (status, printed), (0, "finished\n"), (13, "refused 503 keeper\n"), (7, "lost\n"))
        line = self.came(word, status, printed)
        if not fault.onward:
            # The call failed once: the same server goes on.
            status, printed = self.meet(word)
            expect("the next one at the same server, which printed %r" % printed, (status, printed), (0, "finished\n"), (0, "no changes\n"), (13, "refused 503 keeper\n"))
            line += ", then %s" % printed.strip()
            if status == 0:
                expect("one content at the same server", *map(content, self.held()))
        self.end()
        self.goes_on(word)
        return line

    def listed_at_server(self, word):
        """The server's calls that concern files, of its start and of a whole sync or transfer."""
        self.again()
        log = os.path.join(self.site.room, "log")
        expect("the server answers", self.begin(["strace", "-D", "-y", "-o", log]), True)
        started = len(self.logged(log))
        expect("a whole " + word, self.meet(word), (0, "finished\n"))
        self.end()
        for _ in range(100):
            with open(log, encoding="utf-8", errors="replace") as file:
                if "\n+++ " in file.read():
                    break
            time.sleep(0.05)
        return self.logged(log), started

    def logged(self, log):
        with open(log, encoding="utf-8", errors="replace") as file:
            return calls_of(file.read(), self.server.room)


def device_trial(word):
    def trial(site):
        pair = Pair(site)
        pair.again()
        with pair:
            faults = faults_of(site.listed(MEETING, pair.address, word, pair.key))
        ends = collections.Counter()
        for fault in site.chosen(faults):
            ends[named(fault, lambda it: pair.at_device(word, it, before=it.words()))] += 1
        told(word, sum(ends.values()), ends)

    return trial


def server_trial(word):
    def trial(site):
        pair = Pair(site)
        calls, started = pair.listed_at_server(word)
        faults = faults_of(calls if word == "sync" else calls[started:])
        ends = collections.Counter()
        for fault in site.chosen(faults):
            ends[named(fault, lambda it: pair.at_server(word, it))] += 1
        told(word + "-server", sum(ends.values()), ends)

    return trial


class Disk:
    """A disk of so many pages that is mounted on a folder."""

    library = ctypes.CDLL(None, use_errno=True)

    def __init__(self, folder, pages):
        self.folder, self.pages = folder, pages

    def __enter__(self):
        if self.library.mount(b"none", self.folder.encode(), b"tmpfs", 0, b"size=%d" % (4096 * self.pages)) != 0:
            raise OSError(ctypes.get_errno(), "no disk can be mounted")

    def __exit__(self, *_):
        self.library.umount2(self.folder.encode(), 2)


def try_full(site):
    _, begin = init_of(site)
    pair = Pair(site)
    session = Session(site, os.path.join(site.room, "base.anki"), LINES)
    works = [("init", begin), ("desk", session.tried)]
    works += [(word, lambda fault, word=word, **how: pair.at_device(word, fault, **how)) for word in SIDES]
    # Limits of the size of each file: about the header and the first pages and frames, at odd bytes, and about the steps of 262,144 bytes by which the log grows.
    sizes = sorted({0, 1, 40, 41, 100, 4095, 4096, 4097, *(n * 4096 for n in range(2, 8)), *(41 + n * 4120 for n in range(1, 8)), *(n * 20_011 for n in range(1, 13)),
                    262_144, 266_295, 266_296, *(266_297 + n * 3_777 for n in range(80))})
    tries = site.chosen([(name, work, size) for name, work in works for size in sizes])
    ends = collections.defaultdict(collections.Counter)
    for name, work, size in tries:
        ends[name][named("%s with files of at most %d bytes" % (name, size), lambda it: work(it, limit=size))] += 1
    for name in ends:
        told("full, files limited, " + name, sum(ends[name].values()), ends[name])
    full_disks(site, session, begin)


def full_disks(site, session, begin):
    """The session over disks of a few pages; its files are moved to a whole one before anything else is done with them."""
    small = os.path.join(site.room, "small")
    os.mkdir(small)
    ends, whole = collections.Counter(), site.path
    try:
        for pages in site.chosen(list(range(2, 140))):
            with Disk(small, pages):
                site.path = os.path.join(small, "one.anki")
                copied_here = True
                try:
                    copy_files(session.base, site.path)
                except OSError:
                    copied_here = False
                if copied_here:
                    status, printed = site.desk(MORNING, LINES)
                    held = [it for it in ("", "-wal") if os.path.exists(site.path + it)]
                    site.path, left = whole, site.path
                    site.forget()
                    for it in held:
                        shutil.copyfile(left + it, whole + it)
            site.path = whole
            if copied_here:
                ends[named("a disk of %d pages" % pages, lambda _: disk_end(session, status, printed))] += 1
    except OSError as fault:
        print("full disks: none was mounted (%s); the limits above stand for them" % fault, flush=True)
        return
    finally:
        site.path = whole
    told("full, small disks, desk", sum(ends.values()), ends)


def disk_end(session, status, printed):
    expect("the status", status, 0, 6)
    expect("the front of what is printed", printed, session.printed[:len(printed)])
    done = session.found(printed.count("\n"))
    return "status %d%s" % (status, "" if done == printed.count("\n") else " with the line that was not printed")


TRIALS = {"init": try_init, "opening": try_opening, "crashed": try_crashed, "desk": try_desk,
          **{word: device_trial(word) for word in SIDES}, **{word + "-server": server_trial(word) for word in SIDES}, "full": try_full}


def main():
    reader = argparse.ArgumentParser(description=__doc__, formatter_class=argparse.RawDescriptionHelpFormatter)
    reader.add_argument("--anki")
    reader.add_argument("--ankid")
    reader.add_argument("--first", type=int, default=0)
    reader.add_argument("--step", type=int, default=1)
    reader.add_argument("trials", nargs="*", metavar="TRIAL", choices=[*TRIALS, []])
    words = reader.parse_args()
    tools, failed = Tools(words), 0
    for name in words.trials or TRIALS:
        print("== %s" % name, flush=True)
        room = tempfile.mkdtemp(prefix="faults-trial-")
        began = time.monotonic()
        try:
            TRIALS[name](Site(tools, words, room))
            print("%s: passed, %.0f s" % (name, time.monotonic() - began), flush=True)
        except (Wrong, OSError, subprocess.SubprocessError, sqlite3.Error) as fault:
            failed += 1
            print("%s: FAILED: %s %s" % (name, type(fault).__name__, fault), flush=True)
        finally:
            tools.end_all()
            shutil.rmtree(room, ignore_errors=True)
    return 1 if failed else 0


if __name__ == "__main__":
    sys.exit(main())
