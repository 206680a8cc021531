#!/usr/bin/env python3
"""Measures this program beside plain Python with `sqlite3`, and beside the shell `sqlite3` where the work is the same, all in one run.

    bench/bench.py [--anki PATH] [--ankid PATH] [--sizes N,N] [--runs N] [--seed N] [--room FOLDER] [--page PATH] [--transfers]

Each size is a collection of so many notes, as `anki - - make` makes it. Each number is the median of the runs; a run is a process of its own over a file of its own,
and the sides take turns. The first table is the work after the opening: what a process takes that does it, less one that only opens the file. The second is
whole processes, from their start to their end. Processor time is of both kinds, user and system. What is printed is compared first: the program and
Python must print the same for each line whose answer is not a matter of chance. A work that takes little beside an opening is done many times in a process, and told for one: a day of answers
over other cards each time. Rows of what is not there are left out, and named. A row of the program whose time grows by more than 1.25 times the data is
measured again in instructions, where valgrind is there: time also grows as less of a collection fits the processor's caches. The files lie in a folder
in FOLDER, which is to be on the disk that is measured, and goes at the end. With --page the tables are written to a page as well. With --transfers
only the third table is made, of what uploads, syncs and downloads take on both sides.
"""
import argparse
import collections
import contextlib
import csv
import datetime
import os
import platform
import re
import shutil
import sqlite3
import statistics
import subprocess
import sys
import tempfile
import time
from unittest import mock

HERE = os.path.dirname(os.path.realpath(__file__))
TOP = os.path.dirname(HERE)
sys.dont_write_bytecode = True
sys.path[:0] = [HERE, os.path.join(TOP, "deploy")]

import in_python  # noqa: E402
import made  # noqa: E402
import transfers  # noqa: E402
import try_server  # noqa: E402

IN_PYTHON = os.path.join(HERE, "in_python.py")
PROGRAM, PYTHON, SHELL, VALGRIND = "anki", "Python", "sqlite3", "valgrind"
DAY = 192
# How many times each work is done in a process, so that the noise of two openings is little beside it.
DAYS, OF_FINDS, OF_LOOKS, OF_PAGES, OF_CHECKS = 10, 5, 20_000, 20_000, 50
A_DAY = "a day of answers, a commit each"
OVER_LOOPBACK = " over the loopback"
# Memory in pages of 2 MB where the system has them, as `bin/anki` sets it for the program.
LARGE_PAGES = "glibc.malloc.hugetlb=1"
PARTS = ("", "-wal", "-shm", "-journal")
# What a process of one side took: processor time and time in seconds, and memory in MB at its peak.
Taken = collections.namedtuple("Taken", "processor elapsed memory")


class Wrong(Exception):
    """What was seen and should not have been."""


# A process is told to have had at least the memory of the one that started it: so this one starts it, which is small.
STARTER = """import os, sys, time
began = time.perf_counter()
child = os.fork()
if child == 0:
    os.execv(sys.argv[2], sys.argv[2:])
_, ended, used = os.wait4(child, 0)
told = (ended, used.ru_utime + used.ru_stime, time.perf_counter() - began, used.ru_maxrss)
os.write(int(sys.argv[1]), " ".join(map(repr, told)).encode())
"""


def run(words, given=b"", status=0):
    """Runs a process, named by its path, to its end. It gives what it took, and what it printed."""
    with tempfile.TemporaryFile() as source, tempfile.TemporaryFile() as sink, tempfile.TemporaryFile() as told:
        source.write(given)
        source.seek(0)
        starter = [sys.executable, "-I", "-S", "-c", STARTER, str(told.fileno()), *words]
        subprocess.run(starter, stdin=source, stdout=sink, pass_fds=(told.fileno(),), check=True)
        for file in (sink, told):
            file.seek(0)
        printed, (ended, processor, elapsed, memory) = sink.read(), told.read().split()
    ended = int(ended)
    ended = -os.WTERMSIG(ended) if os.WIFSIGNALED(ended) else os.WEXITSTATUS(ended)
    if ended != status:
        raise Wrong("%s ended with %d: %s" % (" ".join(words), ended, printed[-200:].decode(errors="replace")))
    return Taken(float(processor), float(elapsed), int(memory) / 1024), printed


# No model of the caches, which would take longer and tell nothing more here, and no file of where each instruction is.
COUNTING = ["--tool=cachegrind", "--cache-sim=no", "--cachegrind-out-file=/dev/null"]
# Versions of valgrind differ in the blanks.
I_REFS = re.compile(rb"^==\d+== I +refs: +([\d,]+)$", re.MULTILINE)


def instructions(words, given=b""):
    """Runs a process under valgrind to its end. It gives how many instructions it executed, and what it printed."""
    ran = subprocess.run([path_of(VALGRIND), *COUNTING, *words], input=given, capture_output=True, check=False)
    count = I_REFS.search(ran.stderr)
    if ran.returncode != 0 or not count:
        raise Wrong("%s ended with %d under valgrind: %s" % (" ".join(words), ran.returncode, ran.stderr[-200:].decode(errors="replace")))
    return int(count[1].replace(b",", b"")), ran.stdout


def median(taken):
    """The median of each of the numbers."""
    return Taken(*(statistics.median(numbers) for numbers in zip(*taken)))


def less(whole, opening):
    """What a process took beside its opening. A difference below what can be measured is 0."""
    return Taken(max(0.0, whole.processor - opening.processor), max(0.0, whole.elapsed - opening.elapsed), whole.memory)


def lines(*said):
    return "".join(line + "\n" for line in said).encode()


# ---- the work
class Files:
    """A collection of one size, and copies of it for each process."""

    def __init__(self, room, anki, seed, size):
        self.room, self.anki, self.size = room, anki, size
        self.cards = [made.FIRST_ID + card for card in range(made.cards_before(size))]
        self.new, self.whole, self.indexed, self.table = (self.path(name) for name in ("new.anki", "whole.anki", "indexed.anki", "notes.csv"))
        run([anki, self.new, "-", "init"])
        shutil.copyfile(self.new, self.whole)
        made.fill(self.whole, seed, size)
        shutil.copyfile(self.whole, self.indexed)
        link = sqlite3.connect(self.indexed)
        for index in in_python.INDEXES:
            link.execute(index)
        link.close()
        with open(self.table, "w", encoding="utf-8", newline="") as file:
            out = csv.writer(file, lineterminator="\n")
            out.writerows(["g%d" % number, "animal tag%d" % (number % 50), "front, %d" % number, 'back "%d"' % number] for number in range(size))

    def path(self, name):
        return os.path.join(self.room, name)

    def copy(self, path, name="work.anki"):
        """A copy of a file, with nothing beside it."""
        for part in PARTS:
            if os.path.exists(self.path(name) + part):
                os.remove(self.path(name) + part)
        shutil.copyfile(path, self.path(name))
        return self.path(name)

    def day(self, day=0):
        """The lines of a day of answers, each with a commit. Days are over other cards."""
        return ["answer %d %d 5000" % (card, button) for card, button in self.answered(day)]

    def answered(self, day):
        """The cards of a day, each with the button that answers it."""
        return [(card, 1 + number % 4) for number, card in enumerate(self.cards[day * DAY:(day + 1) * DAY])]

    def days(self):
        """How many days there are cards for, but at least one."""
        return max(1, min(DAYS, len(self.cards) // DAY))

    def table_bytes(self):
        with open(self.table, "rb") as file:
            return file.read()


def words_of(side, path, *command):
    if side == PROGRAM:
        return [path_of(PROGRAM), path, "-", *command]
    # Without what it looks for at its start and does not use here.
    return [sys.executable, "-S", "-E", IN_PYTHON, path, *command]


PLACES = {}


def path_of(name):
    return PLACES[name]


def file_of(side, files):
    return files.whole if side == PROGRAM else files.indexed


def desk(side, files, said, runner=run):
    """A desk's lines over a copy of the collection. Its process is run by `runner`."""
    return runner(words_of(side, files.copy(file_of(side, files)), "desk"), lines(*said))


FINDS = ["find " + expression for expression in in_python.FINDS]
OPENING = ["next 1"]


def works_of(files):
    """What is done after the opening: its name, its lines, and how many times the work is done in them."""
    days = files.days()
    return ((A_DAY, [line for day in range(days) for line in files.day(day)], days),
            ("`find` of %d expressions" % len(FINDS), FINDS * OF_FINDS, OF_FINDS),
            ("`next`", ["next 1"] * OF_LOOKS, OF_LOOKS),
            ("`counts`", ["counts 1"] * OF_LOOKS, OF_LOOKS),
            ("a page", [page_of(files.cards[len(files.cards) // 2])] * OF_PAGES, OF_PAGES),
            ("`check`", ["check"] * OF_CHECKS, OF_CHECKS))


def page_of(card):
    return "page %d back" % card


def compare(files):
    """The program and Python print the same for a line whose answer is not a matter of chance."""
    pages = [page_of(files.cards[place]) for place in (0, len(files.cards) // 2, -1)]
    said = OPENING + FINDS + ["counts 1"] + pages + ["check"]
    printed = [desk(side, files, said)[1].decode().splitlines() for side in (PROGRAM, PYTHON)]
    for line, one, other in zip(said, *printed):
        if one != other:
            raise Wrong("%s: the program prints %s, and Python %s" % (line, one[:100], other[:100]))
    if len(printed[0]) != len(said) or len(printed[1]) != len(said):
        raise Wrong("%d lines were answered by %d and %d" % (len(said), len(printed[0]), len(printed[1])))
    if has_make():
        _, line = run(words_of(PROGRAM, "-", "make", "7", str(files.size)))
        if line.decode() != made.line_of(files.size):
            raise Wrong("`make` prints %s, and not %s" % (line.decode(), made.line_of(files.size)))


def days_in_sql(files):
    """The rows and the commits of the days of answers, as statements for the shell."""
    decks = sqlite3.connect(files.whole).execute("select decks from col").fetchone()[0].replace("'", "''")
    moment = int(time.time() * 1000)
    said = ["pragma journal_mode = wal;", "pragma synchronous = full;"]
    for number, (card, button) in enumerate(answer for day in range(files.days()) for answer in files.answered(day)):
        said += ["begin immediate;",
                 "update cards set mod = %d, usn = -1, due = 2000, ivl = 300, factor = 2350, reps = 5, lapses = 0 where id = %d;" % (moment // 1000, card),
                 "insert into revlog values (%d, %d, -1, %d, 300, 100, 2350, 5000, 1);" % (moment + number, card, button),
                 "update col set decks = '%s', mod = %d;" % (decks, moment + number), "commit;"]
    return lines(*said)


def rows_in_sql():
    return lines(".output /dev/null", *("select * from %s;" % table for table in ("col", "notes", "cards", "revlog", "graves")))


def shell(files, given):
    return run([path_of(SHELL), "-batch", files.copy(files.whole)], given)


# ---- the measurement
class Table:
    """What was measured: of each work and each side, by size. And of the works whose instructions were counted, how many times those at the first size are at the last."""

    def __init__(self):
        self.rows, self.instructions = {}, {}

    def put(self, work, side, size, taken):
        self.rows.setdefault(work, {}).setdefault(side, {})[size] = taken

    def text(self, sizes):
        """The table as Markdown."""
        last, first = sizes[-1], sizes[0]
        head = ["work", "side"] + ["ms at {:,}".format(size) for size in sizes] + ["growth", "elapsed ms at {:,}".format(last), "MB at {:,}".format(last)]
        body = ["| " + " | ".join(head) + " |", "|" + "---|" * 2 + "---:|" * (len(head) - 2)]
        for work, sides in self.rows.items():
            for side, by_size in sides.items():
                numbers = [number_text(by_size[size].processor) for size in sizes]
                growth = growth_text(by_size[first].processor, by_size[last].processor)
                body.append("| " + " | ".join([work, side] + numbers + [growth, number_text(by_size[last].elapsed), "%.0f" % by_size[last].memory]) + " |")
        return "\n".join(body) + "\n"


def behind(table, size):
    """The works in which Python took less processor time than the program at a size."""
    return [work for work, sides in table.rows.items() if PYTHON in sides and sides[PYTHON][size].processor < sides[PROGRAM][size].processor]


def behind_text(table, size):
    works = behind(table, size)
    return "Python takes less processor time at {:,} in {}.\n".format(size, ", ".join(works) if works else "no row")


# A row that grows faster than its data grows by more than this times the data: below that it may be chance.
SLACK = 1.25


def times(one, other):
    """How many times another time one is. A time too short to be measured tells nothing."""
    return one / other if other > 0 else float("nan")


def within(what, got, most, unit=""):
    """Whether a number is at most another one."""
    return "%s: %.2f%s, at most %g%s: %s" % (what, got, unit, most, unit, "not told" if got != got else "met" if got <= most else "missed")


def ahead(what, table, sizes, works=None):
    """Whether the program took less processor time than Python, in rows of a table at these sizes."""
    slower = ["%s at {:,}".format(size) % work for size in sizes for work in behind(table, size) if works is None or work in works]
    return "%s: %s" % (what, "missed in " + ", ".join(slower) if slower else "met")


def targets(after, whole, sizes):
    """Each target, and whether it is met. One whose row is left out is not told."""
    first, last, told = sizes[0], sizes[-1], []
    told.append(ahead("ahead of Python in each row after the opening", after, [last]))
    told.append(ahead("opening ahead of Python's at each size", whole, sizes, ("opening",)))
    if "`make`" in whole.rows and (first, last) == (3_000, 20_000):
        of_make = whole.rows["`make`"][PROGRAM]
        told.append(within("`make` at 20,000 by `make` at 3,000", times(of_make[last].processor, of_make[first].processor), 9))
    if SHELL in whole.rows.get("opening", {}):
        sides = whole.rows["opening"]
        told.append(within("opening by `select *` of all tables in the shell", times(sides[PROGRAM][last].processor, sides[SHELL][last].processor), 3))
    if SHELL in after.rows.get(A_DAY, {}):
        sides = after.rows[A_DAY]
        told.append(within("time of durable answers by the same rows and commits in the shell", times(sides[PROGRAM][last].elapsed, sides[SHELL][last].elapsed), 2))
    if last == 20_000:
        told.append(within("`next`", after.rows["`next`"][PROGRAM][last].elapsed * 1000, 5, " ms"))
    if first != last:
        told.append("no row grows faster than its data: %s" % growth_told((after, whole), sizes))
    return told


def most_growth(sizes):
    return SLACK * sizes[-1] / sizes[0]


def fast_in_time(table, sizes):
    """The works in which the program's time grows too fast, and how many times the first the last one is. A time too short to be divided by tells nothing."""
    taken = {work: [sides[PROGRAM][size].processor for size in (sizes[0], sizes[-1])] for work, sides in table.rows.items()}
    return {work: last / first for work, (first, last) in taken.items() if first >= 0.0001 and last / first > most_growth(sizes)}


def growth_told(tables, sizes):
    """Whether no row grows too fast: those that do in time are judged by their instructions, and are missed where these could not be counted."""
    met, missed, uncounted = [], [], []
    for table in tables:
        for work, in_time in fast_in_time(table, sizes).items():
            grown = table.instructions.get(work)
            if grown is None:
                uncounted.append("%s (%.1f)" % (work, in_time))
            else:
                (met if grown <= most_growth(sizes) else missed).append("%s: %.1f in time, %.2f in instructions" % (work, in_time, grown))
    said = ["missed in time and in instructions (%s)" % "; ".join(missed)] if missed else []
    said += ["missed in time in %s, instructions not counted: %s" % (", ".join(uncounted), why_uncounted())] if uncounted else []
    said += ["met in instructions (%s)" % "; ".join(met)] if met else []
    return "; ".join(said) or "met"


def why_uncounted():
    return "no valgrind" if VALGRIND not in PLACES else "valgrind gave no count"


def growth_text(first, last):
    """How many times the first time the last one is; nothing, if the first is too short to be divided by."""
    return "" if first < 0.0001 else "%.1f" % (last / first)


def number_text(seconds):
    ms = seconds * 1000
    return "%.4f" % ms if 0 < ms < 0.1 else "%.2f" % ms if ms < 10 else "%.1f" % ms if ms < 100 else "{:,.0f}".format(ms)


def in_turn(runs, jobs):
    """Runs each of the jobs so many times, in turn, so that what else the machine does meets all of them, and gives the median of each."""
    taken = {key: [] for key in jobs}
    for _ in range(runs):
        for key, job in jobs.items():
            taken[key].append(job()[0])
    return {key: median(all_of) for key, all_of in taken.items()}


def measure_after(files, runs, table):
    """The work after the opening."""
    works = works_of(files)
    jobs = {(side, None): (lambda side=side: desk(side, files, OPENING)) for side in (PROGRAM, PYTHON)}
    for name, said, _ in works:
        for side in (PROGRAM, PYTHON):
            jobs[side, name] = lambda side=side, said=said: desk(side, files, OPENING + said)
    if SHELL in PLACES:
        given = days_in_sql(files)
        jobs[SHELL, None] = lambda: shell(files, b"select 1;\n")
        jobs[SHELL, works[0][0]] = lambda: shell(files, given)
    taken = in_turn(runs, jobs)
    for name, _, times in works:
        for side in (PROGRAM, PYTHON, SHELL):
            if (side, name) in taken:
                beside = less(taken[side, name], taken[side, None])
                table.put(name, side, files.size, Taken(beside.processor / times, beside.elapsed / times, beside.memory))


def whole_jobs(files, runner=run):
    """Whole processes: the name of each work, its side, and what does it. The processes of the program and of Python are run by `runner`."""
    table, day = files.table_bytes(), files.day()
    yield "opening", PROGRAM, lambda: desk(PROGRAM, files, [], runner)
    yield "opening", PYTHON, lambda: runner(words_of(PYTHON, files.copy(files.indexed), "rows"))
    if SHELL in PLACES:
        yield "opening", SHELL, lambda: shell(files, rows_in_sql())
    for side in (PROGRAM, PYTHON):
        yield A_DAY, side, lambda side=side: desk(side, files, day, runner)
        yield "check", side, lambda side=side: desk(side, files, ["check"], runner)
        yield "import of as many new notes", side, lambda side=side: runner(words_of(side, files.copy(files.new), "import", "1", "1"), table)
        yield "export of the notes of type 3", side, lambda side=side: runner(words_of(side, files.copy(file_of(side, files)), "export", "3"))
        if has_make():
            yield "`make`", side, lambda side=side: runner(words_of(side, "-", "make", "7", str(files.size)))


def has_make():
    """Whether the program has the command `make`."""
    return subprocess.run([path_of(PROGRAM), "-", "-", "make", "7", "1"], stdout=subprocess.PIPE, check=False).stdout != b"usage\n"


def measure_whole(files, runs, table):
    jobs = {(work, side): job for work, side, job in whole_jobs(files)}
    for (work, side), taken in in_turn(runs, jobs).items():
        table.put(work, side, files.size, taken)


@contextlib.contextmanager
def served(files):
    """A server, the words of a command over it, and an upload, a sync after a day of answers and a download: the file of each, and its word. Each goes on from the one before."""
    tools = try_server.Tools(mock.Mock(anki=path_of(PROGRAM), ankid=path_of("ankid")))
    room = os.path.join(files.room, "server")
    server = try_server.Server(tools, room)
    device = files.copy(files.whole, "device.anki")
    words = lambda path, where, word: [path_of(PROGRAM), path, where, word, server.key()]
    works = {"upload": (lambda: device, "upload"), "sync after a day of answers": (lambda: answered(device, files), "sync"),
             "download": (lambda: files.copy(files.new), "download")}
    try:
        yield server, words, works
    finally:
        tools.end_all()
        shutil.rmtree(room)


def measure_transfers(files, runs, table, sides):
    """Uploads, syncs after a day of answers, and downloads, over the loopback: what both sides take, and the bytes between them."""
    taken = collections.defaultdict(list)
    with served(files) as (server, words, works):
        for _ in range(runs):
            for work, (path, word) in works.items():
                file = path()
                taken[work].append(transfers.over_fresh_server(server, lambda where: run(words(file, where, word))[0]))
        for work, (path, word) in works.items():
            file = path()
            both = transfers.bytes_of(server, lambda where: run(words(file, where, word)))
            table.put(work + OVER_LOOPBACK, PROGRAM, files.size, median([device for device, *_ in taken[work]]))
            sides.append((work, files.size, transfers.median_of(taken[work], *both)))


def answered(path, files):
    """The file, after a day of answers."""
    desk_on(path, files.day())
    return path


def desk_on(path, said):
    return run(words_of(PROGRAM, path, "desk"), lines(*said))


# ---- instructions
def count_after(files, works):
    """How many instructions one round of each of these works executes after the opening."""
    opening, _ = desk(PROGRAM, files, OPENING, instructions)
    return {name: desk(PROGRAM, files, OPENING + said[:len(said) // rounds], instructions)[0] - opening for name, said, rounds in works_of(files) if name in works}


def count_whole(files, works):
    """How many instructions a whole process of each of these works executes."""
    counts = {work: job()[0] for work, side, job in whole_jobs(files, instructions) if side == PROGRAM and work in works}
    return {**counts, **count_transfers(files, {work for work in works if work.endswith(OVER_LOOPBACK)})}


def count_transfers(files, wanted):
    """How many instructions the device's process of each of these transfers executes."""
    counts = {}
    if not wanted:
        return counts
    with served(files) as (server, words, works):
        for work, (path, word) in works.items():
            file, runner = path(), instructions if work + OVER_LOOPBACK in wanted else run
            counts[work + OVER_LOOPBACK], *_ = transfers.over_fresh_server(server, lambda where: runner(words(file, where, word))[0])
    return {work: counts[work] for work in wanted}


def count_fast(given, table, count):
    """Puts into a table how the instructions of the works whose time grows too fast grow from the first size to the last. What can't be counted is left out."""
    works, counts = fast_in_time(table, given.sizes), []
    if not works or VALGRIND not in PLACES:
        return
    try:
        for size in (given.sizes[0], given.sizes[-1]):
            with files_of(given, size) as files:
                counts.append(count(files, works))
    except Wrong as fault:
        print("bench.py: %s" % fault, file=sys.stderr)
        return
    first, last = counts
    # A difference that is none can't be divided by, and would hide a growth.
    table.instructions.update({work: last[work] / first[work] for work in first if min(first[work], last[work]) > 0})


# ---- the whole
def places(given):
    """The programs that there are, and what is left out for want of others."""
    out = []
    PLACES.clear()
    PLACES[PROGRAM] = os.path.abspath(given.anki or os.path.join(TOP, "dist", "anki"))
    ankid = os.path.abspath(given.ankid or os.path.join(TOP, "dist", "ankid"))
    if os.access(ankid, os.X_OK):
        PLACES["ankid"] = ankid
    else:
        out.append("upload, sync and download (there is no ankid)")
    if shutil.which(SHELL):
        PLACES[SHELL] = shutil.which(SHELL)
    else:
        out.append("the shell `sqlite3` (it is not there)")
    if shutil.which(VALGRIND):
        PLACES[VALGRIND] = shutil.which(VALGRIND)
    if not has_make():
        out.append("`make` (this program has no such command)")
    return out


def machine():
    """The processor, how many there are, the memory, and the versions."""
    model = "unknown processor"
    with open("/proc/cpuinfo") as file:
        for line in file:
            if line.startswith("model name"):
                model = line.split(":", 1)[1].strip()
                break
    memory = os.sysconf("SC_PAGE_SIZE") * os.sysconf("SC_PHYS_PAGES") / 2**30
    with open(os.path.join(TOP, "VERSION")) as file:
        version = file.read().strip()
    said = ["%s, %d processors, %.0f GB, Linux %s" % (model, os.cpu_count(), memory, platform.release()),
            "Kuldraff %s, Python %s with SQLite %s" % (version, platform.python_version(), sqlite3.sqlite_version)]
    if SHELL in PLACES:
        printed = subprocess.run([PLACES[SHELL], "-version"], stdout=subprocess.PIPE, text=True, check=False).stdout
        said.append("the shell sqlite3 %s" % printed.split()[0])
    return "; ".join(said)


def page_text(after, whole, sides, sizes, runs, left_out):
    """The page: what was measured, where and when."""
    parts = ["# What everything costs", "",
             "Made by `bench/bench.py --page docs/SPEED.md`, which anybody can run again; the Python side is `bench/in_python.py`. %s, on %s." % (
                 "The median of %d runs" % runs if runs > 1 else "One run", datetime.date.today().isoformat()),
             machine() + ".", "",
             "Milliseconds of processor time, user and system, at collections of so many notes; `growth` is the last of them divided by the first. The time that went by and "
             "the memory at its peak are those at the largest. A day is %d answers, or as many as there are cards; less than 9 MB of memory can't be told. "
             "All sides run with GLIBC_TUNABLES=%s, as `bin/anki` runs the program: memory in pages of 2 MB where the system has them." % (DAY, os.environ.get("GLIBC_TUNABLES", "")), "",
             "## The work after the opening", "",
             "Each is told for one, but done often in a process: %d days, each over other cards, or as many as there are cards for; %d times all expressions of `find`; " % (DAYS, OF_FINDS)
             + "{:,} times `next` and `counts`; {:,} pages; {} times `check`.".format(OF_LOOKS, OF_PAGES, OF_CHECKS), "",
             after.text(sizes), behind_text(after, sizes[-1]),
             "## Whole processes", "", whole.text(sizes), behind_text(whole, sizes[-1])]
    if sides:
        parts += [sides_text(sides)]
    parts += ["## Targets", ""] + ["- %s" % line for line in targets(after, whole, sizes)] + ["", INSTRUCTIONS_TEXT, ""]
    if left_out:
        parts += ["Left out: %s." % "; ".join(left_out), ""]
    return "\n".join(parts)


INSTRUCTIONS_TEXT = (
    "A row of the program whose processor time grows by more than %g times the data is measured again, at the first and at the last size, in instructions, counted by "
    "valgrind's cachegrind (`I refs`); of a transfer, those of the device. Time also grows as less of the collection fits the processor's "
    "caches, at Python's side too; what a row executes tells whether the work itself grows faster." % SLACK)


def sides_text(sides):
    """The section on what both sides of a transfer take."""
    return "\n".join(["## Both sides of a transfer", "", "Over the loopback, each with a server process of its own. The bytes are all that went over the link, heads too.", "",
                      transfers.text_of(sides)])


@contextlib.contextmanager
def files_of(given, size):
    """A collection of a size, in a folder that goes at the end."""
    with tempfile.TemporaryDirectory(prefix="anki-bench-", dir=given.room) as room:
        yield Files(room, path_of(PROGRAM), given.seed, size)


def measure(given):
    """Measures all sizes, and gives the page."""
    left_out = places(given)
    after, whole, sides = Table(), Table(), []
    for size in given.sizes:
        with files_of(given, size) as files:
            if not given.transfers:
                compare(files)
                measure_after(files, given.runs, after)
                measure_whole(files, given.runs, whole)
            if "ankid" in PLACES:
                measure_transfers(files, given.runs, whole, sides)
    if given.transfers:
        return "%s.\n\n%s" % (machine(), sides_text(sides))
    count_fast(given, after, count_after)
    count_fast(given, whole, count_whole)
    return page_text(after, whole, sides, given.sizes, given.runs, left_out)


def arguments(words):
    reader = argparse.ArgumentParser(description=__doc__, formatter_class=argparse.RawDescriptionHelpFormatter)
    reader.add_argument("--anki")
    reader.add_argument("--ankid")
    reader.add_argument("--sizes", default="3000,10000,20000", type=lambda text: sorted(int(size) for size in text.split(",")))
    reader.add_argument("--runs", default=5, type=int)
    reader.add_argument("--seed", default=7, type=int)
    reader.add_argument("--room")
    reader.add_argument("--page")
    reader.add_argument("--transfers", action="store_true")
    given = reader.parse_args(words)
    if not all(1 <= size <= 20_000 for size in given.sizes) or given.runs < 1 or not 0 <= given.seed < 2**64:
        reader.error("a size is 1 to 20,000 notes, and there is at least one run")
    return given


def main(words):
    given = arguments(words)
    os.environ.setdefault("GLIBC_TUNABLES", LARGE_PAGES)
    try:
        page = measure(given)
    except Wrong as fault:
        print("bench.py: %s" % fault, file=sys.stderr)
        return 1
    print(page, end="")
    if given.page:
        with open(given.page, "w", encoding="utf-8") as file:
            file.write(page)
    return 0


if __name__ == "__main__":
    sys.exit(main(sys.argv[1:]))
