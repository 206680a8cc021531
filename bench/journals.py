#!/usr/bin/env python3
"""Measures a collection in a journal beside the same one in a file of SQLite: a day of answers with a commit each, the opening at first and after a year, and how both grow.

    bench/journals.py [--anki PATH] [--notes N] [--days N] [--runs N] [--seed N] [--room FOLDER]

The collection is the one that `anki - - make` makes of so many notes. A year is so many days of 192 answers (365: 70,080 commits), which the program itself does in one run over each
file. Each number is the median of the runs; a run is a process of its own over a file of its own, and the two take turns. Processor time is of both kinds, user and system. The files lie in a folder
in FOLDER, which is to be on the disk that is measured, and goes at the end. It prints a table for docs/SPEED.md.
"""
import argparse
import datetime
import os
import shutil
import sys
import tempfile

HERE = os.path.dirname(os.path.realpath(__file__))
sys.dont_write_bytecode = True
sys.path[:0] = [HERE, os.path.join(os.path.dirname(HERE), "deploy")]

import bench  # noqa: E402
import journal_rules as rules  # noqa: E402
from front.names import JOURNAL as PREFIX  # noqa: E402

JOURNAL, SQLITE = "journal", "SQLite"


class Kept:
    """A collection in a file, by one of the two ways: its name for the program, and its files."""

    def __init__(self, way, path):
        self.way, self.path = way, path

    @property
    def name(self):
        return PREFIX + self.path if self.way == JOURNAL else self.path

    def size(self):
        """The bytes of its files, once the program has ended."""
        return sum(os.path.getsize(self.path + end) for end in ("", "-wal") if os.path.exists(self.path + end))

    def copy(self):
        """A copy with nothing beside it."""
        copy = Kept(self.way, self.path + ".work")
        for end in bench.PARTS:
            if os.path.exists(copy.path + end):
                os.remove(copy.path + end)
        shutil.copyfile(self.path, copy.path)
        return copy

    def desk(self, said):
        """What a desk of these lines takes; each must be answered."""
        taken, printed = bench.run([bench.path_of(bench.PROGRAM), self.name, "-", "desk"], bench.lines(*said))
        if printed.count(b"\n") != len(said):
            raise bench.Wrong("%d lines were answered by %d" % (len(said), printed.count(b"\n")))
        return taken


def begun(files):
    """The collection in both ways."""
    log = files.path("begun.log")
    held = rules.of_sqlite(files.whole)
    with open(log, "wb") as file:
        file.write(rules.journal_of([rules.payload_of(dict(rules.change_between(rules.Collection(), held), all=True))]))
    return [Kept(JOURNAL, log), Kept(SQLITE, files.whole)]


def answers(files, days):
    """The lines of so many days of answers, over all cards in turn. None is Again, so that no card becomes a leech, which is not answered."""
    return ["answer %d %d 5000" % (files.cards[number % len(files.cards)], 2 + number % 3) for number in range(days * bench.DAY)]


def compare(both):
    """Both ways hold the same rows, but for the moments at which they were answered."""
    held = [rules.read_file(it.path) if it.way == JOURNAL else rules.of_sqlite(it.path) for it in both]
    counts = [sorted(name[0] for name in it.rows) for it in held]
    if counts[0] != counts[1]:
        raise bench.Wrong("the journal and the file hold other numbers of rows")


def measure(given):
    """The rows of the table: what was measured, and what of each way."""
    room = tempfile.mkdtemp(prefix="anki-journals-", dir=given.room)
    try:
        files = bench.Files(room, bench.path_of(bench.PROGRAM), given.seed, given.notes)
        both, day = begun(files), answers(files, 1)
        compare(both)
        at_first, one_day, growth, year, after = {}, {}, {}, {}, {}
        opened = bench.in_turn(given.runs, {it.way: lambda it=it: (it.copy().desk([]),) for it in both})
        days = bench.in_turn(given.runs, {it.way: lambda it=it: (it.copy().desk(day),) for it in both})
        for it in both:
            at_first[it.way], one_day[it.way] = opened[it.way], bench.less(days[it.way], opened[it.way])
            copy = it.copy()
            copy.desk(day)
            growth[it.way] = copy.size() - it.size()
        old = []
        for it in both:
            kept = Kept(it.way, it.path + ".year")
            shutil.copyfile(it.path, kept.path)
            year[it.way] = kept.desk(answers(files, given.days))
            old.append(kept)
        compare(old)
        after = bench.in_turn(given.runs, {it.way: lambda it=it: (it.copy().desk([]),) for it in old})
        sizes = {it.way: (it.size(), kept.size()) for it, kept in zip(both, old)}
        return rows_of(given, at_first, one_day, growth, year, after, sizes) + [whole_row(old[0])]
    finally:
        shutil.rmtree(room)


def whole_row(kept):
    held = rules.read_file(kept.path)
    size = len(rules.payload_of(dict(rules.change_between(rules.Collection(), held), all=True)))
    return "the same collection after a download into a new journal", mega(size), ""


def mega(size):
    return "%.2f MB" % (size / 1e6)


def spent(taken):
    return "%s ms, %s ms" % (bench.number_text(taken.processor), bench.number_text(taken.elapsed))


def rows_of(given, at_first, one_day, growth, year, after, sizes):
    commits = given.days * bench.DAY
    both = lambda row, of: (row, *(of(way) for way in (JOURNAL, SQLITE)))
    return [
        both("a day of {} answers, a commit each, after the opening: processor, elapsed".format(bench.DAY), lambda way: spent(one_day[way])),
        both("bytes that this day adds to the files", lambda way: "{:,}".format(growth[way])),
        both("opening at first: processor, elapsed; memory", lambda way: "%s; %.0f MB" % (spent(at_first[way]), at_first[way].memory)),
        both("{:,} answers in one run: processor, elapsed".format(commits), lambda way: spent(year[way])),
        both("opening after these: processor, elapsed; memory", lambda way: "%s; %.0f MB" % (spent(after[way]), after[way].memory)),
        both("the files at first, and after these", lambda way: "%s, %s" % tuple(map(mega, sizes[way]))),
        both("bytes that a day added on average", lambda way: "{:,.0f}".format((sizes[way][1] - sizes[way][0]) / given.days)),
    ]


def text_of(given, rows):
    head = ["Made by `bench/journals.py`, over a collection of {:,} notes; {}, on {}.".format(given.notes, "the median of %d runs" % given.runs if given.runs > 1 else "one run",
                                                                                             datetime.date.today().isoformat()), bench.machine() + ".", ""]
    return "\n".join(head + ["| what | journal | SQLite |", "|---|---:|---:|"] + ["| %s |" % " | ".join(row) for row in rows]) + "\n"


def arguments(words):
    reader = argparse.ArgumentParser(description=__doc__, formatter_class=argparse.RawDescriptionHelpFormatter)
    reader.add_argument("--anki")
    reader.add_argument("--notes", default=3_000, type=int)
    reader.add_argument("--days", default=365, type=int)
    reader.add_argument("--runs", default=5, type=int)
    reader.add_argument("--seed", default=7, type=int)
    reader.add_argument("--room")
    given = reader.parse_args(words)
    if not 1 <= given.notes <= 20_000 or given.days < 1 or given.runs < 1 or not 0 <= given.seed < 2**64:
        reader.error("there are 1 to 20,000 notes, and at least one day and one run")
    return given


def main(words):
    given = arguments(words)
    bench.places(argparse.Namespace(anki=given.anki, ankid=None))
    try:
        print(text_of(given, measure(given)), end="")
    except (bench.Wrong, rules.Damaged) as fault:
        print("journals.py: %s" % fault, file=sys.stderr)
        return 1
    return 0


if __name__ == "__main__":
    sys.exit(main(sys.argv[1:]))
