#!/usr/bin/env python3
"""Measures what a filtered deck costs: a fifth of all cards moves in, moves in again, and goes home, at each of some sizes.

    bench/filtered.py [--anki PATH] [--cards N,N] [--runs N] [--seed N] [--room FOLDER]

Each size is a collection of so many cards, of the notes that `anki - - make` would make, written into a file. The program is the one in dist/, the one that ANKI_PROGRAM names, or that of
--anki. Each number is the median of the runs; a run is a process of its own over a file of its own, and the works take turns. What a line takes is what a process takes that does it, less one
that does only what comes before it; the memory is the peak of the whole process. Which cards moved in, and in which order, is compared with what SQLite's own order gives first. The files lie in a
folder in FOLDER, which is to be on the disk that is measured, and goes at the end. It prints a table for docs/SPEED.md.
"""
import argparse
import datetime
import os
import shutil
import sqlite3
import sys
import tempfile

HERE = os.path.dirname(os.path.realpath(__file__))
sys.dont_write_bytecode = True
sys.path.insert(0, HERE)

import bench  # noqa: E402
import made  # noqa: E402

# Of each plan: words for it, its search, its order, and where a card stands in it, as a term of SQL over a collection in which the deck was built. Each card of the collection meets each search.
AT_HOME = "case when odid > 0 then odue else due end"
PLANS = (("without a search, the shortest intervals first", "", 2, "ivl"),
         ("by a search in the texts of notes, the longest due first", "front is:due", 6, AT_HOME))


def notes_of(cards):
    """How many notes have so many cards: of three in a row, two have two cards and one has one."""
    return cards // 5 * 3


class Decks:
    """The collection of a size, with a filtered deck of each plan, none of them built."""

    def __init__(self, files):
        self.files, self.cards = files, len(files.cards)
        self.count = self.cards // 5
        said = ['filter ["Exam %d","%s",%d,%d]' % (place, search, self.count, order) for place, (_, search, order, _) in enumerate(PLANS)]
        _, printed = bench.desk_on(files.whole, said)
        self.ids = [int(line.split()[1]) for line in printed.decode().splitlines()]

    def desk(self, said):
        """What a desk takes that does these lines over a copy."""
        return bench.desk_on(self.files.copy(self.files.whole), said)

    def works(self):
        """What is measured: words for it, the lines before it, its line, and what that prints."""
        for (plan, *_), deck in zip(PLANS, self.ids):
            yield "`build` " + plan, (), "build %d" % deck, "built %d" % self.count
        built = ("build %d" % self.ids[0],)
        yield "`build` again", built, built[0], "built %d" % self.count
        yield "`empty`", built, "empty %d" % self.ids[0], "emptied %d" % self.count

    def compare(self):
        """Each line prints what it should, and the cards that moved in are the first of all, in their order."""
        for _, before, line, wanted in self.works():
            printed = self.desk((*before, line))[1].decode().splitlines()[-1]
            if printed != wanted:
                raise bench.Wrong("%s: %s, and not %s" % (line, printed, wanted))
        for (plan, _, _, place), deck in zip(PLANS, self.ids):
            path = self.files.copy(self.files.whole)
            bench.desk_on(path, ["build %d" % deck])
            link = sqlite3.connect(path)
            moved = link.execute("select id from cards where did = ? order by due", (deck,)).fetchall()
            first = link.execute("select id from cards order by %s, id limit ?" % place, (self.count,)).fetchall()
            link.close()
            if moved != first:
                raise bench.Wrong("other cards moved in, or in another order: " + plan)

    def measure(self, runs, table):
        works = list(self.works())
        scripts = {(), *(said for _, before, line, _ in works for said in (before, (*before, line)))}
        taken = bench.in_turn(runs, {said: lambda said=said: self.desk(said) for said in sorted(scripts)})
        table.put("opening", bench.PROGRAM, self.cards, taken[()])
        for name, before, line, _ in works:
            table.put(name, bench.PROGRAM, self.cards, bench.less(taken[(*before, line)], taken[before]))


def measure(given):
    """The table of all sizes."""
    table = bench.Table()
    for cards in given.cards:
        room = tempfile.mkdtemp(prefix="anki-filtered-", dir=given.room)
        try:
            decks = Decks(bench.Files(room, bench.path_of(bench.PROGRAM), given.seed, notes_of(cards)))
            decks.compare()
            decks.measure(given.runs, table)
        finally:
            shutil.rmtree(room)
    return table


def spent(taken):
    return "%s ms, %s ms, %.0f MB" % (bench.number_text(taken.processor), bench.number_text(taken.elapsed), taken.memory)


def table_text(table, sizes):
    """The table as Markdown: of each work what it takes at each size, and how much the processor time grows from the first to the last."""
    body = ["| work | %s | growth |" % " | ".join("{:,} of {:,} cards".format(size // 5, size) for size in sizes), "|---|" + "---:|" * (len(sizes) + 1)]
    for name, sides in table.rows.items():
        taken = [sides[bench.PROGRAM][size] for size in sizes]
        body.append("| %s | %s | %s |" % (name, " | ".join(map(spent, taken)), bench.growth_text(taken[0].processor, taken[-1].processor)))
    return "\n".join(body) + "\n"


def told(table, sizes):
    """Of each work whether it grows no faster than its data."""
    first, last = sizes[0], sizes[-1]
    for name, sides in table.rows.items():
        taken = sides[bench.PROGRAM]
        yield bench.within("%s: %s cards by %s" % (name, "{:,}".format(last), "{:,}".format(first)), bench.times(taken[last].processor, taken[first].processor), bench.SLACK * last / first)


def text_of(given, table):
    runs = "the median of %d runs" % given.runs if given.runs > 1 else "one run"
    head = ["Made by `bench/filtered.py`: a fifth of all cards moves in. Each cell is processor time, elapsed time, and the peak of memory; {}, on {}.".format(runs, datetime.date.today().isoformat()), bench.machine() + ".", ""]
    tail = [""] + list(told(table, given.cards)) if len(given.cards) > 1 else []
    return "\n".join(head) + "\n" + table_text(table, given.cards) + "".join(line + "\n" for line in tail)


def arguments(words):
    reader = argparse.ArgumentParser(description=__doc__, formatter_class=argparse.RawDescriptionHelpFormatter)
    reader.add_argument("--anki", default=os.environ.get("ANKI_PROGRAM"))
    reader.add_argument("--cards", default=[12_500, 25_000, 50_000], type=lambda text: [int(size) for size in text.split(",")])
    reader.add_argument("--runs", default=5, type=int)
    reader.add_argument("--seed", default=7, type=int)
    reader.add_argument("--room")
    given = reader.parse_args(words)
    if any(not 5 <= cards <= 499_995 or cards % 5 for cards in given.cards) or given.cards != sorted(set(given.cards)) or given.runs < 1 or not 0 <= given.seed < made.ALL:
        reader.error("the numbers of cards ascend, each 5 to 499,995 and a multiple of 5, and there is at least one run")
    return given


def main(words):
    given = arguments(words)
    bench.places(argparse.Namespace(anki=given.anki, ankid=None))
    try:
        print(text_of(given, measure(given)), end="")
    except bench.Wrong as fault:
        print("filtered.py: %s" % fault, file=sys.stderr)
        return 1
    return 0


if __name__ == "__main__":
    sys.exit(main(sys.argv[1:]))
