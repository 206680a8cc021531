#!/usr/bin/env python3
"""Measures what a lab costs whose messages are lost, come twice or again, and whose syncs are crossed by others, at each of some numbers of syncs.

    bench/lab_losses.py [--anki PATH] [--syncs N,N] [--runs N]

Each work is a script of two devices which take turns: the clock goes on, a review is made, and a device syncs; of each work the turns meet one kind of mishap. The program is the one in dist/, the
one that ANKI_PROGRAM names, or that of --anki. Each number is the median of the runs; a run is a process of its own, from its start to its end, and the works take turns. How each sync ended is
compared with what the rules say, and that at the end both devices and the server hold each review once. It prints a table for docs/SPEED.md.
"""
import argparse
import datetime
import os
import sys

HERE = os.path.dirname(os.path.realpath(__file__))
sys.dont_write_bytecode = True
sys.path.insert(0, HERE)

import bench  # noqa: E402

# B's clock is half a second ahead, so that reviews of one moment have two ids.
OPENING = ("device A", "device B", "shift B 500", "review A 5 3 1", "sync A", "sync B")
ENDING = ("sync A", "sync B", "sync A", "count A", "count B", "count server")
BEGIN, STEP = 1_700_000_000_000, 60_000
FINISHED, LOST, LATE, DROPPED = "finished", "lost", "refused 409 base", "refused 409 no session"


def plain(one, other):
    return ["sync " + one]


def reply_lost(one, other):
    return ["lose %s 4 reply" % one, "sync " + one]


def all_twice(one, other):
    return ["repeat %s %d" % (one, call) for call in range(7)] + ["sync " + one]


def finish_lost(one, other):
    return ["lose %s %d reply" % (one, call) for call in (6, 7, 8)] + ["sync " + one, "sync " + one]


def crossed(one, other):
    return ["review %s 6 4 1" % other, "cross %s 6 %s" % (one, other), "sync " + one]


def session_again(one, other):
    return ["replay %s 3 0 7" % one, "sync " + one, "sync " + one]


# Of each work: words for it, the lines of a turn of one device beside its clock and its review, and how the syncs of a turn end, whose they are by place: 0 is the device's, 1 the other's.
WORKS = (("nothing is lost", plain, ((0, FINISHED),)),
         ("in each sync the reply to a chunk is lost", reply_lost, ((0, FINISHED),)),
         ("each request comes twice", all_twice, ((0, FINISHED),)),
         ("each second sync gets no reply to its finish", finish_lost, ((0, LOST), (0, FINISHED))),
         ("another device's sync crosses each second one", crossed, ((1, FINISHED), (0, LATE))),
         ("an older session comes again in each second sync", session_again, ((0, DROPPED), (0, FINISHED))))


class Script:
    """The script of a work with so many syncs, those at its beginning and its end not counted, and what it is to print."""

    def __init__(self, work, syncs):
        _, turn, ends = work
        self.lines, self.ends = list(OPENING), ["sync A: finished", "sync B: finished"]
        for number in range(syncs // len(ends)):
            devices = "AB" if number % 2 == 0 else "BA"
            self.lines += ["clock %d" % (BEGIN + STEP * (number + 1)), "review %s 5 3 1" % devices[0], *turn(*devices)]
            self.ends += ["sync %s: %s" % (devices[whose], end) for whose, end in ends]
        self.lines.append("clock %d" % (BEGIN + STEP * (syncs + 1)))
        self.lines += ENDING
        reviews = sum(line.startswith("review ") for line in self.lines)
        self.counted = ["notes 0 cards 0 reviews %d graves 0 types 3 decks 1 options 1" % reviews] * 3

    def run(self):
        taken, printed = bench.run([bench.path_of(bench.PROGRAM), "-", "-", "lab"], bench.lines(*self.lines))
        self.compare(printed.decode().splitlines())
        return taken, printed

    def compare(self, printed):
        for place, (line, wanted) in enumerate(zip(printed, self.ends), 1):
            if line != wanted:
                raise bench.Wrong("line %d that is printed: %s, and not %s" % (place, line, wanted))
        if printed[-3:] != self.counted:
            raise bench.Wrong("the end: %s, and not %s" % (", ".join(printed[-3:]), self.counted[0]))


def measure(given):
    """The table of all numbers of syncs."""
    table = bench.Table()
    for syncs in given.syncs:
        scripts = {work[0]: Script(work, syncs) for work in WORKS}
        taken = bench.in_turn(given.runs, {name: script.run for name, script in scripts.items()})
        for name in scripts:
            table.put(name, bench.PROGRAM, syncs, taken[name])
    return table


def spent(taken):
    return "%s ms, %s ms, %.0f MB" % (bench.number_text(taken.processor), bench.number_text(taken.elapsed), taken.memory)


def table_text(table, sizes):
    """The table as Markdown: of each work what it takes at each number of syncs, and how much the processor time grows from the first to the last."""
    body = ["| two devices of a lab, of whose syncs | %s | growth |" % " | ".join("{:,} syncs".format(size) for size in sizes), "|---|" + "---:|" * (len(sizes) + 1)]
    for name, sides in table.rows.items():
        taken = [sides[bench.PROGRAM][size] for size in sizes]
        body.append("| %s | %s | %s |" % (name, " | ".join(map(spent, taken)), bench.growth_text(taken[0].processor, taken[-1].processor)))
    return "\n".join(body) + "\n"


def told(table, sizes):
    """Of each work whether it grows no faster than its syncs."""
    first, last = sizes[0], sizes[-1]
    for name, sides in table.rows.items():
        taken = sides[bench.PROGRAM]
        yield bench.within("%s: %s syncs by %s" % (name, "{:,}".format(last), "{:,}".format(first)), bench.times(taken[last].processor, taken[first].processor), bench.SLACK * last / first)


def text_of(given, table):
    runs = "the median of %d runs" % given.runs if given.runs > 1 else "one run"
    head = ["Made by `bench/lab_losses.py`: a review before each turn. Each cell is processor time, elapsed time, and the peak of memory; {}, on {}.".format(runs, datetime.date.today().isoformat()), bench.machine() + ".", ""]
    tail = [""] + list(told(table, given.syncs)) if len(given.syncs) > 1 else []
    return "\n".join(head) + "\n" + table_text(table, given.syncs) + "".join(line + "\n" for line in tail)


def arguments(words):
    reader = argparse.ArgumentParser(description=__doc__, formatter_class=argparse.RawDescriptionHelpFormatter)
    reader.add_argument("--anki", default=os.environ.get("ANKI_PROGRAM"))
    reader.add_argument("--syncs", default=[500, 1_000, 2_000], type=lambda text: [int(size) for size in text.split(",")])
    reader.add_argument("--runs", default=5, type=int)
    given = reader.parse_args(words)
    if any(not 2 <= syncs <= 1_000_000 or syncs % 2 for syncs in given.syncs) or given.syncs != sorted(set(given.syncs)) or given.runs < 1:
        reader.error("the numbers of syncs ascend, each even and 2 to 1,000,000, and there is at least one run")
    return given


def main(words):
    given = arguments(words)
    bench.places(argparse.Namespace(anki=given.anki, ankid=None))
    try:
        print(text_of(given, measure(given)), end="")
    except bench.Wrong as fault:
        print("lab_losses.py: %s" % fault, file=sys.stderr)
        return 1
    return 0


if __name__ == "__main__":
    sys.exit(main(sys.argv[1:]))
