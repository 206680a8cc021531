"""What bench/bench.py measures and prints, over the program in dist/ and over stand-ins for it.

    python3 -m unittest discover -s bench/tests
"""
import contextlib
import io
import os
import shutil
import socket
import sqlite3
import sys
import tempfile
import threading
import unittest
from unittest import mock

TOP = os.path.dirname(os.path.dirname(os.path.dirname(os.path.realpath(__file__))))
sys.dont_write_bytecode = True
sys.path.insert(0, os.path.join(TOP, "bench"))

import bench  # noqa: E402
import in_python  # noqa: E402
import made  # noqa: E402
import transfers  # noqa: E402

SIZE = 30


class Rooms(unittest.TestCase):
    def setUp(self):
        self.room = tempfile.mkdtemp(prefix="anki-bench-test-")
        self.addCleanup(shutil.rmtree, self.room)

    def path(self, *names):
        return os.path.join(self.room, *names)

    def stand_in(self, text, name="stand-in"):
        """A program that is this shell script."""
        with open(self.path(name), "w", encoding="utf-8") as file:
            file.write("#!/bin/sh\n" + text)
        os.chmod(self.path(name), 0o755)
        return self.path(name)

    def files(self, size=SIZE):
        """A collection of so many notes, over the program in dist/."""
        self.left_out = bench.places(bench.arguments([]))
        return bench.Files(self.room, bench.path_of(bench.PROGRAM), 7, size)


def drawn(seed):
    """The words of splitmix64, as they are drawn one after another."""
    state = seed
    while True:
        state = (state + made.STEP) % made.ALL
        z = (state ^ (state >> 30)) * 0xBF58476D1CE4E5B9 % made.ALL
        z = (z ^ (z >> 27)) * 0x94D049BB133111EB % made.ALL
        yield z ^ (z >> 31)


class MadeRows(unittest.TestCase):
    def test_the_first_words_are_those_of_the_generator(self):
        # From outside: the first words of splitmix64 from the seed 1234567.
        self.assertEqual([made.nth_word(1234567, n) for n in range(3)], [6457827717110365317, 3203168211198807973, 9817491932198370423])

    def test_rows_are_those_of_words_drawn_in_the_order_of_the_rows(self):
        for seed in (0, 7, made.ALL - 1):
            words = drawn(seed)
            notes, cards, reviews = (list(rows(seed, SIZE)) for rows in (made.notes_of, made.cards_of, made.reviews_of))
            card = review = 0
            for number, note in enumerate(notes):
                back, guid = next(words) % 1000, next(words) % 65536
                self.assertEqual(note[:3] + note[6:7], (made.FIRST_ID + number, "%d-%04x" % (note[0], guid), 3 if number % 3 else 1, "front %d\x1fback %d" % (number, back)))
                for place in range(2 if number % 3 else 1):
                    ivl, due, factor = 1 + next(words) % 100, -(next(words) % 10), 1300 + 50 * (next(words) % 25)
                    self.assertEqual(cards[card][:4] + cards[card][8:11], (made.FIRST_ID + card, note[0], 1, place, due, ivl, factor))
                    for _ in range(4):
                        ease, time = 2 + next(words) % 3, 1000 + next(words) % 9000
                        self.assertEqual(reviews[review], (made.FIRST_REVIEW + review, made.FIRST_ID + card, -1, ease, ivl, 1, factor, time, 1))
                        review += 1
                    card += 1
            self.assertEqual((card, review), (len(cards), len(reviews)))

    def test_the_line_of_a_size(self):
        self.assertEqual(made.line_of(3000), "notes 3012 cards 5012 reviews 20180 requests 8 finished\n")
        self.assertEqual(made.line_of(1), "notes 13 cards 13 reviews 5 requests 7 finished\n")
        self.assertEqual([made.line_of(size).split()[7] for size in (67, 68)], ["7", "8"])


class Sides(Rooms):
    def test_the_program_opens_the_file_and_finds_it_sound(self):
        files = self.files()
        _, printed = bench.desk(bench.PROGRAM, files, ["check", "find deck:Default"])
        self.assertEqual(printed.decode().splitlines(), ["sound", "found 50 " + " ".join(map(str, files.cards))])

    def test_both_print_the_same(self):
        bench.compare(self.files())

    def test_other_answers_are_wrong(self):
        files = self.files()
        bench.PLACES[bench.PROGRAM] = self.stand_in('while read -r line; do echo "found 1 5"; done\n')
        with self.assertRaises(bench.Wrong):
            bench.compare(files)

    def test_a_day_leaves_a_review_of_each_answer_on_each_side(self):
        files = self.files()
        for side in (bench.PROGRAM, bench.PYTHON):
            _, printed = bench.desk(side, files, files.day())
            self.assertEqual([line.split()[0] for line in printed.decode().splitlines()], ["answered"] * 50)
            link = sqlite3.connect(files.path("work.anki"))
            self.assertEqual(link.execute("select count(*), sum(id > ?) from revlog", (made.FIRST_ID + 10**11 + 10**9,)).fetchone(), (250, 50), side)
            self.assertEqual(link.execute("select count(*) from cards where reps = 5").fetchone(), (50,), side)
            link.close()

    def test_days_are_over_other_cards(self):
        files = self.files(300)
        (name, said, days), *_ = bench.works_of(files)
        self.assertEqual((name, days, len(said), len(files.cards)), (bench.A_DAY, 2, 2 * bench.DAY, 500))
        for side in (bench.PROGRAM, bench.PYTHON):
            _, printed = bench.desk(side, files, said)
            self.assertEqual([line.split()[0] for line in printed.decode().splitlines()], ["answered"] * len(said), side)
            self.assertEqual(self.answered(files), files.cards[:len(said)], side)
        if bench.SHELL in bench.PLACES:
            bench.shell(files, bench.days_in_sql(files))
            self.assertEqual(self.answered(files), files.cards[:len(said)])

    def answered(self, files):
        """The cards that have one review more than they were made with."""
        link = sqlite3.connect(files.path("work.anki"))
        found = [card for (card,) in link.execute("select id from cards where reps = 5 and (select count(*) from revlog where cid = cards.id) = 5 order by id")]
        link.close()
        return found

    def test_there_are_as_many_days_as_there_are_cards_for(self):
        files = self.files()
        for cards, days in ((50, 1), (2 * bench.DAY - 1, 1), (2 * bench.DAY, 2), (100 * bench.DAY, bench.DAYS)):
            files.cards = list(range(cards))
            self.assertEqual(files.days(), days)

    def test_python_counts_the_cards_that_are_learned(self):
        files = self.files()
        link = sqlite3.connect(files.copy(files.indexed))
        desk = in_python.Desk(link, lambda: 1_700_000_000_000)
        today, now = desk.days(desk.clock())["today"], 1_700_000_000
        # Those within 20 minutes, and those of whole days up to today.
        for place, (queue, due) in enumerate(((1, now), (1, now + 1199), (1, now + 1200), (3, today - 1), (3, today), (3, today + 1), (-1, now))):
            link.execute("update cards set queue = ?, due = ? where id = ?", (queue, due, files.cards[place]))
        self.assertEqual(desk.counts(), "new 0 learning 4 review 43")
        link.close()

    @unittest.skipUnless(shutil.which("sqlite3"), "the shell is not there")
    def test_the_shell_makes_the_same_rows_and_reads_them(self):
        files = self.files()
        bench.shell(files, bench.days_in_sql(files))
        link = sqlite3.connect(files.path("work.anki"))
        self.assertEqual(link.execute("select count(*) from revlog").fetchone(), (250,))
        self.assertEqual(link.execute("select count(*) from cards where reps = 5").fetchone(), (50,))
        link.close()
        self.assertEqual(bench.shell(files, bench.rows_in_sql())[1], b"")

    def test_both_import_and_export_the_same_notes(self):
        files = self.files()
        exported = []
        for side in (bench.PROGRAM, bench.PYTHON):
            path = files.copy(files.new)
            _, printed = bench.run(bench.words_of(side, path, "import", "1", "1"), files.table_bytes())
            self.assertEqual(printed, b"added 30 updated 0 same 0\n")
            exported.append(bench.run(bench.words_of(side, path, "export", "1"))[1])
        self.assertEqual(exported, [files.table_bytes()] * 2)

    def test_python_makes_the_rows_of_the_line(self):
        _, printed = bench.run(bench.words_of(bench.PYTHON, "-", "make", "7", str(SIZE)))
        self.assertEqual(printed.decode().strip(), made.line_of(SIZE).split(" requests")[0])


class Processes(Rooms):
    def test_what_a_process_takes_is_its_own(self):
        taken, printed = bench.run([self.stand_in("cat\n")], b"abc")
        self.assertEqual(printed, b"abc")
        self.assertLess(taken.memory, 40)
        self.assertGreater(taken.elapsed, 0)
        busy, _ = bench.run([sys.executable, "-S", "-c", "held = bytearray(100_000_000); sum(range(3_000_000))"])
        self.assertGreater(busy.processor, 0.01)
        self.assertGreater(busy.memory, 90)

    def test_a_process_that_fails_is_wrong(self):
        for text in ("exit 3\n", "kill -9 $$\n"):
            with self.assertRaises(bench.Wrong):
                bench.run([self.stand_in(text)])
        self.assertEqual(bench.run([self.stand_in("exit 3\n")], status=3)[1], b"")

    def test_what_is_not_there_is_left_out_by_its_name(self):
        older = self.stand_in("echo usage\nexit 2\n")
        left_out = bench.places(bench.arguments(["--anki", older, "--ankid", self.path("none")]))
        self.assertEqual([text.split(" (")[0] for text in left_out if "shell" not in text], ["upload, sync and download", "`make`"])
        newer = self.stand_in("echo notes 13 cards 13 reviews 5 requests 7 finished\n")
        self.assertEqual([text for text in bench.places(bench.arguments(["--anki", newer, "--ankid", newer])) if "shell" not in text], [])


# It runs the program over its input, and says that it executed 1,000,000 instructions, and 10 for each line of the input.
VALGRIND = '''[ "$1 $2 $3" = "--tool=cachegrind --cache-sim=no --cachegrind-out-file=/dev/null" ] && shift 3 && cat > "$0.given" && "$@" < "$0.given" || exit 1
echo "==77== I   refs:      $((1000000 + 10 * $(wc -l < "$0.given")))" >&2
'''


class Instructions(Rooms):
    def stand_in_for_valgrind(self, text=VALGRIND):
        bench.PLACES[bench.VALGRIND] = self.stand_in(text)

    def grown(self, *works):
        """A table in which these works take a second at the first size and 9 at the last, and another one grows as the data."""
        table = bench.Table()
        for size in (SIZE, 2 * SIZE):
            for work in (*works, "other"):
                seconds = 9.0 if size > SIZE and work != "other" else 1.0
                table.put(work, bench.PROGRAM, size, bench.Taken(seconds, seconds, 20.0))
        return table

    def counted(self, table, count):
        """What of a table is counted, and what is said."""
        given = bench.arguments(["--sizes", "%d,%d" % (SIZE, 2 * SIZE), "--room", self.room])
        with contextlib.redirect_stderr(io.StringIO()) as said:
            bench.count_fast(given, table, count)
        return table.instructions, said.getvalue()

    def test_the_count_is_read_from_what_valgrind_says(self):
        for said, count in (("==7== I   refs:      6,081,475\n", 6081475), ("==1234567== Cachegrind\n==1234567== \n==1234567== I refs:        999\n", 999)):
            self.stand_in_for_valgrind("printf '%%s' '%s' >&2; echo I refs: 5\n" % said)
            self.assertEqual(bench.instructions(["anki"]), (count, b"I refs: 5\n"))

    def test_the_program_gets_its_words_and_its_input_under_valgrind(self):
        self.stand_in_for_valgrind()
        self.assertEqual(bench.instructions(["/bin/sh", "-c", 'echo "$0"; cat', "a b"], b"c\nd\n"), (1_000_020, b"a b\nc\nd\n"))

    def test_what_gives_no_count_or_fails_is_wrong(self):
        for text in ("echo '==7== D refs: 5' >&2\n", "echo 'I refs: 5' >&2\n", "echo '==7== I refs: 5' >&2; exit 3\n", "kill -9 $$\n"):
            self.stand_in_for_valgrind(text)
            with self.assertRaises(bench.Wrong):
                bench.instructions(["anki"])

    def test_an_opening_is_subtracted_from_one_round_of_a_work(self):
        files = self.files(300)
        self.stand_in_for_valgrind()
        works = [work for work, _, _ in bench.works_of(files)]
        self.assertEqual(bench.count_after(files, works), dict(zip(works, (10 * bench.DAY, 10 * len(bench.FINDS), 10, 10, 10, 10))))
        self.assertEqual(bench.count_after(files, works[-1:]), {"`check`": 10})

    def test_nothing_is_subtracted_from_a_whole_process(self):
        files = self.files()
        self.stand_in_for_valgrind()
        works = ("opening", bench.A_DAY, "check", "import of as many new notes", "export of the notes of type 3", "`make`")
        self.assertEqual(bench.count_whole(files, works), dict(zip(works, (1_000_000, 1_000_500, 1_000_010, 1_000_300, 1_000_000, 1_000_000))))
        self.assertEqual(bench.count_whole(files, ["opening"]), {"opening": 1_000_000})

    def test_of_a_transfer_the_device_is_counted_and_what_it_goes_on_from_is_done(self):
        ran = []

        @contextlib.contextmanager
        def served(files):
            yield None, lambda path, where, word: [path, where, word], {work: (lambda work=work: work + ".anki", work) for work in ("upload", "sync", "download")}

        counted = lambda words: (ran.append(["counted", *words]) or len(ran) * 1000, b"")
        done = lambda words: (ran.append(["done", *words]), b"")
        over = lambda server, transfer: (transfer("there"), 0.5, 20.0)
        with mock.patch.multiple(bench, served=served, instructions=counted, run=done), mock.patch.object(bench.transfers, "over_fresh_server", over):
            self.assertEqual(bench.count_whole(mock.Mock(**{"table_bytes.return_value": b"", "day.return_value": []}), {"sync" + bench.OVER_LOOPBACK}), {"sync" + bench.OVER_LOOPBACK: 2000})
        self.assertEqual(ran, [["done", "upload.anki", "there", "upload"], ["counted", "sync.anki", "there", "sync"], ["done", "download.anki", "there", "download"]])

    def test_what_grows_too_fast_in_time_is_counted_at_the_first_and_the_last_size(self):
        self.files()
        self.stand_in_for_valgrind()
        self.assertEqual(self.counted(self.grown("`check`", bench.A_DAY), bench.count_after), ({"`check`": 1.0, bench.A_DAY: 100 / 50}, ""))
        self.assertEqual(self.counted(self.grown("import of as many new notes"), bench.count_whole), ({"import of as many new notes": 1_000_600 / 1_000_300}, ""))
        self.assertEqual([name for name in os.listdir(self.room) if name.startswith("anki-bench-")], [])

    def test_nothing_is_counted_where_no_time_grows_too_fast(self):
        self.files()
        self.stand_in_for_valgrind("exit 1\n")
        self.assertEqual(self.counted(self.grown(), bench.count_after), ({}, ""))

    def test_nothing_is_counted_without_valgrind(self):
        with mock.patch.object(shutil, "which", lambda name: None):
            self.files()
        self.assertEqual(self.counted(self.grown("`check`"), bench.count_after), ({}, ""))

    def test_what_valgrind_fails_at_is_not_counted_and_told(self):
        self.files()
        self.stand_in_for_valgrind("echo '==7== no such instruction' >&2; exit 1\n")
        instructions, said = self.counted(self.grown("`check`"), bench.count_after)
        self.assertEqual(instructions, {})
        self.assertIn("ended with 1 under valgrind: ==7== no such instruction", said)

    def test_a_difference_that_is_none_is_not_counted(self):
        for first, last in ((0, 5), (5, 0), (5, -5), (-5, -50)):
            found = iter((first, last))
            with mock.patch.dict(bench.PLACES, {bench.VALGRIND: "valgrind"}), mock.patch.object(bench, "files_of", lambda given, size: contextlib.nullcontext()):
                self.assertEqual(self.counted(self.grown("`check`"), lambda files, works: {"`check`": next(found)}), ({}, ""))

    @unittest.skipUnless(shutil.which("valgrind"), "valgrind is not there")
    def test_the_program_executes_more_over_more_cards(self):
        self.files()
        instructions, said = self.counted(self.grown("`check`"), bench.count_after)
        self.assertEqual((list(instructions), said), (["`check`"], ""))
        self.assertTrue(1.2 < instructions["`check`"] < 2.5, instructions)


class Tables(unittest.TestCase):
    def test_a_median_is_of_each_number(self):
        taken = [bench.Taken(3.0, 1.0, 5.0), bench.Taken(1.0, 2.0, 9.0), bench.Taken(2.0, 9.0, 7.0)]
        self.assertEqual(bench.median(taken), bench.Taken(2.0, 2.0, 7.0))
        self.assertEqual(bench.less(bench.Taken(2.0, 1.0, 7.0), bench.Taken(0.5, 3.0, 6.0)), bench.Taken(1.5, 0.0, 7.0))

    def test_a_table_has_a_row_for_each_side_and_tells_growth(self):
        table = bench.Table()
        for size, seconds in ((3, 0.002), (20, 0.0144)):
            table.put("work", "anki", size, bench.Taken(seconds, 0.5, 20.4))
            table.put("other", "anki", size, bench.Taken(0.0, 0.5, 20.4))
            table.put("work", "Python", size, bench.Taken(seconds / 2, 1.25, 30.0))
        self.assertEqual(table.text([3, 20]).splitlines()[2:], ["| work | anki | 2.00 | 14.4 | 7.2 | 500 | 20 |", "| work | Python | 1.00 | 7.20 | 7.2 | 1,250 | 30 |",
                                                               "| other | anki | 0.00 | 0.00 |  | 500 | 20 |"])
        self.assertEqual([bench.number_text(ms / 1000) for ms in (0, 0.0034, 0.1, 9.99, 10, 1234)], ["0.00", "0.0034", "0.10", "9.99", "10.0", "1,234"])
        self.assertEqual(bench.behind(table, 20), ["work"])
        self.assertEqual(bench.behind_text(table, 20), "Python takes less processor time at 20 in work.\n")

    def test_sizes_are_those_of_make(self):
        self.assertEqual(bench.arguments(["--sizes", "20000,1"]).sizes, [1, 20_000])
        for words in (["--sizes", "0"], ["--sizes", "20001"], ["--runs", "0"], ["--seed", "18446744073709551616"], ["--sizes", "x"]):
            with contextlib.redirect_stderr(io.StringIO()), self.assertRaises(SystemExit):
                bench.arguments(words)

    def test_a_work_is_told_for_one_of_those_that_are_done(self):
        files = mock.Mock(cards=list(range(5 * bench.DAY)), day=lambda day: ["answer"] * bench.DAY, days=lambda: 5)
        of_one = [len(said) / times for _, said, times in bench.works_of(files)]
        self.assertEqual(of_one, [bench.DAY, len(bench.FINDS), 1, 1, 1, 1])
        taken = {(side, None): bench.Taken(1.0, 2.0, 9.0) for side in (bench.PROGRAM, bench.PYTHON)}
        taken.update({(side, name): bench.Taken(3.0, 7.0, 9.0) for side in (bench.PROGRAM, bench.PYTHON) for name, _, _ in bench.works_of(files)})
        table = bench.Table()
        files.size = 30
        with mock.patch.object(bench, "in_turn", lambda runs, jobs: taken), mock.patch.dict(bench.PLACES, clear=True):
            bench.measure_after(files, 1, table)
        self.assertEqual(table.rows["a page"][bench.PYTHON][30], bench.Taken(2.0 / bench.OF_PAGES, 5.0 / bench.OF_PAGES, 9.0))
        self.assertEqual(table.rows[bench.A_DAY][bench.PROGRAM][30], bench.Taken(2.0 / 5, 5.0 / 5, 9.0))

    def test_each_search_has_a_line_of_the_desk(self):
        self.assertEqual(len(in_python.FINDS), 12)
        self.assertEqual(bench.FINDS, ["find " + expression for expression in in_python.FINDS])


class Targets(unittest.TestCase):
    def tables(self, growth=5.0, python=2.0):
        """Tables in which the program takes a second at 3,000 and so many at 20,000, Python so many times that, and the shell a second always."""
        after, whole = bench.Table(), bench.Table()
        for size, seconds in ((3_000, 1.0), (20_000, growth)):
            for table, works in ((after, (bench.A_DAY, "`next`")), (whole, ("opening", "`make`"))):
                for work in works:
                    scale = 0.001 if work == "`next`" else 1.0
                    table.put(work, "anki", size, bench.Taken(seconds * scale, seconds * scale, 20.0))
                    table.put(work, "Python", size, bench.Taken(python * seconds * scale, seconds * scale, 20.0))
                table.put(works[0], "sqlite3", size, bench.Taken(2.0, 2.5, 5.0))
        return after, whole

    def told(self, *given):
        return [line.rsplit(": ", 1)[1] for line in bench.targets(*self.tables(*given), [3_000, 20_000])]

    def growth(self, after=(), whole=(), **places):
        """What is told of growth, where the rows of both tables take 9.5 times as long, and the instructions of these grow so many times."""
        tables = self.tables(9.5)
        for table, grown in zip(tables, (after, whole)):
            table.instructions.update(grown)
        with mock.patch.dict(bench.PLACES, places, clear=True):
            line = bench.targets(*tables, [3_000, 20_000])[-1]
        self.assertTrue(line.startswith("no row grows faster than its data: "), line)
        return line.split(": ", 1)[1]

    def test_targets_are_met_or_missed(self):
        self.assertEqual(self.told(), ["met"] * 7)
        self.assertEqual(self.told(6.0), ["met"] * 4 + ["missed", "missed", "met"])
        self.assertEqual(self.told(9.5)[:6], ["met"] * 2 + ["missed"] * 4)

    def test_rows_that_grow_in_time_alone_are_met_in_instructions_and_named(self):
        told = self.growth({bench.A_DAY: 6.748, "`next`": 8.333}, {"opening": 6.1, "`make`": 1.0}, valgrind="valgrind")
        self.assertEqual(told, "met in instructions (%s: 9.5 in time, 6.75 in instructions; `next`: 9.5 in time, 8.33 in instructions; "
                         "opening: 9.5 in time, 6.10 in instructions; `make`: 9.5 in time, 1.00 in instructions)" % bench.A_DAY)

    def test_rows_that_grow_in_instructions_too_are_missed(self):
        told = self.growth({bench.A_DAY: 8.34, "`next`": 6.0}, {"opening": 6.1, "`make`": 12.0}, valgrind="valgrind")
        self.assertEqual(told, "missed in time and in instructions (%s: 9.5 in time, 8.34 in instructions; `make`: 9.5 in time, 12.00 in instructions); "
                         "met in instructions (`next`: 9.5 in time, 6.00 in instructions; opening: 9.5 in time, 6.10 in instructions)" % bench.A_DAY)

    def test_rows_that_are_not_counted_are_missed(self):
        self.assertEqual(self.growth(), "missed in time in %s (9.5), `next` (9.5), opening (9.5), `make` (9.5), instructions not counted: no valgrind" % bench.A_DAY)
        told = self.growth({bench.A_DAY: 6.0}, {"opening": 9.0, "`make`": 6.0}, valgrind="valgrind")
        self.assertEqual(told, "missed in time and in instructions (opening: 9.5 in time, 9.00 in instructions); missed in time in `next` (9.5), instructions not counted: "
                         "valgrind gave no count; met in instructions (%s: 9.5 in time, 6.00 in instructions; `make`: 9.5 in time, 6.00 in instructions)" % bench.A_DAY)

    def test_a_transfer_is_judged_by_the_instructions_of_the_device(self):
        after, whole = self.tables()
        work = "upload" + bench.OVER_LOOPBACK
        for size, seconds in ((3_000, 1.0), (20_000, 9.0)):
            whole.put(work, "anki", size, bench.Taken(seconds, seconds, 20.0))
        whole.instructions[work] = 6.878
        self.assertEqual(bench.growth_told((after, whole), [3_000, 20_000]), "met in instructions (upload over the loopback: 9.0 in time, 6.88 in instructions)")

    def test_a_time_too_short_to_be_divided_by_is_not_judged(self):
        table = bench.Table()
        for work, first in (("short", 0.00009), ("long", 0.0001), ("as the data", 0.12)):
            for size, seconds in ((3_000, first), (20_000, 1.0)):
                table.put(work, "anki", size, bench.Taken(seconds, seconds, 20.0))
        self.assertEqual(list(bench.fast_in_time(table, [3_000, 20_000])), ["long"])

    def test_a_time_too_short_to_be_measured_tells_nothing(self):
        self.assertEqual(bench.within("work", bench.times(1.0, 0.0), 3), "work: nan, at most 3: not told")
        self.assertEqual(bench.within("work", bench.times(3.0, 1.0), 3, " ms"), "work: 3.00 ms, at most 3 ms: met")

    def test_rows_in_which_python_wins_are_named(self):
        self.assertEqual(self.told(5.0, 0.5)[:2], ["missed in %s at 20,000, `next` at 20,000" % bench.A_DAY, "missed in opening at 3,000, opening at 20,000"])

    def test_targets_of_rows_that_are_left_out_are_not_told(self):
        after, whole = self.tables()
        for table in (after, whole):
            for sides in table.rows.values():
                sides.pop("sqlite3", None)
        del whole.rows["`make`"]
        self.assertEqual(len(bench.targets(after, whole, [3_000, 20_000])), 4)
        self.assertEqual(len(bench.targets(after, whole, [3_000])), 2)


class Transfers(unittest.TestCase):
    def test_a_relay_counts_the_bytes_of_each_way(self):
        listener = socket.create_server(("127.0.0.1", 0))
        self.addCleanup(listener.close)

        def answer():
            link, _ = listener.accept()
            with link:
                while link.recv(4096):
                    pass
                link.sendall(b"0123456789" * 30_000)

        threading.Thread(target=answer, daemon=True).start()
        relay = transfers.Relay(listener.getsockname()[1])
        with socket.create_connection(("127.0.0.1", relay.port)) as link:
            link.sendall(b"a" * 100_001)
            link.shutdown(socket.SHUT_WR)
            got = 0
            while data := link.recv(65536):
                got += len(data)
        self.assertEqual(got, 300_000)
        self.assertEqual(relay.end(), (100_001, 300_000))

    def test_a_median_is_of_each_side(self):
        runs = [(bench.Taken(0.1 * n, 1.0 * n, 10.0 * n), 0.01 * (4 - n), 20.0 * n) for n in (1, 3, 2)]
        self.assertEqual(transfers.median_of(runs, 7, 8), transfers.Sides(0.2, 20.0, 0.02, 40.0, 2.0, 7, 8))

    def test_the_table_tells_both_sides(self):
        text = transfers.text_of([("upload", 3000, transfers.Sides(0.5, 20.4, 0.25, 31.0, 1.5, 1234567, 316))])
        self.assertEqual(text.splitlines()[2], "| upload | 3,000 | 500 | 20 | 250 | 31 | 1500 | 1,234,567 | 316 |")


class Whole(Rooms):
    def test_transfers_alone_make_the_third_table(self):
        with contextlib.redirect_stdout(io.StringIO()) as printed:
            self.assertEqual(bench.main(["--sizes", str(SIZE), "--runs", "1", "--room", self.room, "--transfers"]), 0)
        self.assertEqual([line.split("|")[1] for line in printed.getvalue().splitlines() if line.startswith("| ")][1:], [" upload ", " sync after a day of answers ", " download "])
        self.assertNotIn("## Targets", printed.getvalue())

    def test_a_small_run_fills_both_tables(self):
        with contextlib.redirect_stdout(io.StringIO()) as printed:
            self.assertEqual(bench.main(["--sizes", str(SIZE), "--runs", "1", "--room", self.room, "--page", self.path("page.md")]), 0)
        with open(self.path("page.md"), encoding="utf-8") as file:
            page = file.read()
        self.assertEqual(printed.getvalue(), page)
        self.assertIn("All sides run with GLIBC_TUNABLES=%s, as `bin/anki` runs the program" % os.environ["GLIBC_TUNABLES"], page)
        after, whole = page.split("## Both sides of a transfer")[0].split("## The work after the opening")[1].split("## Whole processes")
        for part, works in ((after, (bench.A_DAY, "`find`", "`next`", "`counts`", "a page", "`check`")), (whole, ("opening", bench.A_DAY, "check", "import", "export"))):
            for work in works:
                sides = [line.split("|")[2].strip() for line in part.splitlines() if line.startswith("| " + work)]
                self.assertEqual(sides[:2], ["anki", "Python"], work)
        self.assertIn("| upload over the loopback | anki |", whole)
        sides = page.split("## Both sides of a transfer")[1].split("## Targets")[0]
        self.assertEqual([line.split("|")[1:3] for line in sides.splitlines()[6:9]], [[" upload ", " 30 "], [" sync after a day of answers ", " 30 "], [" download ", " 30 "]])
        self.assertIn("- opening ahead of Python's at each size: ", page.split("## Targets")[1])
        self.assertIn("grows by more than 1.25 times the data is measured again, at the first and at the last size, in instructions, ", page.split("## Targets")[1])
        self.assertEqual(os.listdir(self.room), ["page.md"])

    def test_rows_that_grow_too_fast_in_time_are_told_in_instructions(self):
        self.stand_in(VALGRIND, "valgrind")
        measured = lambda work: lambda files, runs, table: table.put(work, bench.PROGRAM, files.size, bench.Taken(9.0 if files.size > SIZE else 1.0, 1.0, 20.0))
        stubs = {"compare": mock.DEFAULT, "measure_after": measured("`check`"), "measure_whole": measured("opening"), "measure_transfers": mock.DEFAULT}
        with contextlib.redirect_stdout(io.StringIO()) as printed, mock.patch.multiple(bench, **stubs), mock.patch.dict(os.environ, PATH=self.room + ":" + os.environ["PATH"]):
            self.assertEqual(bench.main(["--sizes", "%d,%d,%d" % (SIZE - 1, SIZE, SIZE + 1), "--room", self.room]), 0)
        told = "met in instructions (`check`: 9.0 in time, 1.00 in instructions; opening: 9.0 in time, 1.00 in instructions)"
        self.assertIn("\n- no row grows faster than its data: %s\n" % told, printed.getvalue())
        self.assertEqual(sorted(os.listdir(self.room)), ["valgrind", "valgrind.given"])


if __name__ == "__main__":
    unittest.main()
