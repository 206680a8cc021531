"""What deploy/try_file_faults.py and deploy/try_labs.py see, over the programs in dist/ and over stand-ins that do wrong.

    python3 -m unittest discover -s deploy/tests
"""
import collections
import os
import random
import shutil
import sys
import tempfile
import unittest
from unittest import mock

TOP = os.path.dirname(os.path.dirname(os.path.dirname(os.path.realpath(__file__))))
sys.dont_write_bytecode = True
sys.path.insert(0, os.path.join(TOP, "deploy"))

import try_file_faults as faults  # noqa: E402
import try_labs as labs  # noqa: E402

ANKI, ANKID = (os.path.join(TOP, "dist", name) for name in ("anki", "ankid"))
LOG = '''execve("/a/anki", ["/a/anki", "/r/one.anki", "-", "init"], 0x7f /* 35 vars */) = 0
openat(AT_FDCWD</r>, "/etc/ld.so.cache", O_RDONLY|O_CLOEXEC) = 3</etc/ld.so.cache>
pread64(3</lib/libc.so.6>, "\\6\\0"..., 784, 64) = 784
getcwd("/r", 1024) = 3
openat(AT_FDCWD</x>, "/r/one.anki", O_RDWR|O_CREAT, 0644) = 4</r/one.anki>
openat(AT_FDCWD</r>, "accounts.toml", O_RDONLY) = 5</r/accounts.toml>
statx(4</r/one.anki>, "", AT_STATX_SYNC_AS_STAT|AT_EMPTY_PATH, STATX_ALL, {...}) = 0
pread64(4</r/one.anki>, "SQLite"..., 24, 0) = 24
write(1</r/output>, "ok", 2) = 2
sendto(6<socket:[1]>, "POST /r/"..., 235, MSG_NOSIGNAL, NULL, 0) = 235
+++ exited with 0 +++
'''


class Rooms(unittest.TestCase):
    def setUp(self):
        self.room = tempfile.mkdtemp(prefix="trials-test-")
        self.addCleanup(shutil.rmtree, self.room)

    def stand_in(self, text):
        """A program of a line of shell, in which $ANKI is the true one."""
        path = os.path.join(self.room, "anki")
        with open(path, "w", encoding="utf-8") as file:
            file.write("#!/bin/sh\nANKI=%s\n%s\n" % (ANKI, text))
        os.chmod(path, 0o755)
        for asked in (labs.has_filtered, labs.has_breaks):
            asked.cache_clear()
        return path


class Calls(unittest.TestCase):
    def test_calls_on_files_are_found_with_their_numbers(self):
        self.assertEqual(faults.calls_of(LOG, "/r"), [("getcwd", 1, "r"), ("openat", 2, "one.anki"), ("openat", 3, "accounts.toml"), ("statx", 1, "one.anki"),
                                                      ("pread64", 2, "one.anki"), ("write", 1, "output")])

    def test_each_call_fails_once_and_from_there_on(self):
        found = faults.faults_of([("pread64", 2, "one.anki"), ("write", 1, "output")])
        self.assertEqual([str(it) for it in found], ["pread64 2 EIO on one.anki", "pread64 2 and on EIO on one.anki", "write 1 EIO on output",
                                                     "write 1 and on EIO on output", "write 1 ENOSPC on output", "write 1 and on ENOSPC on output"])
        self.assertEqual(found[1].words()[-1], "inject=pread64:error=EIO:when=2+")

    def test_the_rest_of_a_session_has_no_undo_without_its_edit(self):
        lines = ("a", "b", "undo", "c")
        self.assertEqual([faults.rest_of(lines, n) for n in range(5)], [lines, ("b", "undo", "c"), ("c",), ("c",), ()])

    def test_a_cut_is_that_of_the_lines_that_were_printed_or_the_next(self):
        cuts = [{"a": n} for n in (0, 1, 2, 3)]
        self.assertEqual([faults.how_far("", {"a": n}, cuts, 1) for n in (1, 2)], [1, 2])
        for held in ({"a": 0}, {"a": 3}, None):
            with self.assertRaises(faults.Wrong):
                faults.how_far("", held, cuts, 1)


@unittest.skipUnless(shutil.which("cc"), "no C compiler is there")
class Faults(Rooms):
    def site(self, anki=ANKI, first=0, step=1):
        words = mock.Mock(anki=anki, ankid=ANKID, first=first, step=step)
        tools = faults.Tools(words)
        self.addCleanup(tools.end_all)
        return faults.Site(tools, words, tempfile.mkdtemp(dir=self.room))

    @unittest.skipUnless(shutil.which("strace"), "no strace is there")
    def test_some_calls_of_init_fail_and_nothing_is_lost(self):
        with mock.patch.object(faults, "told") as told:
            faults.try_init(self.site(first=60, step=120))
        (name, tries, ends), _ = told.call_args
        self.assertEqual((name, tries), ("init", sum(ends.values())))
        self.assertGreater(tries, 1)

    def test_a_file_that_may_not_grow_and_a_loss(self):
        site = self.site()
        session = faults.Session(site, faults.make_base(site), faults.LINES[:3])
        self.assertEqual(session.tried("a limit", limit=270_000), "status 6")
        self.assertEqual(session.tried("a limit", limit=1 << 20), "status 0")
        # Printed, and not kept: the session works on a copy.
        site.tools.anki = self.stand_in('cp "$1" "$1.copy"; exec "$ANKI" "$1.copy" - desk')
        with self.assertRaisesRegex(faults.Wrong, "what is held is what none of"):
            session.tried("a loss")

    def test_a_signal_and_a_wrong_status_are_seen(self):
        for text in ("kill -9 $$", "exit 7"):
            site = self.site(self.stand_in('case "$3" in init) exec "$ANKI" "$@";; esac; ' + text))
            base = faults.make_base(site)
            with self.assertRaises(faults.Wrong):
                faults.Session(site, base, ("check",))


class Labs(Rooms):
    def tried(self, anki, number, seed=1):
        counts = collections.Counter()
        script, wrong = labs.try_script(anki, seed, number, counts)
        return script, wrong, counts

    def test_scripts_of_the_program_keep_the_rules(self):
        for number in range(6):
            script, wrong, counts = self.tried(ANKI, number)
            self.assertIsNone(wrong)
            self.assertEqual(sum(it for (kind, _), it in counts.items() if kind == "refusal"), number % 2)

    def test_a_number_makes_one_script(self):
        self.assertEqual(self.tried(ANKI, 3)[0], self.tried(ANKI, 3)[0])
        self.assertNotEqual(self.tried(ANKI, 3)[0], self.tried(ANKI, 3, seed=2)[0])

    def test_a_program_that_lies_is_seen(self):
        lies = ("s/^sync \\([^:]*\\): finished/sync \\1: no changes/", "s/^ok$/okay/", "s/^requests .*$/&0/",
                "s/^\\(\\[[0-9]*,[0-9]*,0,[1-4]\\),0,/\\1,1,/", 's/"nextPos":3/"nextPos":4/', "s/^sound$/note 1 without card/",
                "s/^\\(sync .*\\): lost$/\\1: finished/", "s/^409 base$/409 step/")
        for lie in lies:
            anki = self.stand_in("\"$ANKI\" \"$@\" | sed -u '%s'" % lie)
            for number in range(0, 40, 2):
                _, wrong, _ = self.tried(anki, number)
                if wrong:
                    break
            self.assertRegex(wrong or "nothing seen", "^Wrong: ", lie)

    def test_a_program_that_does_not_do_what_was_planned_is_seen(self):
        for verb in ("lose", "cross", "replay", "resend", "break"):
            # Its output is held by the true program alone, so that it ends with that.
            anki = self.stand_in("exec 4<&0; sed -u 's/^%s .*/#/' <&4 | \"$ANKI\" \"$@\" &\nexec 4<&- >&-; wait $!" % verb)
            for number in range(0, 60, 2):
                _, wrong, _ = self.tried(anki, number)
                if wrong:
                    break
            self.assertRegex(wrong or "nothing seen", "^Wrong: ", verb)

    def lab(self, *lines):
        """A lab that obeyed these lines, of which the rules say all."""
        lab = labs.Lab(ANKI, random.Random(7), collections.Counter())
        self.addCleanup(lab.run.kill)
        for line in lines:
            lab.told(line.partition(" ")[0], line)
        return lab

    def test_a_review_that_the_server_loses_is_seen(self):
        lab = self.lab("device A")
        lab.review("A", 5, 3, 2)
        lab.sync("A")
        held = lab.server.content
        lab.server_keeps(held)
        first = min(it for it in held.rows if it[0] == "reviews")
        with self.assertRaisesRegex(labs.Wrong, "reviews that the server lost"):
            lab.server_keeps(labs.Content({it: row for it, row in held.rows.items() if it != first}, held.conf, held.crt, held.tags))
        lab.download("A")
        self.assertIn(first, lab.reviews)
        lab.upload("A")
        self.assertIn(first, lab.reviews)

    def test_what_a_sync_leaves_is_looked_at(self):
        lab = self.lab("device A", "device B")
        lab.review("A", 5, 3, 2)
        held = lab.devices["A"].collection
        with self.assertRaisesRegex(labs.Wrong, "one content on both sides"):
            lab.keeps_promises("A", "finished", held, set())
        with self.assertRaisesRegex(labs.Wrong, "did not finish, and changed"):
            lab.keeps_promises("A", "refused 409 base", lab.devices["B"].collection, set())
        with self.assertRaisesRegex(labs.Wrong, "losses at three calls in a row"):
            lab.keeps_promises("A", "lost", held, {(4, "reply"), (5, "request"), (7, "reply")})
        lab.keeps_promises("A", "lost", held, {(4, "reply"), (5, "request"), (6, "reply")})
        lab.sync("A")
        lab.keeps_promises("A", "finished", held, set())
        lab.rules.server.before = lab.devices["A"].collection
        with self.assertRaisesRegex(labs.Wrong, "not the join"):
            lab.keeps_promises("A", "finished", labs.Whole(labs.Content({("reviews", 9): [9, 8, 0, 3, 0, 0, 0, 0, 0]}, {}, 0, frozenset()), 5, 5, 1), set())

    def test_nobody_looks_at_a_server_whose_session_may_go_on(self):
        lost = ["lose A %d reply" % call for call in (3, 4, 5)]
        lab = self.lab("device A", *lost)
        lab.review("A", 5, 3, 1)
        self.assertEqual((lab.is_resumable(), lab.looked()), (False, "server"))
        lab.sync("A")
        self.assertEqual((lab.is_resumable(), lab.looked()), (True, "A"))
        lab.resend("0 1")
        self.assertTrue(lab.is_resumable())
        lab.sync("A")
        lab.download("A")
        self.assertFalse(lab.is_resumable())
        lab.finish()
        lab.again(False)

    def test_a_finish_that_came_too_late_can_be_committed_later(self):
        lab = self.lab("device A", "device B")
        lab.review("A", 5, 3, 1)
        lab.told("cross", "cross A 6 B")
        lab.sync("A")
        self.assertEqual(lab.counts["end", "sync refused 409 no session"], 1)
        before = lab.server.content
        for requests in ("0 6", "7 1"):
            lab.resend(requests)
        self.assertEqual(lab.counts["resent", "200 ok"], 7)
        self.assertEqual(len(lab.server.content.table("reviews")), len(before.table("reviews")) + 1)
        lab.finish()
        lab.again(False)

    def test_rows_are_taken_by_the_rules(self):
        def whole(*rows):
            return labs.Whole(labs.Content({labs.name_of(table, row): row for table, row in rows}, {}, 0, frozenset()), 5, 5, 1)

        def note(stamp, text):
            return "notes", [5, "g", 1, stamp, 0, "", text, text, 0, 0, ""]

        grave, name = ("graves", [0, 5, 1]), ("notes", 5)
        for stamp, as_server, wanted in ((99, True, "a"), (100, True, "a"), (101, True, "b"), (99, False, "a"), (100, False, "b"), (101, False, "b")):
            held = whole(note(100, "a"))
            held.take([(name, note(stamp, "b")[1])], 7, as_server)
            self.assertEqual((held.content.row(*name)[6], held.usns.get(name, 0)), (wanted, 7 if wanted == "b" else 0))
        held.take([(("graves", 1, 5), grave[1])], 8, True)
        held.take([(name, note(200, "c")[1])], 9, True)
        self.assertEqual((list(held.content.rows), held.usns), ([("graves", 1, 5)], {("graves", 1, 5): 8}))
        held.take([(("tag", "noun"), None), (("tag", "noun"), None)], 9, False)
        self.assertEqual((held.content.tags, held.chosen("changes", lambda usn: usn == 9)), ({"noun"}, [(("tag", "noun"), None)]))
        self.assertEqual(held.finished(50, 9).usn, 10)

    def test_the_join_is_that_of_the_rules(self):
        def content(*rows, tags=()):
            return labs.Content({labs.name_of(table, row): row for table, row in rows}, {}, 0, frozenset(tags))

        def note(stamp, text):
            return "notes", [5, "g", 1, stamp, 0, "", text, text, 0, 0, ""]

        def card(stamp, deck):
            return "cards", [8, 5, deck, 0, stamp, 0, *[0] * 11, ""]

        grave, review = ("graves", [0, 5, 1]), ("reviews", [9, 8, 0, 3, 0, 0, 0, 0, 0])
        joined = labs.join(content(note(90, "a")), content(note(100, "b")), False)
        self.assertEqual(joined.row("notes", 5)[6], "b")
        self.assertEqual(labs.join(content(note(100, "a")), content(note(100, "b")), True).row("notes", 5)[6], "b")
        self.assertEqual(labs.join(content(grave), content(note(100, "b")), False).rows, {("graves", 1, 5): grave[1]})
        joined = labs.join(content(card(90, 1), review, tags=("noun",)), content(card(100, 2), tags=("verb",)), False)
        self.assertEqual((joined.row("cards", 8)[2], joined.row("reviews", 9), joined.tags), (2, review[1], {"noun", "verb"}))
        self.assertEqual(content(card(1, 1)).fault(), "card 8 without note")
        self.assertEqual(content(note(1, "a")).fault(), "note 5 without card")
        self.assertEqual(content(note(1, "a"), card(1, 1)).fault(), "note 5 without type")

    def test_what_an_edit_must_keep(self):
        held = {("notes", 5): [5, "g", 1, 90, 0, "", "a", "a", 0, 0, ""], ("reviews", 9): [9, 8, 0, 3, 0, 0, 0, 0, 0]}

        def law(rows, tags=()):
            labs.keeps_law(labs.Content(held, {}, 0, frozenset(tags)), labs.Content(rows, {}, 0, frozenset()), 80, False)

        def note(stamp, text):
            return {**held, ("notes", 5): [5, "g", 1, stamp, 0, "", text, "a", 0, 0, ""]}

        law(note(91, "b"))
        law({("reviews", 9): held["reviews", 9], ("graves", 1, 5): [0, 5, 1]})
        parts = [{name: held[name]} for name in held]
        for rows in (note(80, "b"), note(92, "b"), note(91, "a"), *parts, {**held, ("graves", 1, 6): [0, 6, 1]}):
            with self.assertRaises(labs.Wrong):
                law(rows)
        with self.assertRaises(labs.Wrong):
            law(held, tags=("noun",))

    def test_the_table_tells_why_something_did_not_come(self):
        told = list(labs.table(collections.Counter({("end", "sync finished"): 3, ("form", "odd"): 1})))
        self.assertRegex(told[0], "^form +odd +1$")
        self.assertTrue(any(line.startswith("end ") and "sync finished" in line and line.endswith(" 3") for line in told))
        self.assertTrue(any("sync stopped" in line and line.endswith("0  " + labs.UNREACHED["sync stopped"]) for line in told))
        known = {"%s %s" % (word, it) for word, ends in labs.ENDS.items() for it in ends} | set(labs.REFUSALS) | set(labs.FORMS)
        self.assertLessEqual({*labs.UNREACHED, *labs.BREAKS}, known)
        self.assertFalse(any("no line that breaks" in line for line in told))
        self.assertEqual(sum("no line that breaks" in line for line in labs.table(collections.Counter(), breaks=False)), 6)

    def test_plain_texts_are_those_of_the_table(self):
        for text, wanted in (("no device Zz", "no device <name>"), ("search fault 4 at 7", "search fault 4 at <n>"), ("json fault 2", "json fault 2"),
                             ("fields 3, wanted 2", "fields <n>, wanted <n>"), ("not answerable: queue -1", "not answerable: queue <n>"),
                             ("no such deck 7", "no such deck <n>"), ("not filtered: 1", "not filtered: <n>"), ("bad plan: 0", "bad plan: <n>")):
            self.assertEqual(labs.plain(text), wanted)
            self.assertIn(wanted, labs.REFUSALS)
        self.assertEqual(labs.plain("full needed: schema 1 2"), "full needed: schema")
        self.assertEqual(labs.plain("refused 409 base"), "refused 409 base")

    def test_early_intervals_are_those_of_the_rules(self):
        group = {"rev": {"hardFactor": "1.2", "ease4": "1.3", "ivlFct": "1", "maxIvl": 36500}}
        card = [10, 10, 5, 0, 0, 0, 2, 2, -100_000, 20, 2500, 4, 0, 0, 110, 1, 0, ""]
        self.assertEqual([labs.early_interval(group, button, card, 100) for button in (2, 3, 4)], [12, 25, 28])
        self.assertEqual([labs.early_interval(group, button, labs.changed(card, at14=200), 100) for button in (2, 3, 4)], [12, 20, 23])
        group["rev"].update(hardFactor="0.851", ivlFct="0.5", maxIvl=4)
        self.assertEqual([labs.early_interval(group, button, labs.changed(card, at9=n), 100) for button, n in ((2, 21), (2, 1), (3, 21))], [4, 1, 4])

    def test_schema_moments_are_new(self):
        counts, chance = collections.Counter(), random.Random(7)
        lab = labs.Lab(ANKI, chance, counts)
        try:
            lab.device("A")
            for _ in range(5):
                before = lab.devices["A"].schema
                lab.upload("A")
                self.assertEqual(lab.devices["A"].schema, lab.server.schema)
                self.assertGreater(lab.server.schema, before)
            lab.finish()
            lab.again(False)
        finally:
            lab.run.kill()


if __name__ == "__main__":
    unittest.main()
