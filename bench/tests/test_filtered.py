"""What bench/filtered.py measures and prints, over a stand-in for a program that has filtered decks.

    python3 -m unittest discover -s bench/tests
"""
import contextlib
import io
import os
import shutil
import sys
import tempfile
import unittest

TOP = os.path.dirname(os.path.dirname(os.path.dirname(os.path.realpath(__file__))))
sys.dont_write_bytecode = True
sys.path.insert(0, os.path.join(TOP, "bench"))

import filtered  # noqa: E402
import made  # noqa: E402

# It does `filter`, `build` and `empty` over the file, and knows no search. PLACES are the terms by which the orders go.
STAND_IN = '''
import json, sqlite3, sys
PLACES = {2: "ivl", 6: "due"}
link = sqlite3.connect(sys.argv[1], isolation_level=None)
decks = json.loads(link.execute("select decks from col").fetchone()[0])
for line in sys.stdin:
    verb, _, rest = line.rstrip().partition(" ")
    if verb == "filter":
        name, search, limit, order = json.loads(rest)
        number = 1800000000000 + len(decks)
        decks[str(number)] = {"terms": [[search, limit, order]]}
        link.execute("update col set decks = ?", (json.dumps(decks),))
        print("deck", number)
        continue
    home = link.execute("update cards set did = odid, due = odue, odid = 0, odue = 0 where did = ?", (int(rest),)).rowcount
    if verb == "empty":
        print("emptied", home)
        continue
    _, limit, order = decks[rest]["terms"][0]
    cards = link.execute("select id from cards where odid = 0 order by %s, id limit ?" % PLACES[order], (limit,)).fetchall()
    for place, (card,) in enumerate(cards):
        link.execute("update cards set odid = did, odue = due, did = ?, due = ? where id = ?", (int(rest), place - 100000, card))
    print("built", len(cards))
'''


class Filtered(unittest.TestCase):
    def setUp(self):
        self.room = tempfile.mkdtemp(prefix="anki-bench-test-")
        self.addCleanup(shutil.rmtree, self.room)
        self.anki = os.path.join(self.room, "anki")

    def stand_in(self, text):
        """A program that makes collections as the one in dist/ does, and whose desk is this script."""
        with open(os.path.join(self.room, "desk.py"), "w") as file:
            file.write(text)
        with open(self.anki, "w") as file:
            file.write('#!/bin/sh\n[ "$3" = desk ] || exec "%s/dist/anki" "$@"\nexec "%s" -E -s "%s/desk.py" "$@"\n' % (TOP, sys.executable, self.room))
        os.chmod(self.anki, 0o755)

    def run_it(self, *words):
        printed, said = io.StringIO(), io.StringIO()
        with contextlib.redirect_stdout(printed), contextlib.redirect_stderr(said):
            status = filtered.main(["--anki", self.anki, "--runs", "1", "--room", self.room, *words])
        return status, printed.getvalue(), said.getvalue()

    def test_a_table_of_all_sizes_is_printed(self):
        self.stand_in(STAND_IN)
        status, printed, _ = self.run_it("--cards", "10,20")
        self.assertEqual(0, status)
        rows = [[cell.strip() for cell in line.split("|")[1:-1]] for line in printed.splitlines() if line.startswith("| ")]
        self.assertEqual(["work", "2 of 10 cards", "4 of 20 cards", "growth"], rows[0])
        for row in rows[1:]:
            for cell in row[1:3]:
                self.assertRegex(cell, r"^[\d,.]+ ms, [\d,.]+ ms, \d+ MB$")
        self.assertEqual(["opening", *("`build` " + plan for plan, *_ in filtered.PLANS), "`build` again", "`empty`"], [row[0] for row in rows[1:]])
        self.assertEqual(5, printed.count(": 20 cards by 10: "))
        self.assertEqual(["anki", "desk.py"], sorted(os.listdir(self.room)))

    def test_a_size_is_of_whole_notes(self):
        for cards in (5, 10, 12_500, 50_000, 499_995):
            self.assertEqual(cards, made.cards_before(filtered.notes_of(cards)))

    def test_cards_in_another_order_end_it(self):
        for was, becomes in (('2: "ivl"', '2: "-ivl"'), ('6: "due"', '6: "-due"'), ("place - 100000", "-100000 - place")):
            self.assertIn(was, STAND_IN)
            self.stand_in(STAND_IN.replace(was, becomes))
            status, printed, said = self.run_it("--cards", "50")
            self.assertEqual((1, ""), (status, printed), becomes)
            self.assertIn("other cards moved in, or in another order", said)

    def test_another_count_ends_it(self):
        self.stand_in(STAND_IN.replace('print("built", len(cards))', 'print("built", len(cards) + 1)'))
        status, printed, said = self.run_it("--cards", "10")
        self.assertEqual((1, ""), (status, printed))
        self.assertIn("built 3, and not built 2", said)

    def test_a_program_without_filtered_decks_ends_it(self):
        self.stand_in('print("line 1: bad line"); raise SystemExit(3)\n')
        status, printed, said = self.run_it("--cards", "10")
        self.assertEqual((1, ""), (status, printed))
        self.assertIn("bad line", said)

    def test_words_out_of_range_are_refused(self):
        for words in (["--cards", "0"], ["--cards", "12"], ["--cards", "20,10"], ["--cards", "10,10"], ["--cards", "500000"], ["--runs", "0"]):
            with contextlib.redirect_stderr(io.StringIO()), self.assertRaises(SystemExit):
                filtered.arguments(words)


if __name__ == "__main__":
    unittest.main()
