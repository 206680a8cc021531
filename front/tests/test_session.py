import json
import sqlite3
import time
import unittest

from front.desk import Desk
from front.session import LONGEST_TIME, Lost, Session, Slip, compact, counts_of, quoted
from front.tests.files import FileCase


class SessionCase(FileCase):
    def start(self):
        session = Session(self.program, self.path)
        self.addCleanup(session.rest, "")
        session.open()
        return session

    def refuses(self, words, call, *values):
        """The call is a slip of these words, and the desk goes on."""
        with self.assertRaises(Slip) as told:
            call(*values)
        self.assertIn(words, str(told.exception))

    def held(self):
        """What the file holds: notes, cards and reviews, without stamps and numbers."""
        file = sqlite3.connect(self.path)
        rows = [file.execute("select %s order by 1" % rest).fetchall() for rest in (
            "id, mid, tags, flds from notes", "id, nid, did, ord, type, queue, due, ivl, factor, reps, lapses, left, flags from cards", "id, cid, ease from revlog")]
        file.close()
        return rows


class Studying(SessionCase):
    def test_a_day_of_study(self):
        self.make('note 1 1 ["a","A"]', 'note 1 1 ["b","B"]', "deck French::Food")
        session = self.start()
        tree = session.deck_tree()
        self.assertEqual([(row.name, row.depth) for row in tree], [("Default", 0), ("French", 0), ("Food", 1)])
        self.assertEqual(tree[0].counts, (2, 0, 0))
        card = session.next_card(1)
        self.assertEqual(session.page(card, "front"), "a")
        self.assertEqual(session.page(card, "back"), "a<hr id=answer>A")
        after = session.answer(card, 4, 2500)
        self.assertEqual((after.type, after.queue), (2, 2))
        self.assertEqual(session.counts(1), (1, 0, 0))
        self.assertEqual(session.undo(), "the answer")
        self.assertEqual(session.counts(1), (2, 0, 0))
        self.assertEqual(session.next_card(1), card)
        session.answer(card, 3, 10**12)
        other = session.next_card(1)
        session.bury(other)
        session.suspend(card)
        self.assertIsNone(session.next_card(1))
        self.assertEqual(session.tomorrow(1), (0, 0, 1, None))
        session.rest("Tests end")
        self.assertIn("undo is empty from here", session.take_notice())
        _, cards, reviews = self.held()
        self.assertEqual([(row[5], row[9]) for row in cards], [(-1, 1), (-3, 0)])
        self.assertEqual([row[1:] for row in reviews], [(card, 3)])

    def test_the_end_of_the_day_says_what_comes(self):
        self.make(*['note 1 1 ["n%d",""]' % place for place in range(6)])
        session = self.start()
        cards = sorted(session.desk.cards)
        session.rest("")
        day = session._day_now()
        self.write(
            ("update cards set type=2, queue=2, ivl=3, factor=2500, due=? where id=?", (day + 1, cards[0])),
            ("update cards set type=2, queue=2, ivl=3, factor=2500, due=? where id=?", (day + 2, cards[1])),
            ("update cards set queue=-2 where id=?", (cards[2],)),
            ("update cards set queue=-1 where id=?", (cards[3],)),
            # The day has begun, so what is buried stays so.
            ("update col set conf=json_set(conf, '$.lastUnburied', ?)", (day,)),
        )
        self.assertEqual(session.tomorrow(1)[:3], (1, 2, 1))
        session.next_card(1)
        session.answer(cards[4], 1, 0)
        # A step of a minute: it comes back today.
        self.assertGreater(session.tomorrow(1).next_learning, time.time())

    def test_slips_send_nothing(self):
        self.make('note 1 1 ["a","A"]')
        session = self.start()
        card = session.next_card(1)
        session.flag(card, 2)
        desk = session.desk
        self.refuses("a button", session.answer, card, 5, 0)
        self.refuses("this card", session.answer, 5, 3, 0)
        self.refuses("this card", session.bury, "5 6")
        self.refuses("a flag", session.flag, card, 8)
        self.refuses("this deck", session.next_card, 77)
        self.refuses("not suspended", session.unsuspend, card)
        self.refuses("has 2 fields", session.add_note, 1, 1, ["a"])
        self.refuses("has a character that no field has", session.add_note, 1, 1, ["a\x1f", ""])
        self.refuses("fields are too long", session.add_note, 1, 1, ["a" * 70000, ""])
        self.refuses("a line end, or half a letter", session.add_note, 1, 1, ["\ud800", ""])
        self.refuses("this is not in the collection", session.add_note, 99, 1, ["a", "b"])
        self.refuses("a tag is empty", session.add_note, 1, 1, ["a", "b"], ["x" * 600])
        self.refuses("empty part", session.add_deck, "a::::b")
        self.refuses("there is a deck Default", session.add_deck, "Default")
        self.refuses("under itself", session.rename_deck, 1, "Default::x")
        self.refuses("always kept", session.drop_deck, 1)
        self.refuses("a quote is never closed", session.search, '"a')
        self.refuses("line end", session.search, "a\nundo")
        self.refuses("notes have this note type", session.drop_type, 1)
        self.refuses("these options are always kept", session.drop_options, 1)
        self.refuses("whole numbers", session.set_option_values, 1, {"new.perDay": "x"})
        self.refuses("json fault", session.set_option_values, 1, {"new.perDay": "1000000"})
        self.refuses("no field", session.add_type, "T", ["A", "B"], [("c", "{{A}}", "{{Nope}}")])
        self.refuses("template fault", session.add_type, "T", ["A"], [("c", "{{#A}}", "")])
        self.refuses("each field", session.add_type, "T", ["A", "A"], [("c", "{{A}}", "")])
        self.assertIs(session.desk, desk)
        self.assertEqual(session.undo(), "the flag of a card")
        self.refuses("nothing to undo", session.undo)
        self.assertEqual(session.desk.ask("check"), "sound")

    def test_a_page_that_the_program_refuses(self):
        self.make('note 1 1 ["a","<i>A</i>"]')
        models = json.loads(self.read_column("models"))
        models["1"]["tmpls"][0]["afmt"] = "{{type:Back}}"
        self.write(("update col set models = ?", (compact(models),)))
        session = self.start()
        card = session.next_card(1)
        session.flag(card, 1)
        self.assertEqual(session.page(card, "front"), "a")
        page = session.page(card, "back")
        self.assertIn("This page can&#x27;t be made: no filter type.", page)
        self.assertIn("Back: &lt;i&gt;A&lt;/i&gt;", page)
        self.assertIn("undo is empty from here", session.take_notice())
        self.refuses("nothing to undo", session.undo)
        # It is not asked again, so this desk goes on.
        desk = session.desk
        self.assertEqual(session.page(card, "back"), page)
        self.assertIs(session.desk, desk)
        session.answer(card, 3, 0)

    def test_a_card_without_its_note(self):
        self.make('note 1 1 ["a","A"]', 'note 1 1 ["b","B"]')
        self.write(("delete from notes where id = (select min(id) from notes)", ()))
        session = self.start()
        card = session.next_card(1)
        self.assertIn("no such note", session.page(card, "front"))
        session.suspend(card)
        self.assertEqual(session.page(session.next_card(1), "front"), "b")

    def read_column(self, name):
        file = sqlite3.connect(self.path)
        value = file.execute("select %s from col" % name).fetchone()[0]
        file.close()
        return value


class Undoing(SessionCase):
    def test_each_change_is_taken_back(self):
        self.make('note 1 1 ["a","A"]', "deck Old::Deck")
        before = self.held()
        session = self.start()
        decks, types, options = [dict(rows) for rows in (session.copy.decks, session.copy.types, session.copy.options)]
        card = session.next_card(1)
        note = session.note_of(card).id
        old = next(deck.id for deck in session.copy.decks.values() if deck.name == "Old")
        session.answer(card, 2, 100)
        session.flag(card, 3)
        session.flag(card, 3)
        session.edit_note(note, ["a", "B"], ["y", "x", "y"])
        self.assertFalse(session.edit_note(note, ["a", "B"], ["x", "y"]))
        session.edit_note(note, ["a", "C"], ["x", "y"])
        new_note, cards = session.add_note(3, old, ["f", "b"], ["t"])
        self.assertEqual(cards, 2)
        session.delete_note(note)
        session.add_deck("X::Y::Z")
        session.rename_deck(old, "P::Q")
        self.assertEqual(sorted(deck.name for deck in session.copy.decks.values()), ["Default", "P", "P::Q", "P::Q::Deck", "X", "X::Y", "X::Y::Z"])
        made = session.add_options("mine")
        session.use_options(old, made)
        session.set_option_values(made, {"new.perDay": "7", "new.steps": "30, 300 1200", "rev.hardFactor": "1.150", "rev.bury": "yes"})
        self.assertEqual(session.copy.options[made].object["new"]["steps"], [30, 300, 1200])
        self.assertEqual(session.copy.options[made].object["rev"]["hardFactor"], "1.15")
        session.set_option_values(made, {"new.perDay": "7"})
        session.set_spread(2)
        session.set_spread(2)
        made_type = session.add_type("T", ["A", "B"], [("c", "{{A}}", "{{hint:B}} {{FrontSide}}")])
        session.rename_type(made_type, "U")
        session.drop_deck(old)
        self.assertEqual(session.what_drop_takes(1), (1, 0, 0))
        for words in ("the deletion of the deck P::Q", "the name of a note type", "the note type T", "the place of new cards", "the options mine",
                      "the options of the deck P::Q", "the options mine", "the name of the deck P::Q", "the deck X::Y::Z", "the deletion of a note",
                      "a new note", "the change of a note", "the change of a note", "the flag of a card", "the answer"):
            self.assertEqual(session.what_undo_takes(), words)
            self.assertEqual(session.undo(), words)
        self.refuses("nothing to undo", session.undo)
        self.assertEqual((session.copy.decks, session.copy.types, session.copy.options), (decks, types, options))
        self.assertEqual(session.spread(), 0)
        session.rest("")
        self.assertEqual(self.held(), before)

    def test_cards_of_a_filtered_deck_go_home(self):
        self.make('note 1 1 ["a","A"]', 'note 1 1 ["b","B"]')
        made = self.do('filter ["F","",10,5]')
        if not made or not made[0].startswith("deck "):
            self.skipTest("the program has no filtered decks")
        deck = int(made[0].split()[1])
        self.assertEqual(self.do("build %d" % deck), ["built 2"])
        session = self.start()
        self.assertTrue(session.copy.decks[deck].filtered)
        card = session.next_card(deck)
        self.assertEqual(session.copy.row("cards", card).odid, 1)
        session.flag(card, 1)
        # The deck goes alone: both cards would go home first.
        self.assertEqual(session.what_drop_takes(deck), (1, 0, 0))
        answered = session.answer(card, 4, 100)
        self.assertEqual((answered.did, answered.odid, answered.odue, answered.type, answered.flags), (1, 0, 0, 2, 1))
        self.assertIn("undo is empty from here", session.take_notice())
        self.refuses("nothing to undo", session.undo)
        session.drop_deck(deck)
        self.assertNotIn(deck, session.copy.decks)
        self.assertEqual([held.did for held in session.copy.select("cards", "order by id")], [1, 1])
        self.assertEqual(session.desk.ask("check"), "sound")

    def test_the_copy_says_what_the_file_holds(self):
        self.make('note 1 1 ["a","A"]', 'note 1 1 ["b","B"]', "deck D")
        session = self.start()
        deck = max(session.copy.decks)
        first, second = session.desk.cards
        session.answer(first, 4, 100)
        session.answer(second, 1, 100)
        session.add_note(2, deck, ["{{c1::x}} {{c2::y}}", ""], ["t"])
        note = session.note_of(first).id
        session.edit_note(note, ["a2", "A2"], ["q"])
        session.rename_deck(deck, "E")
        session.use_options(deck, session.add_options("mine"))
        kept = session.copy
        rows = [kept.select("notes", "order by id"), kept.select("cards", "order by id"), kept.select("revlog", "order by id")]
        session.rest("")
        session.open()
        held = session.copy
        again = [held.select("notes", "order by id"), held.select("cards", "order by id"), held.select("revlog", "order by id")]
        self.assertEqual([(row.id, row.mid, row.flds, row.tags) for row in rows[0]], [(row.id, row.mid, row.flds, row.tags) for row in again[0]])
        shown = [[(row.id, row.nid, row.did, row.type, row.queue, row.ivl, row.reps) for row in part] for part in (rows[1], again[1])]
        self.assertEqual(*shown)
        due = [[row.due for row in part if row.type != 0] for part in (rows[1], again[1])]
        self.assertEqual(*due)
        self.assertEqual([(row.cid, row.ease, row.time, row.type) for row in rows[2]], [(row.cid, row.ease, row.time, row.type) for row in again[2]])
        self.assertEqual({key: deck.name for key, deck in kept.decks.items()}, {key: deck.name for key, deck in held.decks.items()})
        self.assertEqual({key: deck.options for key, deck in kept.decks.items()}, {key: deck.options for key, deck in held.decks.items()})
        self.assertEqual(sorted(kept.options), sorted(held.options))

    def test_the_start_of_a_day_is_a_step_that_is_passed_over(self):
        self.make('note 1 1 ["a","A"]', 'note 1 1 ["b","B"]')
        self.write(("update col set crt = crt - 86400 * 3", ()), ("update cards set queue = -2 where id = (select max(id) from cards)", ()))
        session = self.start()
        card = session.desk.cards[0]
        session.flag(card, 1)
        self.assertEqual(session.counts(1), (2, 0, 0))
        self.assertEqual([step.is_day for step in session.steps], [False, True])
        session.counts(1)
        session.flag(card, 2)
        self.assertEqual(session.undo(), "the flag of a card")
        self.assertEqual(session.undo(), "the flag of a card")
        self.refuses("nothing to undo", session.undo)
        # The day begins again, and an answer that begins it is one step.
        session.answer(card, 3, 100)
        self.assertEqual([step.is_day for step in session.steps], [False])
        session.counts(1)
        self.assertEqual(session.undo(), "the answer")
        self.assertEqual(session.counts(1), (2, 0, 0))
        self.refuses("nothing to undo", session.undo)
        self.assertEqual(session.desk.ask("check"), "sound")

    def test_more_changes_than_the_undo_list_holds(self):
        self.make('note 1 1 ["a","A"]')
        session = self.start()
        card = session.desk.cards[0]
        for place in range(40):
            session.flag(card, 1 + place % 7)
        for _ in range(30):
            session.undo()
        self.refuses("nothing to undo", session.undo)
        self.assertEqual(session.desk.ask("check"), "sound")

    def test_a_change_of_the_schema_empties_undo_and_says_so(self):
        self.make('note 1 1 ["a","A"]')
        session = self.start()
        session.flag(session.desk.cards[0], 1)
        session.drop_type(3)
        self.assertIn("undo is empty from here", session.take_notice())
        self.refuses("nothing to undo", session.undo)
        self.assertEqual(session.desk.ask("check"), "sound")


class Ending(SessionCase):
    def test_idle(self):
        self.make('note 1 1 ["a","A"]')
        session = self.start()
        card = session.next_card(1)
        session.flag(card, 1)
        session.rest_if_idle(60)
        self.assertIsNotNone(session.desk)
        session.last_used -= 61
        session.rest_if_idle(60)
        self.assertIsNone(session.desk)
        # The file is free: another program can have it.
        self.assertEqual(self.do("check"), ["sound"])
        session.answer(card, 3, 0)
        self.assertIn("undo is empty from here", session.take_notice())

    def test_a_card_that_another_program_answered_meanwhile(self):
        self.make('note 1 1 ["a","A"]')
        session = self.start()
        card = session.next_card(1)
        session.rest("")
        self.do("answer %d 4 5" % card)
        self.refuses("another program has changed this card", session.answer, card, 3, 0)
        self.assertEqual(session.copy.base.execute("select count(*) from revlog").fetchone()[0], 1)

    def test_a_program_that_is_killed(self):
        self.make('note 1 1 ["a","A"]')
        session = self.start()
        card = session.next_card(1)
        session.desk.kill()
        session.desk._process.wait()
        with self.assertRaises(Lost) as told:
            session.answer(card, 3, 0)
        self.assertIn("Undo is empty from here. The answer is not in the collection.", str(told.exception))
        session.answer(card, 3, 0)
        self.assertEqual(session.desk.ask("check"), "sound")

    def test_a_file_that_another_program_has(self):
        self.make()
        desk = Desk(self.program, self.path)
        self.addCleanup(desk.close)
        with self.assertRaises(Exception) as told:
            self.start()
        self.assertIn("is open in another program", str(told.exception))
        self.assertIn("process %d" % desk._process.pid, str(told.exception))


class Browsing(SessionCase):
    def test_a_table_of_what_is_found(self):
        self.make('note 1 1 ["<b>a</b>","A"]', 'note 1 1 ["b","B"]', "deck D")
        session = self.start()
        first, second = session.desk.cards
        session.answer(first, 4, 0)
        session.suspend(second)
        found = session.search("deck:Default")
        self.assertEqual(found.total, 2)
        self.assertEqual([row.deck for row in found.cards], ["Default", "Default"])
        self.assertEqual([row.state for row in found.cards], ["", "suspended"])
        self.assertRegex(found.cards[0].due, r"\A\d{4}-\d\d-\d\d\Z")
        self.assertEqual(found.cards[1].due, "new")
        self.assertRegex(found.cards[0].interval, r"\A[345] d\Z")
        self.assertEqual([row.card.id for row in session.search("", 1, 1).cards], [second])
        self.assertEqual(session.search("nothing").total, 0)


class Words(unittest.TestCase):
    def test_values_of_a_search_are_literal(self):
        self.assertEqual(quoted('a "b" *_:\\'), '"a \\"b\\" \\*\\_\\:\\\\"')

    def test_counts(self):
        self.assertEqual(counts_of("new 1 learning 20 review 300"), (1, 20, 300))
        self.assertEqual(LONGEST_TIME, 2**32 - 1)


if __name__ == "__main__":
    unittest.main()
