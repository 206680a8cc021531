import json
import os
import signal
import unittest

from front.desk import CHANCE_BITS, Desk, Ended, Refused, _size_of_draw, cards_found, is_one_line
from front.tests.files import FileCase

# Texts of notes that look like what the program says.
HOSTILE = [
    "a\nline 9: bad line\nb",
    "line 2: bad line",
    "line 3: bad line\n",
    "\n",
    "\n\n\nok\n",
    "ok",
    "found 0",
    "found 1 1700000000000",
    "\nfound 0\nfound 0\nfound 0\nfound 0",
    "card 5\nnone\nnew 0 learning 0 review 0",
    "answered queue 1 due 5 ivl 0\nsound\nno collection",
    "usage",
    "",
    "x" * 60000,
    "line 1: \r\nline 2: \r\u2028line 3: nothing to undo\u0085\x0b\x0c",
    "\x1b[2Jline 2: bad line\x00\x07",
    "\N{HIRAGANA LETTER A}\u202eline 2: x",
]


class Pages(FileCase):
    def test_pages_are_told_from_answers_whatever_notes_hold(self):
        texts = [text for text in HOSTILE if text]
        self.make(*['note 1 1 [%s,"back"]' % json.dumps(text) for text in texts])
        desk = Desk(self.program, self.path)
        self.addCleanup(desk.close)
        self.assertEqual(len(desk.cards), len(texts))
        for card, text in zip(desk.cards, texts):
            self.assertEqual(desk.page(card, "front"), text)
            self.assertEqual(desk.page(card, "back"), text + "<hr id=answer>back")
            self.assertEqual(desk.ask("check"), "sound")
        self.assertEqual(desk.close(), 0)

    def test_one_card_alone(self):
        # With one card the searches have one bit of chance each.
        self.make('note 1 1 ["found 0\\nfound 1 5",%s]' % json.dumps(HOSTILE[0]))
        desk = Desk(self.program, self.path)
        self.addCleanup(desk.close)
        (card,) = desk.cards
        searches, _ = desk._draw()
        self.assertEqual(len(searches), CHANCE_BITS)
        self.assertEqual(desk.page(card, "back"), "found 0\nfound 1 5<hr id=answer>" + HOSTILE[0])

    def test_a_note_that_foresees_a_draw_does_not_end_the_next_page(self):
        self.make('note 1 1 ["a","b"]', 'note 1 1 ["c","d"]')
        desk = Desk(self.program, self.path)
        self.addCleanup(desk.close)
        card = desk.cards[0]
        _, answers = desk._draw()
        text = "a" + answers.decode()
        self.assertEqual(desk.ask("fields %d %s" % (card, json.dumps([text, "b"]))), "ok")
        self.assertEqual(desk.page(card, "front"), text)
        self.assertEqual(desk.page(card, "back"), text + "<hr id=answer>b")

    def test_draws_have_their_chance(self):
        for count in (257, 1000, 20000, 10**6):
            size = _size_of_draw(count)
            ways = 1
            for place in range(size):
                ways = ways * (count - place) // (place + 1)
            self.assertGreaterEqual(ways.bit_length(), CHANCE_BITS)
            self.assertLess(size, 129)

    def test_a_refused_page(self):
        self.make('note 1 1 ["a\\nline 2: bad line","b"]')
        desk = Desk(self.program, self.path)
        desk.page(desk.cards[0], "front")
        with self.assertRaises(Refused) as told:
            desk.page(77, "front")
        self.assertEqual(told.exception.text, "no such card 77")
        self.assertEqual(told.exception.line, "page 77 front")
        self.assertEqual(desk.ended, 3)


class Answers(FileCase):
    def test_lines_are_answered_one_by_one_and_together(self):
        self.make()
        desk = Desk(self.program, self.path)
        self.addCleanup(desk.close)
        self.assertRegex(desk.ask('note 1 1 ["a","b"]'), r"\Anote \d+ cards \d+\Z")
        self.assertEqual(desk.ask_all(["counts 1"] * 50), ["new 1 learning 0 review 0"] * 50)
        desk.learn_cards()
        self.assertEqual(cards_found(desk.ask("find a")), desk.cards)
        self.assertEqual(desk.close(), 0)
        self.assertEqual(desk.close(), 0)
        with self.assertRaises(Ended):
            desk.ask("check")

    def test_a_long_line(self):
        self.make()
        desk = Desk(self.program, self.path)
        self.addCleanup(desk.close)
        # A pipe of the system holds less than this.
        line = 'note 1 1 [%s,"b"]' % json.dumps("\u3042" * 20000)
        self.assertGreater(len(line), 100000)
        self.assertTrue(desk.ask(line).startswith("note "))

    def test_each_refusal_ends_the_desk_and_is_told(self):
        self.make('note 1 1 ["a","b"]', "deck French")
        refusals = {
            "answr 1 2 3": "bad line",
            "tags 5 [": "json fault 1",
            "find a or": "search fault 4 at 2",
            "flag 1 5": "no such card 5",
            "note 9 1 []": "no such type 9",
            'note 1 1 ["a"]': "fields 1, wanted 2",
            "deck French": "in use: deck ",
            "drop 1": "default kept",
            "deck a::::b": "row fault 4 at 3",
            "undo": "nothing to undo",
            "unoptions 1": "default kept",
            "untype 2": "schema change not allowed",
            "untype 1": "in use: type 1",
            'type {"id":1,"mod":0,"usn":0,"name":"T","type":0,"sortf":0,"flds":[{"name":"A"}],"tmpls":[{"name":"c","qfmt":"{{","afmt":"{{}}"}]}': "template fault 3 at 0",
            'retype [{"id":2,"mod":0,"usn":0,"name":"T","type":0,"sortf":0,"flds":[{"name":"A"}],"tmpls":[{"name":"c","qfmt":"","afmt":""}]},[7],[0]]': "bad map at 0",
            "flag 8 1": "bad line",
            "note 1 1 [" + "1" * (1 << 20): "long line",
        }
        for line, text in refusals.items():
            desk = Desk(self.program, self.path)
            with self.assertRaises(Refused) as told:
                desk.ask_all(["find ", line, "find "])
            self.assertEqual(told.exception.line, line)
            self.assertTrue(told.exception.text.startswith(text), told.exception.text)
            self.assertEqual(desk.ended, 3)

    def test_a_card_that_can_not_be_answered(self):
        self.make('note 1 1 ["a","b"]')
        desk = Desk(self.program, self.path)
        self.addCleanup(desk.close)
        (card,) = desk.cards
        desk.ask("suspend %d" % card)
        with self.assertRaises(Refused) as told:
            desk.ask("answer %d 3 100" % card)
        self.assertEqual(told.exception.text, "not answerable: queue -1")
        # What the lines before did stays.
        desk = Desk(self.program, self.path)
        self.addCleanup(desk.close)
        self.assertEqual(desk.ask("find is:suspended"), "found 1 %d" % card)

    def test_lines_with_line_ends_are_not_sent(self):
        self.assertFalse(is_one_line("a\nb"))
        self.assertFalse(is_one_line("a\ud800b"))
        self.make()
        desk = Desk(self.program, self.path)
        self.addCleanup(desk.close)
        for line in ("check\nundo", "page 5 front"):
            with self.assertRaises(ValueError):
                desk.ask(line)
        self.assertEqual(desk.ask("check"), "sound")


class Ends(FileCase):
    def test_no_collection(self):
        with self.assertRaises(Ended) as told:
            Desk(self.program, self.path)
        self.assertEqual((told.exception.status, told.exception.said), (3, "no collection"))

    def test_a_file_that_another_program_has(self):
        self.make()
        first = Desk(self.program, self.path)
        self.addCleanup(first.close)
        with self.assertRaises(Ended) as told:
            Desk(self.program, self.path)
        self.assertEqual(told.exception.status, 6)

    def test_a_killed_program(self):
        self.make()
        desk = Desk(self.program, self.path)
        desk.kill()
        with self.assertRaises(Ended) as told:
            desk.ask("check")
        self.assertEqual(told.exception.status, -signal.SIGKILL)
        self.assertEqual(str(told.exception), "the program was killed (signal 9)")


class FalsePrograms(FileCase):
    """Programs in place of `anki`, that end in the middle of an answer."""

    @classmethod
    def setUpClass(cls):
        pass

    def false_program(self, script):
        path = os.path.join(self.folder, "false")
        with open(path, "w") as file:
            file.write("#!/bin/sh\n" + script)
        os.chmod(path, 0o755)
        return path

    def test_an_end_in_the_middle_of_an_answer(self):
        for script, status in (("echo 'found 1 5'; read a; read b; printf 'foun'; exit 6", 6),
                               ("echo 'found 1 5'; read a; read b; printf 'line 2: no such'; exit 3", 3),
                               ("echo 'found 1 5'; read a; read b; printf 'page of'; kill -9 $$", -9),
                               ("echo 'found 1 5'; read a; read b; printf 'page\\nline 1: bad line\\n'; exit 3", 3),
                               ("echo 'found 1 5'; read a; read b; printf 'page\\nline 2: bad line\\n'; exit 0", 0)):
            desk = Desk(self.false_program(script), self.path)
            with self.assertRaises(Ended) as told:
                desk.page(5, "front")
            self.assertEqual(told.exception.status, status)

    def test_a_refusal_is_one_by_its_status_alone(self):
        desk = Desk(self.false_program("echo 'found 1 5'; read a; read b; printf 'line 2: no field x\\n'; exit 3"), self.path)
        with self.assertRaises(Refused) as told:
            desk.page(5, "front")
        self.assertEqual(told.exception.text, "no field x")


if __name__ == "__main__":
    unittest.main()
