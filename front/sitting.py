"""A learner's sitting at one file: the copy, the desk, the steps that can be undone, and the tests before a line is sent."""

import collections
import json
import secrets
import threading
import time

from front import program as programs
from front import trial
from front.collection import ReadFault, open_collection
from front.copy import Copy
from front.desk import Desk, DeskFault, Ended, Refused, is_one_line

# How many steps the program's undo list holds.
MOST_STEPS = 30

DAY = 86400

# `lines` is how many steps of the program it is, `changes` what it changed in the copy, `day_before` the day that had begun
# last before it.
Step = collections.namedtuple("Step", "words lines changes is_day day_before")


class Slip(Exception):
    """What the learner asked for can't be done. Nothing was sent."""


class NoCommand(Slip):
    """The program has no such command."""


class Lost(Exception):
    """The desk has ended, and with it the undo list. The text says why."""


class Sitting:
    """What all of a session stands on. Each public call takes `turn` for itself."""

    def __init__(self, program, path):
        self.program, self.path = program, path
        self.turn = threading.RLock()
        self.desk = None
        self.copy = None
        self.steps = []
        # What is to be told once, on the next screen.
        self.notice = ""
        self.last_used = time.monotonic()
        # Sides of cards whose page the program refused, with the reason: asking again would end it again.
        self.pageless = {}
        # What the learner added to last.
        self.last_type = self.last_deck = None
        # The server of the last sync.
        self.last_server = ""

    def open(self):
        """Reads the file and starts the desk, if it is not running. Raises ReadFault or Lost."""
        with self.turn:
            self.last_used = time.monotonic()
            if self.desk is not None and self.desk.ended is None:
                return
            self.desk = None
            # Again, if another program changed the file in between.
            for _ in range(3):
                held, self.copy = self.copy, Copy(self.path, self.program)
                if held is not None:
                    held.close()
                try:
                    desk = Desk(self.program, self.path)
                except Ended as fault:
                    raise Lost(self._why_not_opened(fault)) from None
                if desk.cards == [row[0] for row in self.copy.base.execute("select id from cards order by id")]:
                    break
                desk.close()
            self.desk = desk
            self.steps = []
            self.last_day = self.copy.head.conf.get("lastUnburied", 0)

    def _why_not_opened(self, fault):
        # Whoever has the file is told by the reading of it.
        try:
            with open_collection(self.path):
                pass
        except ReadFault as told:
            return str(told)
        return str(fault)

    def rest(self, why):
        """Ends the desk, so that the file is closed. The next call starts another."""
        with self.turn:
            if self.desk is None:
                return
            self.desk.close()
            self.desk = None
            if self.steps:
                self.notice = "%s: undo is empty from here." % why
            self.steps = []

    def _run_closed(self, why, *command, server="-", given=b""):
        """Runs a command of the program over the file, which no desk has open meanwhile. Gives its status and what it printed."""
        self.rest(why)
        # Pages that could not be made may be others after it.
        self.pageless = {}
        status, printed = programs.run_over(self.program, self.path, *command, server=server, given=given)
        if status == programs.USAGE and printed == b"usage\n":
            raise NoCommand("this program is older than the command %s: take a newer one; nothing was done" % command[0])
        return status, printed

    def rest_if_idle(self, seconds):
        with self.turn:
            if self.desk is not None and time.monotonic() - self.last_used >= seconds:
                self.rest("The file was closed after %d seconds without a request" % seconds)

    def take_notice(self):
        notice, self.notice = self.notice, ""
        return notice

    # Lines of the desk.

    def _ask(self, *lines):
        """The answers of lines that change nothing, but that `next` and `counts` may start the day."""
        with self.turn:
            self.open()
            before = self._day_now()
            try:
                answers = self.desk.ask_all(lines)
            except DeskFault as fault:
                self._lose(fault)
            if any(line.startswith(("next ", "counts ")) for line in lines):
                self._note_day(before, self._day_now())
            return answers

    def _change(self, words, lines):
        """Sends lines that are one step each, and gives their answers. `words` say what they did. What the caller puts into
        the copy from here on is of this step."""
        with self.turn:
            self.open()
            before = self._day_now()
            try:
                answers = self.desk.ask_all(lines)
            except DeskFault as fault:
                self._lose(fault)
            step = Step(words, len(lines), self.copy.begin(), False, self.last_day)
            if lines[0].startswith("answer "):
                # The day's start is part of the answer's step.
                self.last_day = max(self.last_day, before)
                if before != self._day_now():
                    self._forget_steps("A day began meanwhile")
                    self.copy.begin()
                    return answers
            self._keep_step(step)
            return answers

    def _keep_step(self, step):
        self.steps.append(step)
        while sum(kept.lines for kept in self.steps) > MOST_STEPS:
            # What is left of it at the program is not offered.
            self.steps.pop(0)

    def _note_day(self, before, after):
        """Keeps the step that the start of a day left, if one began."""
        if before != after:
            self._forget_steps("A day began meanwhile")
            return
        if after > self.last_day:
            self._keep_step(Step("the day's start", 1, [], True, self.last_day))
            self.last_day = after

    def _forget_steps(self, why):
        """Where it can't be known which steps the program holds, another desk begins, which holds none."""
        self.rest(why)
        self.open()

    def _lose(self, fault):
        """Gives the desk up, and raises Lost."""
        why = "The program refused the line “%s”: %s" % (fault.line, fault.text) if isinstance(fault, Refused) else str(fault)
        self.desk = None
        self.steps = []
        self.notice = ""
        raise Lost("%s. The file was closed; what was shown as done stays. Undo is empty from here." % why)

    def _learn_cards(self):
        try:
            self.desk.learn_cards()
        except DeskFault as fault:
            self._lose(fault)

    def _empty_steps(self):
        self.steps = []
        self.notice = "The schema has changed: undo is empty from here."

    def _day_now(self):
        return (int(time.time()) - self.copy.head.crt) // DAY

    def next_day_begins(self):
        """The second at which the collection's next day begins."""
        return self.copy.head.crt + (self._day_now() + 1) * DAY

    # Undo.

    def undo(self):
        """Takes back the latest change, and gives words for it."""
        with self.turn:
            self.open()
            while self.steps and self.steps[-1].is_day:
                # The start of a day comes again with the next card: it is no change of the learner's.
                self._take_back(self.steps[-1])
            if not self.steps:
                raise Slip("there is nothing to undo")
            step = self.steps[-1]
            self._take_back(step)
            return step.words

    def _take_back(self, step):
        try:
            self.desk.ask_all(["undo"] * step.lines)
            self.desk.learn_cards()
        except DeskFault as fault:
            self._lose(fault)
        self.steps.pop()
        self.copy.take_back(step.changes)
        # A day whose start was taken back begins again with the next question.
        self.last_day = step.day_before

    def what_undo_takes(self):
        """Words for what an undo would take back, or an empty text."""
        for step in reversed(self.steps):
            if not step.is_day:
                return step.words
        return ""

    # Tests before a line is sent.

    def _test_line(self, *lines):
        """Raises Slip if the program would refuse a line, whatever the collection holds."""
        for line in lines:
            if not is_one_line(line):
                raise Slip("a line end, or half a letter, can't stand here")
        said = trial.refusal_of(self.program, *lines)
        if said is not None:
            raise Slip(words_of_refusal(said))

    def _test_deck_name(self, name):
        # The lab's deck 1 makes room for a deck of its name.
        self._test_line("rename 1 %s" % secrets.token_hex(8), "deck %s" % name)

    def _test_deck(self, deck_id):
        if deck_id not in self.copy.decks:
            raise Slip("this deck is not in the collection any more")

    def _test_card(self, card_id):
        card = self.copy.row("cards", card_id) if isinstance(card_id, int) else None
        if card is None:
            raise Slip("this card is not in the collection any more")
        return card

    def _test_note(self, note_id):
        note = self.copy.row("notes", note_id)
        if note is None:
            raise Slip("this note is not in the collection any more")
        return note

    def _test_held(self, table, row_id):
        if row_id not in getattr(self.copy, table):
            raise Slip("this is not in the collection any more")


def compact(value):
    """JSON of one line."""
    return json.dumps(value, ensure_ascii=False, separators=(",", ":"))


def number_of(count, word):
    """A number with its word: 1 deck, 2 decks."""
    return "%d %s%s" % (count, word, "" if count == 1 else "s")


_REFUSALS = [
    ("search fault 1", "a quote is never closed"),
    ("search fault 2", "a group is never closed"),
    ("search fault 3", "a group is empty, or ends without a beginning"),
    ("search fault 4", "“and” or “or” has nothing beside it"),
    ("search fault 5", "a term has a value that can't be read"),
    ("search fault 6", "too many groups are open in one another"),
    ("long line", "this is too long"),
    ("not text", "this is no text"),
    ("row fault 1 at 3", "the name is too long"),
    ("row fault 4 at 3", "the name has an empty part, or a character that no name has"),
    ("row fault 1 at 6", "the fields are too long together"),
    ("row fault 4 at 6", "a field has a character that no field has"),
    ("row fault 1 at 5", "a tag is empty or too long, or there are too many"),
    ("row fault 4 at 5", "a tag is empty, or has a character that no tag has"),
]


def words_of_refusal(said):
    """Words for the learner, with what the program said."""
    for start, words in _REFUSALS:
        if said.startswith(start):
            place = said.split(" at ")
            where = " (at byte %s of the search)" % place[1] if said.startswith("search") and len(place) == 2 else ""
            return "%s%s [%s]" % (words, where, said)
    return said
