"""Study: the next card, its pages and its answer, and what sets it aside."""

import collections
import html
import time

from front.collection import ReadFault, Review, fields_of
from front.desk import DeskFault, Refused, cards_found
from front.sitting import DAY, Lost, Sitting, Slip

# The longest time of an answer that its line takes, in milliseconds.
LONGEST_TIME = 4_294_967_295

Tomorrow = collections.namedtuple("Tomorrow", "due new buried next_learning")


class Studying(Sitting):
    def next_card(self, deck_id):
        """The next card of a deck, or None."""
        with self.turn:
            self.open()
            self._test_deck(deck_id)
            answer = self._ask("next %d" % deck_id)[0]
            return None if answer == "none" else int(answer.split()[1])

    def note_of(self, card_id):
        card = self._test_card(card_id)
        note = self.copy.row("notes", card.nid)
        if note is None:
            raise Slip("the note of this card is not in the collection")
        return note

    def page(self, card_id, side):
        """A side of a card. Where the program can't make the page, its reason and the note's fields, as text."""
        with self.turn:
            self.open()
            self._test_card(card_id)
            if (card_id, side) not in self.pageless:
                try:
                    return self.desk.page(card_id, side)
                except Refused as fault:
                    self.pageless[card_id, side] = fault.text
                    self.desk, self.steps = None, []
                    self.notice = "The program ended, since it can't make this page: undo is empty from here."
                    self.open()
                except DeskFault as fault:
                    self._lose(fault)
            return self._page_of_fields(card_id, self.pageless[card_id, side])

    def _page_of_fields(self, card_id, why):
        lines = ["This page can't be made: %s." % why]
        note = self.copy.row("notes", self._test_card(card_id).nid)
        names = self.copy.types[note.mid].fields if note is not None and note.mid in self.copy.types else []
        for place, text in enumerate(fields_of(note) if note is not None else []):
            lines.append("%s: %s" % (names[place] if place < len(names) else "field %d" % (place + 1), text))
        return "<br>".join(html.escape(line) for line in lines)

    def answer(self, card_id, button, milliseconds):
        """Answers a card, and gives it as it is then."""
        with self.turn:
            was = self.copy and self.copy.row("cards", card_id)
            had_desk = self.desk is not None and self.desk.ended is None
            self.open()
            card = self._test_card(card_id)
            if button not in (1, 2, 3, 4):
                raise Slip("a button is 1 to 4")
            if not had_desk and was is not None and what_is_kept_up(card) != what_is_kept_up(was):
                raise Slip("another program has changed this card: it is shown anew")
            time_taken = max(0, min(int(milliseconds), LONGEST_TIME))
            began = self.copy.free_review_id()
            try:
                said = self._change("the answer", ["answer %d %d %d" % (card_id, button, time_taken)])[0].split()
            except Lost as lost:
                raise Lost("%s %s" % (lost, self._whether_answered(card_id, began))) from None
            if card.odid > 0:
                # It went home, so that nothing from before can be undone: what is held is read anew.
                self._forget_steps("A card went home from a filtered deck")
                return self.copy.row("cards", card_id)
            queue, due, days = int(said[2]), int(said[4]), int(said[6])
            answered = answered_card(card, queue, due, days)
            self.copy.put("cards", card_id, answered)
            self.copy.put("revlog", began, review_of(began, card, answered, button, time_taken, int(time.time())))
            return answered

    def _whether_answered(self, card_id, began):
        try:
            self.open()
        except (Lost, ReadFault):
            return "Whether the answer counts shows when the file opens again."
        row = self.copy.base.execute("select count(*) from revlog where cid = ? and id >= ?", (card_id, began)).fetchone()
        return "The answer is in the collection." if row[0] else "The answer is not in the collection."

    def suspend(self, card_id):
        with self.turn:
            self.open()
            card = self._test_card(card_id)
            if self._is(card_id, "is:suspended"):
                raise Slip("the card is suspended already")
            self._change("the suspension of a card", ["suspend %d" % card_id])
            self.copy.put("cards", card_id, card._replace(queue=-1))

    def unsuspend(self, card_id):
        with self.turn:
            self.open()
            self._test_card(card_id)
            if not self._is(card_id, "is:suspended"):
                raise Slip("the card is not suspended")
            self._change("the return of a card", ["unsuspend %d" % card_id])

    def bury(self, card_id):
        with self.turn:
            self.open()
            card = self._test_card(card_id)
            if self._is(card_id, "is:suspended or is:buried"):
                raise Slip("the card is suspended or buried already")
            self._change("the burying of a card", ["bury %d" % card_id])
            self.copy.put("cards", card_id, card._replace(queue=-3))

    def flag(self, card_id, value):
        with self.turn:
            self.open()
            card = self._test_card(card_id)
            if value not in range(8):
                raise Slip("a flag is 0 to 7")
            if self._is(card_id, "flag:%d" % value):
                return
            self._change("the flag of a card", ["flag %d %d" % (value, card_id)])
            self.copy.put("cards", card_id, card._replace(flags=card.flags - card.flags % 8 + value))

    def _is(self, card_id, search):
        return self._ask("find cid:%d (%s)" % (card_id, search))[0] != "found 0"

    def tomorrow(self, deck_id):
        """What is known of tomorrow for a deck: cards due by then, new ones, buried ones, and the second at which a card in
        learning comes back today, or None."""
        with self.turn:
            self.open()
            self._test_deck(deck_id)
            deck = "deck:%s" % quoted(self.copy.decks[deck_id].name)
            answers = self._ask(
                "find %s prop:due<=1" % deck,
                "find %s is:new -is:suspended -is:buried" % deck,
                "find %s is:buried" % deck,
                "find %s is:learn is:due" % deck,
            )
            due, new, buried, learning = [cards_found(answer) for answer in answers]
            moments = [self.copy.row("cards", card).due for card in learning if self.copy.row("cards", card) is not None]
            later = [moment for moment in moments if moment > time.time()]
            return Tomorrow(len(due), len(new), len(buried), min(later) if later else None)


def quoted(text):
    """A text as the value of a search's term, each character taken literally."""
    for sign in '\\"*_:':
        text = text.replace(sign, "\\" + sign)
    return '"%s"' % text


def what_is_kept_up(card):
    """What the copy knows of a card whatever the desk did to it."""
    return card.nid, card.did, card.due, card.ivl, card.reps


def answered_card(card, queue, due, days):
    """A card after an answer that tells its queue, due and days: learned, if it waits for a day in the reviews."""
    if queue in (2, -1):
        kind = 2
    else:
        kind = 3 if card.type in (2, 3) else 1
    return card._replace(type=kind, queue=queue, due=due, ivl=days, reps=card.reps + 1)


def review_of(review_id, card, answered, button, time_taken, now):
    """The review of an answer, as far as is known: its delay is from now to when the card is due."""
    kind = {0: 0, 1: 0, 2: 1, 3: 2}.get(card.type, 0)
    interval = answered.ivl if answered.type == 2 else -max(1, answered.due - now) if answered.queue == 1 else -DAY
    return Review(review_id, card.id, -1, button, interval, card.ivl if card.type == 2 else 0, 0, time_taken, kind)
