"""Searches, and what is shown of the cards that they find."""

import collections
import time

from front.desk import cards_found
from front.notes import new_card
from front.sitting import DAY, Sitting

Found = collections.namedtuple("Found", "cards first total")
CardLine = collections.namedtuple("CardLine", "card note deck due interval state")


class Browsing(Sitting):
    def search(self, expression, first=0, most=50):
        """The cards that a search finds, as lines of a table from the place `first` on."""
        with self.turn:
            self.open()
            expression = expression.strip()
            self._test_line("find %s" % expression)
            cards = cards_found(self._ask("find %s" % expression)[0])
            return Found(self._card_lines(cards[first : first + most]), first, len(cards))

    def _card_lines(self, cards):
        if not cards:
            return []
        ids = ",".join(str(card) for card in cards)
        answers = self._ask("find cid:%s is:suspended" % ids, "find cid:%s is:buried" % ids)
        states = [set(cards_found(answer)) for answer in answers]
        return [self._card_line(card_id, *states) for card_id in cards]

    def _card_line(self, card_id, suspended, buried):
        card = self.copy.row("cards", card_id)
        if card is None:
            return CardLine(new_card(card_id, 0, 1), "", "", "", "", "")
        note = self.copy.row("notes", card.nid)
        deck = self.copy.decks.get(card.did) or self.copy.decks.get(1)
        state = "suspended" if card_id in suspended else "buried" if card_id in buried else ""
        return CardLine(card, note.sfld if note else "", deck.name if deck else "", self.due_words(card), days_words(card), state)

    def due_words(self, card):
        """When a card is due: its place among new ones, a time of today, or a date, in local time."""
        if card.type == 0:
            return "new"
        if card.due > 1_000_000_000:
            return time.strftime("%Y-%m-%d %H:%M", time.localtime(card.due))
        # The day begins at this second; half of it later the date is the same in most places.
        return time.strftime("%Y-%m-%d", time.localtime(self.copy.head.crt + card.due * DAY + DAY // 2))

    def chart_base(self):
        """The copy that charts are made of, and the number of the day."""
        with self.turn:
            self.open()
            return self.copy, self._day_now()


def days_words(card):
    """A card's interval."""
    if card.type == 0:
        return ""
    return "%d d" % card.ivl
