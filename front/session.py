"""A learner's sitting at one file: what both ends, the terminal and the page, are made of.

A Session reads the file, then starts the desk, and keeps both until `rest`. Whatever changes the file is a line of the desk.
It tests what it can before it sends a line, and raises Slip with words for the learner if that can't be accepted: then nothing
was sent, and the desk goes on. If the desk ends all the same, Lost says why; the next call starts another one. `notice` then
says what the learner is to know: that undo is empty from here.
"""

from front.browsing import Browsing
from front.decks import Decks, counts_of
from front.importing import Importing
from front.notes import Notes
from front.sitting import Lost, Slip, compact, number_of
from front.study import LONGEST_TIME, Studying, quoted
from front.syncing import Syncing

__all__ = ["LONGEST_TIME", "Lost", "Session", "Slip", "compact", "counts_of", "number_of", "quoted"]


class Session(Decks, Studying, Notes, Browsing, Importing, Syncing):
    """See the head of this file."""
