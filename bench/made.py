"""The collection that `anki - - make SEED SIZE` makes, by its formula, and a file with it."""
import hashlib
import sqlite3

FIRST_ID, FIRST_REVIEW, STAMP = 1_500_000_000_000, 1_600_000_000_000, 1_600_000_000
# The day 0 of the collection: 2023-11-14, in seconds.
CRT = 1_699_920_000
STEP, ALL = 0x9E3779B97F4A7C15, 2**64


def nth_word(seed, number):
    """The word of this number, counted from 0, that the generator splitmix64 gives from a seed."""
    z = (seed + (number + 1) * STEP) % ALL
    z = (z ^ (z >> 30)) * 0xBF58476D1CE4E5B9 % ALL
    z = (z ^ (z >> 27)) * 0x94D049BB133111EB % ALL
    return z ^ (z >> 31)


def cards_before(note):
    """How many cards the notes before one have: one if 3 divides the number of the note, else two."""
    return 2 * note - (note + 2) // 3


def note_of(card):
    return 3 * (card // 5) + (card % 5 + 1) // 2


def notes_of(seed, size):
    """The rows of the table `notes`."""
    for number in range(size):
        words = 2 * number + 11 * cards_before(number)
        front, back = "front %d" % number, "back %d" % (nth_word(seed, words) % 1000)
        guid = "%d-%04x" % (FIRST_ID + number, nth_word(seed, words + 1) % 65536)
        check = int(hashlib.sha1(front.encode()).hexdigest()[:8], 16)
        yield FIRST_ID + number, guid, 3 if number % 3 else 1, STAMP, -1, "", front + "\x1f" + back, front, check, 0, ""


def words_before_card(card):
    return 2 * (note_of(card) + 1) + 11 * card


def interval_of(seed, card):
    return 1 + nth_word(seed, words_before_card(card)) % 100


def factor_of(seed, card):
    return 1300 + 50 * (nth_word(seed, words_before_card(card) + 2) % 25)


def cards_of(seed, size):
    """The rows of the table `cards`."""
    for number in range(cards_before(size)):
        due = -(nth_word(seed, words_before_card(number) + 1) % 10)
        place = 1 if number % 5 in (2, 4) else 0
        yield (FIRST_ID + number, FIRST_ID + note_of(number), 1, place, STAMP, -1, 2, 2, due, interval_of(seed, number), factor_of(seed, number),
               4, 0, 0, 0, 0, 0, "")


def reviews_of(seed, size):
    """The rows of the table `revlog`."""
    for number in range(4 * cards_before(size)):
        card = number // 4
        words = words_before_card(card) + 3 + 2 * (number % 4)
        yield (FIRST_REVIEW + number, FIRST_ID + card, -1, 2 + nth_word(seed, words) % 3, interval_of(seed, card), 1, factor_of(seed, card),
               1000 + nth_word(seed, words + 1) % 9000, 1)


def line_of(size):
    """What `make` prints for a size."""
    cards = cards_before(size)
    answers = min(cards, 180)
    return "notes %d cards %d reviews %d requests %d finished\n" % (size + 12, cards + 12, 4 * cards + answers, 7 + (2 * answers + 24) // 250)


def fill(path, seed, size):
    """Puts the rows into a file that `init` made. They are to be sent, as a device's own are, and the collection is as old as they are."""
    link = sqlite3.connect(path)
    with link:
        link.execute("update col set crt = ?", (CRT,))
        link.executemany("insert into notes values (?,?,?,?,?,?,?,?,?,?,?)", notes_of(seed, size))
        link.executemany("insert into cards values (?,?,?,?,?,?,?,?,?,?,?,?,?,?,?,?,?,?)", cards_of(seed, size))
        link.executemany("insert into revlog values (?,?,?,?,?,?,?,?,?)", reviews_of(seed, size))
    link.close()
