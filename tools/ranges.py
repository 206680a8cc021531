"""The ranges of a collection's columns, read from docs/profile/collection.md and limits.md, where they are told to the reader.

A range is a function from a value to None, or to the words that say how the value is out of it.
"""
import re

from tools.pages import codes_in, number_of, table_under, tables_of

COLLECTION, LIMITS = "profile/collection.md", "profile/limits.md"

NUMBER = r"(-?\d[\d,]*)"


class Between:
    """Whole numbers from the least to the most."""

    def __init__(self, least, most):
        self.least, self.most = least, most

    def fault(self, value):
        if self.least <= value <= self.most:
            return None
        return "is %s, and may be %s to %s" % (short(value), self.least, self.most)


class ZeroOr:
    """0, or a number of another range."""

    def __init__(self, other):
        self.other = other

    def fault(self, value):
        if value == 0 or self.other.fault(value) is None:
            return None
        return "is %s, and may be 0 or %s to %s" % (short(value), self.other.least, self.other.most)


class Bytes:
    """Texts of so many bytes."""

    def __init__(self, least, most):
        self.least, self.most = least, most

    def fault(self, value):
        length = len(value.encode("utf-8", "surrogatepass"))
        if self.least <= length <= self.most:
            return None
        return "has %d bytes, and may have %d to %d" % (length, self.least, self.most)


class Steps:
    """Lists of so many numbers of a range."""

    def __init__(self, most, each):
        self.most, self.each = most, each

    def fault(self, value):
        if len(value) > self.most:
            return "has %d steps, and may have %d at most" % (len(value), self.most)
        return next(("has a step that " + fault for fault in map(self.each.fault, value) if fault), None)


class Taken:
    """A day and a count."""

    def __init__(self, day, count):
        self.day, self.count = day, count

    def fault(self, value):
        day, count = self.day.fault(value[0]), self.count.fault(value[1])
        return day and "has a day that " + day or count and "has a count that " + count or None


class Always:
    """Truth values, which are always in range."""

    def fault(self, value):
        return None


def short(value):
    """A value as it may stand in a sentence."""
    text = str(value)
    return text if len(text) <= 60 else text[:57] + "..."


class Ranges:
    """The ranges by table and column, as the pages name them."""

    def __init__(self):
        self.named = {row[0]: Between(number_of(row[1]), number_of(row[2])) for row in table_under(LIMITS, "Numbers").rows}
        self.review = self.columns("A review")
        self.card = self.columns("A card")
        self.note = self.columns("A note")
        self.note_type = self.columns("A note type")
        self.deck = self.columns("A deck")
        self.grave = self.columns("A grave")
        self.options = self.columns("An option group")
        self.head = self.values("The head", 0)
        self.conf = self.values("The head", 1)
        self.field = self.parts("A note type", "fields")
        self.template = self.parts("A note type", "templates")
        self.fields = self.count("A note type", "fields")
        self.templates = self.count("A note type", "templates")
        # A tag's number: any but the head's own limits.
        self.tag_usn = self.named["usn"]

    def columns(self, heading):
        """The ranges of a table's columns, in the order of the columns."""
        found = {}
        for _, name, words, _ in table_under(COLLECTION, heading, "column").rows:
            found[codes_in(name)[0]] = self.read(words, found)
        return found

    def values(self, heading, number):
        tables = [it for it in tables_of(COLLECTION) if it.headings[-1] == heading and it.head[0] == "name"]
        return {codes_in(name)[0]: self.read(words, {}) for name, words, _ in tables[number].rows}

    def meaning(self, heading, column):
        return next(row for row in table_under(COLLECTION, heading, "column").rows if codes_in(row[1])[0] == column)

    def parts(self, heading, column):
        """The ranges of what a field or a template has: `a name of at most 512 bytes`, `a front and a back of at most 65,536 bytes each`."""
        words, found = self.meaning(heading, column)[3], {}
        for names, most in re.findall(r"((?:an? \w+(?: and )?)+) of at most " + NUMBER + " bytes", words):
            for name in re.findall(r"an? (\w+)", names):
                found[name] = Bytes(0, number_of(most))
        return found

    def count(self, heading, column):
        least, most = re.match(NUMBER + " to " + NUMBER, self.meaning(heading, column)[2]).groups()
        return Between(number_of(least), number_of(most))

    def read(self, words, before):
        """The range that these words of a page say."""
        for pattern, make in FORMS:
            found = re.fullmatch(pattern, words)
            if found:
                return make(self, found, before)
        raise ValueError("docs/%s: no range is known by the words %r" % (COLLECTION, words))


def number(found, at):
    return number_of(found.group(at))


FORMS = [
    (r"an? (id|stamp|usn|moment)", lambda ranges, found, _: ranges.named[found.group(1)]),
    (r"0, or an id.*", lambda ranges, *_: ZeroOr(ranges.named["id"])),
    (r"a usn from 0 on, below the greatest", lambda ranges, *_: Between(0, ranges.named["usn"].most - 1)),
    (NUMBER + " to " + NUMBER, lambda _, found, __: Between(number(found, 1), number(found, 2))),
    (NUMBER + " or " + NUMBER, lambda _, found, __: Between(number(found, 1), number(found, 2))),
    ("at most " + NUMBER + " bytes", lambda _, found, __: Bytes(0, number(found, 1))),
    ("each a name of " + NUMBER + " to " + NUMBER + " bytes and a usn", lambda _, found, __: Bytes(number(found, 1), number(found, 2))),
    ("true or false", lambda *_: Always()),
    (r"as `(\w+)`", lambda _, found, before: before[found.group(1)]),
    ("the same", lambda _, __, before: list(before.values())[-1]),
    (
        "a day of " + NUMBER + " to " + NUMBER + " and a count of " + NUMBER + " to " + NUMBER,
        lambda _, found, __: Taken(Between(number(found, 1), number(found, 2)), Between(number(found, 3), number(found, 4))),
    ),
    (
        "at most " + NUMBER + " steps of " + NUMBER + " to " + NUMBER,
        lambda _, found, __: Steps(number(found, 1), Between(number(found, 2), number(found, 3))),
    ),
    # Told by other numbers of the row: see forms.py.
    (r"0 to the number of fields minus 1; 0 if there are none", lambda *_: Always()),
    (NUMBER + " to " + NUMBER + " (fields|templates)", lambda *_: Always()),
    ("see below", lambda *_: Always()),
]
