"""Notes from a file of CSV and into one: a run of `anki FILE - import TYPE DECK`, or of `anki FILE - export TYPE`.

A record is a guid, the tags with spaces between, and then the fields of the type. There is no header line.
"""

import collections
import re

from front import program as programs
from front.desk import Ended
from front.sitting import Lost, Sitting, Slip, number_of, words_of_refusal

# The longest file that is imported, in bytes. The program takes 1 GiB.
LONGEST_FILE = 64 << 20

# How many notes an import added, gave other fields or tags, and left as they were.
Imported = collections.namedtuple("Imported", "added updated same")


class Importing(Sitting):
    def import_notes(self, type_id, deck_id, content):
        """Imports a file of CSV, as bytes, into a note type and a deck, and gives what it did. The desk ends for it.

        It can't be undone. Where a record is refused, nothing is changed.
        """
        with self.turn:
            self.open()
            self._test_held("types", type_id)
            self._test_deck(deck_id)
            if len(content) > LONGEST_FILE:
                raise Slip(too_long())
            self._test_head(content)
            names = self.copy.types[type_id].fields
            status, printed = self._run_closed("The file was closed for the import", "import", str(type_id), str(deck_id), given=content)
            said = printed.decode("utf-8", "replace").strip("\n")
            told = re.match(r"added (\d+) updated (\d+) same (\d+)\Z", said)
            if status == programs.REFUSED:
                raise Slip(words_of_import(said, names))
            if status != programs.DONE or not told:
                raise Lost("The import did not end well: %s. Whether it was done is seen by a search." % Ended(status, said))
            self.last_type, self.last_deck = type_id, deck_id
            return Imported(*map(int, told.groups()))

    def _test_head(self, content):
        """Tests the two beginnings that files of other makes have. With as many columns as the type, a line of names would be a note."""
        if re.match(rb'(\xef\xbb\xbf)?"?guid"?,', content, re.IGNORECASE):
            raise Slip("the first line of the file names the columns, and would be taken for a note: take it away")
        if re.match(rb"(\xef\xbb\xbf)?#(separator|html):", content):
            raise Slip("this is a text that Anki has exported, with columns of its own: bin/from-anki-text makes files of it that can be imported")

    def export_notes(self, type_id):
        """The notes of a type as CSV, as bytes. The desk ends for it; nothing is changed."""
        with self.turn:
            self.open()
            self._test_held("types", type_id)
            status, printed = self._run_closed("The file was closed for the export", "export", str(type_id))
            if status != programs.DONE:
                raise Lost("The notes were not exported: %s." % Ended(status))
            return printed


def columns_of(note_type):
    """The columns of a record of a note type, in words."""
    return ", ".join(["guid", "tags"] + note_type.fields)


def told_of_import(made):
    """What an import did, in words."""
    return "Imported: %s added, %d updated, %d as they were." % (number_of(made.added, "note"), made.updated, made.same)


def too_long():
    return "the file is over %d MiB" % (LONGEST_FILE >> 20)


def words_of_import(said, names):
    """Words for why an import was refused, where the type has fields of these names."""
    told = re.match(r"line (\d+): (.*)\Z", said)
    if not told:
        return "Nothing was imported: %s" % said
    number, text = int(told.group(1)), told.group(2)
    where = "record %d, counted without empty lines: " % number if number else ""
    return "Nothing was imported: %s%s" % (where, _words_of_record(text, names))


def _words_of_record(text, names):
    words = _FAULTS.get(text) or _FAULTS.get(text.split(" at ")[0])
    if words is None:
        return words_of_refusal(text)
    if "%" in words:
        words = words % (len(names) + 2, ", ".join(["guid", "tags"] + names))
    return "%s [%s]" % (words, text)


_FAULTS = {
    "csv fault 1": "it has not the %d columns %s (a line of names at the head has no place here)",
    "csv fault 2": "its guid, the first column, is empty",
    "csv fault 3": "a column is not UTF-8",
    "csv fault 4": "a note of another type has its guid",
    "row fault 1 at 1": "its guid is over 64 bytes",
    "long input": "the file is too long",
}
