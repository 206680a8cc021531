"""A collection in memory, for showing while the desk has the file: read before the desk starts, kept up by what it accepts.

It knows what the desk was asked to change and what it answered. What the desk does besides (cards that it buries, the tag
`leech`) is not here: ask the desk by `find` for the state of a card. Each change is part of a step, so that an undo can
take it back here too.
"""

import sqlite3
import time

from front.collection import CARD_COLUMNS, NOTE_COLUMNS, REVIEW_COLUMNS, Card, Note, Review, open_collection

_COLUMNS = {"notes": NOTE_COLUMNS.split(), "cards": CARD_COLUMNS.split(), "revlog": REVIEW_COLUMNS.split()}
_FORMS = {"notes": Note, "cards": Card, "revlog": Review}


class Copy:
    """`types`, `decks` and `options` are maps from ids, `settings` one from keys; rows of the tables come by `row` and `select`."""

    def __init__(self, path, program):
        with open_collection(path, program) as collection:
            self.head = collection.head()
            self.settings = dict(self.head.conf)
            self.types = collection.types()
            self.decks = collection.decks()
            self.options = collection.options()
            self.base = sqlite3.connect(":memory:", isolation_level=None, check_same_thread=False)
            collection.copy_to(self.base)
        self.base.text_factory = lambda text: text.decode("utf-8", "replace")
        # Each question of a card's note and of a note's cards goes by these.
        self.base.execute("create index if not exists front_cards_of_note on cards (nid)")
        self.base.execute("create index if not exists front_reviews_of_card on revlog (cid)")
        self._step = None

    def close(self):
        self.base.close()

    def row(self, table, row_id):
        """The row of an id, or None."""
        for row in self.select(table, "where id = ?", (row_id,)):
            return row
        return None

    def select(self, table, rest, values=()):
        columns = ", ".join('"%s"' % column for column in _COLUMNS[table])
        return [_FORMS[table]._make(row) for row in self.base.execute("select %s from %s %s" % (columns, table, rest), values)]

    def cards_of(self, note_id):
        return self.select("cards", "where nid = ? order by ord, id", (note_id,))

    def begin(self):
        """Begins a step, and gives it: what the changes until the next one take the place of."""
        self._step = []
        return self._step

    def put(self, table, row_id, row):
        """Puts a row in the place of the one of its id, or takes that out if it is None."""
        self._step.append((table, row_id, self._held(table, row_id)))
        self._set(table, row_id, row)

    def take_back(self, step):
        for table, row_id, row in reversed(step):
            self._set(table, row_id, row)

    def free_review_id(self):
        """An id for a review of now."""
        row_id = int(time.time() * 1000)
        while self.row("revlog", row_id) is not None:
            row_id += 1
        return row_id

    def _held(self, table, row_id):
        if table in _FORMS:
            return self.row(table, row_id)
        return getattr(self, table).get(row_id)

    def _set(self, table, row_id, row):
        if table not in _FORMS:
            rows = getattr(self, table)
            if row is None:
                rows.pop(row_id, None)
            else:
                rows[row_id] = row
        elif row is None:
            self.base.execute("delete from %s where id = ?" % table, (row_id,))
        else:
            marks = ", ".join("?" * len(row))
            self.base.execute("insert or replace into %s values (%s)" % (table, marks), tuple(row))
