"""Notes and note types."""

import json

from front import trial
from front.collection import FIELD_SEPARATOR, Card, Note, fields_of, note_type_of, tags_of
from front.desk import cards_found
from front.sitting import Sitting, Slip, Step, compact


class Notes(Sitting):
    def note_form(self, note_id):
        """The names and texts of a note's fields, and its tags, for editing."""
        with self.turn:
            self.open()
            note = self._test_note(note_id)
            note_type = self.copy.types.get(note.mid)
            if note_type is None:
                raise Slip("the note type of this note is not in the collection")
            texts = fields_of(note)
            texts = (texts + [""] * len(note_type.fields))[: len(note_type.fields)]
            return note_type, texts, self._tags_now(note)

    def _tags_now(self, note):
        tags = tags_of(note)
        # The program tags leeches by itself.
        if "leech" not in tags and self._ask("find nid:%d tag:leech" % note.id)[0] != "found 0":
            tags = sorted(tags + ["leech"], key=lambda tag: tag.encode("utf-8"))
        return tags

    def edit_note(self, note_id, fields, tags):
        """Gives a note other fields and tags. Gives whether anything changed."""
        with self.turn:
            note_type, held_fields, held_tags = self.note_form(note_id)
            note = self._test_note(note_id)
            tags = sorted(set(tags), key=lambda tag: tag.encode("utf-8"))
            lines = []
            if list(fields) != held_fields:
                lines.append("fields %d %s" % (note_id, compact(list(fields))))
                # The program puts the tags of such a note in order.
                held_tags = sorted(set(held_tags), key=lambda tag: tag.encode("utf-8"))
            if tags != held_tags:
                lines.append("tags %d %s" % (note_id, compact(tags)))
            if not lines:
                return False
            self._test_note_lines(note_type, fields, tags)
            self._change("the change of a note", lines)
            stored = " %s " % " ".join(tags) if tags else ""
            self.copy.put("notes", note_id, note._replace(flds=FIELD_SEPARATOR.join(fields), tags=stored))
            self._learn_cards_of(note_id)
            return True

    def _learn_cards_of(self, note_id):
        """Keeps the cards that an edited note has got."""
        held = self.copy.cards_of(note_id)
        for card_id in cards_found(self._ask("find nid:%d" % note_id)[0]):
            if all(card.id != card_id for card in held):
                deck = min(held, key=lambda card: card.id).did if held else 1
                self.copy.put("cards", card_id, new_card(card_id, note_id, deck))

    def delete_note(self, note_id):
        with self.turn:
            self.open()
            self._test_note(note_id)
            self._change("the deletion of a note", ["delete %d" % note_id])
            for card in self.copy.cards_of(note_id):
                self.copy.put("cards", card.id, None)
            self.copy.put("notes", note_id, None)
            self._learn_cards()

    def add_note(self, type_id, deck_id, fields, tags=()):
        """Adds a note, and gives its id and how many cards it has."""
        with self.turn:
            self.open()
            self._test_held("types", type_id)
            self._test_deck(deck_id)
            tags = sorted(set(tags), key=lambda tag: tag.encode("utf-8"))
            self._test_note_lines(self.copy.types[type_id], fields, tags)
            line = "note %d %d %s" % (type_id, deck_id, compact(list(fields)))
            said = self._change("a new note", [line])[0].split()
            note_id, cards = int(said[1]), [int(word) for word in said[3:]]
            row = (note_id, "", type_id, 0, -1, "", FIELD_SEPARATOR.join(fields), fields[0] if fields else "", 0, 0, "")
            self.copy.put("notes", note_id, Note._make(row))
            for card_id in cards:
                self.copy.put("cards", card_id, new_card(card_id, note_id, deck_id))
            self.desk.cards.extend(cards)
            self.desk.cards.sort()
            self.last_type, self.last_deck = type_id, deck_id
            if tags:
                self._tag_new_note(note_id, tags)
            return note_id, len(cards)

    def _tag_new_note(self, note_id, tags):
        """The tags of a note that was added come by a line of their own, and go with it at an undo."""
        first = self.steps.pop()
        note = self.copy.row("notes", note_id)
        self._change("a new note", ["tags %d %s" % (note_id, compact(tags))])
        second = self.steps.pop()
        self.copy.put("notes", note_id, note._replace(tags=" %s " % " ".join(tags)))
        self._keep_step(Step("a new note", 2, first.changes + second.changes, False, first.day_before))

    def _test_note_lines(self, note_type, fields, tags):
        """Tries the lines of a note over a lab's collection that has its type."""
        if len(fields) != len(note_type.fields):
            raise Slip("the note type %s has %d fields" % (note_type.name, len(note_type.fields)))
        lines = [
            "type %s" % compact(note_type.object),
            "note %d 1 %s" % (trial.FIRST_ID, compact(list(fields))),
            "tags %d %s" % (trial.FIRST_ID, compact(tags)),
        ]
        self._test_line(*lines)

    def default_type(self):
        """The note type of the note that was added last."""
        with self.turn:
            self.open()
            if self.last_type in self.copy.types:
                return self.last_type
            row = self.copy.base.execute("select mid from notes order by id desc limit 1").fetchone()
            return row[0] if row and row[0] in self.copy.types else min(self.copy.types)

    def default_deck(self):
        """The deck of the note that was added last."""
        with self.turn:
            self.open()
            if self.last_deck in self.copy.decks:
                return self.last_deck
            row = self.copy.base.execute("select did from cards order by nid desc limit 1").fetchone()
            return row[0] if row and row[0] in self.copy.decks else min(self.copy.decks)

    # Note types.

    def note_types(self):
        with self.turn:
            self.open()
            return sorted(self.copy.types.values(), key=lambda row: row.id)

    def notes_of_type(self, type_id):
        return self.copy.base.execute("select count(*) from notes where mid = ?", (type_id,)).fetchone()[0]

    def add_type(self, name, fields, templates, cloze=False, css=""):
        """Adds a note type of names of fields, and of templates (name, front, back). Gives its id."""
        with self.turn:
            self.open()
            made = {
                # The program gives another one.
                "id": 1,
                "mod": 0,
                "usn": -1,
                "name": name.strip(),
                "type": 1 if cloze else 0,
                "sortf": 0,
                "flds": [{"name": field, "ord": place} for place, field in enumerate(fields)],
                "tmpls": [
                    {"name": side[0], "qfmt": side[1], "afmt": side[2], "ord": place}
                    for place, side in enumerate(templates)
                ],
            }
            if not made["name"]:
                raise Slip("a note type has a name")
            if len(set(fields)) != len(fields) or not all(fields):
                raise Slip("each field has a name of its own")
            line = "type %s" % compact(made)
            self._test_line(line)
            self._test_pages(made)
            type_id = int(self._change("the note type %s" % name, [line])[0].split()[1])
            self.copy.put("types", type_id, note_type_of(dict(made, id=type_id)))
            return type_id

    def _test_pages(self, made):
        """Tries the pages of a note of the type, so that no card of it comes without one. A lab knows no filters, so those
        that the program has are left out of the templates beforehand."""
        plain = json.loads(compact(made).replace("{{text:", "{{").replace("{{hint:", "{{"))
        texts = ["{{c1::a}}" if made["type"] == 1 else "a"] * len(made["flds"])
        for shown in (texts, [text if not place else "" for place, text in enumerate(texts)]):
            self._test_line(
                "type %s" % compact(plain),
                "note %d 1 %s" % (trial.FIRST_ID, compact(shown)),
                "page %d front" % trial.FIRST_ID,
                "page %d back" % trial.FIRST_ID,
            )

    def rename_type(self, type_id, name):
        """Gives a note type another name. Fields and templates stay as they are."""
        with self.turn:
            self.open()
            self._test_held("types", type_id)
            held = self.copy.types[type_id]
            if name.strip() == held.name:
                return
            made = dict(held.object, name=name.strip())
            if not made["name"]:
                raise Slip("a note type has a name")
            self._test_line("type %s" % compact(made))
            maps = [made, list(range(len(held.fields))), list(range(len(held.templates)))]
            self._change("the name of a note type", ["retype %s" % compact(maps)])
            self.copy.put("types", type_id, note_type_of(made))

    def drop_type(self, type_id):
        """Deletes a note type that no note has. The program's undo list is empty then."""
        with self.turn:
            self.open()
            self._test_held("types", type_id)
            if self.notes_of_type(type_id):
                raise Slip("%d notes have this note type" % self.notes_of_type(type_id))
            if len(self.copy.types) == 1:
                raise Slip("the last note type stays")
            self._change("the deletion of a note type", ["allow untype %d" % type_id])
            self.copy.put("types", type_id, None)
            self._empty_steps()


def new_card(card_id, note_id, deck_id):
    """A card of a new note, as far as is known of it."""
    return Card(card_id, note_id, deck_id, 0, 0, -1, 0, 0, 0, 0, 0, 0, 0, 0, 0, 0, 0, "")
