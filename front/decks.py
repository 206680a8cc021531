"""Decks and their options."""

import collections
import json

from front.collection import deck_of, options_of, shortest_decimal
from front.sitting import Sitting, Slip, compact

Counts = collections.namedtuple("Counts", "new learning review")
DeckCounts = collections.namedtuple("DeckCounts", "deck depth name counts")

# The values of options that a form shows: the path of a key in the object, and words for it. What they mean and their ranges
# are in docs/profile/collection.md.
OPTION_LABELS = [
    ("name", "name"),
    ("new.perDay", "new cards a day"),
    ("rev.perDay", "reviews a day"),
    ("new.steps", "steps of new cards, in seconds"),
    ("new.ints", "days after the last step, and after Easy"),
    ("new.initialFactor", "first factor, in permille"),
    ("lapse.steps", "steps of forgotten cards, in seconds"),
    ("lapse.mult", "what is left of the days of a forgotten card, 0 to 1"),
    ("lapse.minInt", "fewest days of a forgotten card"),
    ("lapse.leechFails", "lapses of a leech (0 for never)"),
    ("lapse.leechAction", "a leech is suspended (0) or only tagged (1)"),
    ("rev.maxIvl", "longest interval, in days"),
    ("rev.hardFactor", "Hard multiplies by"),
    ("rev.ease4", "Easy multiplies by"),
    ("rev.ivlFct", "each interval is multiplied by"),
    ("new.bury", "bury new cards of a note until tomorrow (yes or no)"),
    ("rev.bury", "bury reviews of a note until tomorrow (yes or no)"),
    ("maxTaken", "longest time of an answer that counts, in seconds"),
]
OptionValue = collections.namedtuple("OptionValue", "key label text")


class Decks(Sitting):
    def deck_tree(self):
        """All decks in the order of their paths, with their counts."""
        with self.turn:
            self.open()
            decks = sorted(self.copy.decks.values(), key=lambda deck: (deck.name.split("::"), deck.id))
            answers = self._ask(*["counts %d" % deck.id for deck in decks])
            return [
                DeckCounts(deck, deck.name.count("::"), deck.name.rsplit("::", 1)[-1], counts_of(answer))
                for deck, answer in zip(decks, answers)
            ]

    def counts(self, deck_id):
        with self.turn:
            self.open()
            self._test_deck(deck_id)
            return counts_of(self._ask("counts %d" % deck_id)[0])

    def deck_name(self, deck_id):
        with self.turn:
            self.open()
            self._test_deck(deck_id)
            return self.copy.decks[deck_id].name

    def add_deck(self, name):
        """Adds a deck, and those above it that are missing. Gives its id."""
        with self.turn:
            self.open()
            name = name.strip()
            names = {deck.name for deck in self.copy.decks.values()}
            if name in names:
                raise Slip("there is a deck %s already" % name)
            self._test_deck_name(name)
            parts = name.split("::")
            missing = [path for path in ("::".join(parts[:end]) for end in range(1, len(parts) + 1)) if path not in names]
            answers = self._change("the deck %s" % name, ["deck %s" % path for path in missing])
            for path, answer in zip(missing, answers):
                deck_id = int(answer.split()[1])
                self.copy.put("decks", deck_id, deck_of(new_deck(deck_id, path)))
            return deck_id

    def rename_deck(self, deck_id, name):
        with self.turn:
            self.open()
            self._test_deck(deck_id)
            name = name.strip()
            old = self.copy.decks[deck_id].name
            if name == old:
                return
            self._test_deck_name(name)
            if name.startswith(old + "::"):
                raise Slip("a deck can't go under itself")
            # All decks of this path, and those under it, follow.
            moved = {row.id: name + row.name[len(old):] for row in self._subtree(old)}
            taken = {row.name for row in self.copy.decks.values() if row.id not in moved}
            for path in moved.values():
                if path in taken:
                    raise Slip("there is a deck %s already" % path)
                if len(path.encode("utf-8")) > 512:
                    raise Slip("the name of the deck %s would be too long" % path)
            lines = ["rename %d %s" % (deck_id, name)]
            # What is missing above the new path comes first, by lines of its own, since their ids are told then.
            above = name.split("::")[:-1]
            paths = ["::".join(above[:end]) for end in range(1, len(above) + 1)]
            if any(path == old or path.startswith(old + "::") for path in paths):
                raise Slip("a deck can't go under itself")
            missing = [path for path in paths if path not in taken]
            answers = self._change("the name of the deck %s" % name, ["deck %s" % path for path in missing] + lines)
            for path, answer in zip(missing, answers):
                added = int(answer.split()[1])
                self.copy.put("decks", added, deck_of(new_deck(added, path)))
            for moved_id, path in moved.items():
                self.copy.put("decks", moved_id, self._renamed(self.copy.decks[moved_id], path))

    def _renamed(self, deck, path):
        return deck_of(dict(deck.object, name=path))

    def _subtree(self, path):
        return [row for row in self.copy.decks.values() if row.name == path or row.name.startswith(path + "::")]

    def what_drop_takes(self, deck_id):
        """How many decks, cards and notes go with a deck."""
        with self.turn:
            self.open()
            self._test_deck(deck_id)
            gone = self._subtree(self.copy.decks[deck_id].name)
            lies, ids = self._deck_once_emptied(gone), listed(deck.id for deck in gone)
            cards = self.copy.base.execute("select count(*) from cards where %s in (%s)" % (lies, ids)).fetchone()[0]
            notes = self.copy.base.execute(
                "select count(distinct nid) from cards where %s in (%s) and nid not in"
                " (select nid from cards where %s not in (%s))" % (lies, ids, lies, ids)
            ).fetchone()[0]
            return len(gone), cards, notes

    def _deck_once_emptied(self, decks):
        """The deck in which a card lies once the filtered ones of these decks were emptied, as a term of SQL."""
        filtered = listed(deck.id for deck in decks if deck.filtered)
        return "(case when odid > 0 and did in (%s) then (case when odid in (%s) then odid else 1 end) else did end)" % (filtered, listed(self.copy.decks))

    def drop_deck(self, deck_id):
        with self.turn:
            self.open()
            self._test_deck(deck_id)
            gone = self._subtree(self.copy.decks[deck_id].name)
            if any(deck.id == 1 for deck in gone):
                raise Slip("the deck %s is always kept" % self.copy.decks[1].name)
            self._change("the deletion of the deck %s" % self.copy.decks[deck_id].name, ["drop %d" % deck_id])
            if any(deck.filtered for deck in gone):
                # It was emptied first, so that nothing from before can be undone: what is held is read anew.
                self._forget_steps("A filtered deck was emptied")
                return
            for deck in gone:
                for card in self.copy.select("cards", "where did = ?", (deck.id,)):
                    self.copy.put("cards", card.id, None)
                    if not self.copy.cards_of(card.nid):
                        self.copy.put("notes", card.nid, None)
                self.copy.put("decks", deck.id, None)
            self._learn_cards()

    def set_spread(self, value):
        """Where new cards come: 0 among the reviews, 1 after them, 2 before them."""
        with self.turn:
            self.open()
            if value not in (0, 1, 2):
                raise Slip("this is 0, 1 or 2")
            if self.spread() == value:
                return
            self._change("the place of new cards", ["spread %d" % value])
            self.copy.put("settings", "newSpread", value)

    def spread(self):
        with self.turn:
            self.open()
            return self.copy.settings.get("newSpread", 0)

    # Options.

    def use_options(self, deck_id, options_id):
        with self.turn:
            self.open()
            self._test_deck(deck_id)
            self._test_held("options", options_id)
            deck = self.copy.decks[deck_id]
            if deck.options == options_id:
                return
            self._change("the options of the deck %s" % deck.name, ["adopt %d %d" % (deck_id, options_id)])
            self.copy.put("decks", deck_id, deck_of(dict(deck.object, conf=options_id)))

    def add_options(self, name):
        """Adds options like those of id 1, by another name, and gives their id."""
        with self.turn:
            self.open()
            model = self.copy.options.get(1) or next(iter(self.copy.options.values()))
            made = dict(model.object, id=0, name=name.strip())
            line = "options %s" % compact(made)
            self._test_line(line)
            options_id = int(self._change("the options %s" % name, [line])[0].split()[1])
            self.copy.put("options", options_id, options_of(dict(made, id=options_id)))
            return options_id

    def set_options(self, options_id, made):
        """Gives options other values. `made` is their whole object."""
        with self.turn:
            self.open()
            self._test_held("options", options_id)
            held = self.copy.options[options_id].object
            if made == held:
                return
            self._test_line("options %s" % compact(dict(made, id=0)))
            self._change("the options %s" % made["name"], ["options %s" % compact(dict(made, id=options_id))])
            self.copy.put("options", options_id, options_of(made))

    def options_of_deck(self, deck_id):
        with self.turn:
            self.open()
            self._test_deck(deck_id)
            return self.copy.decks[deck_id].options

    def option_groups(self):
        with self.turn:
            self.open()
            return sorted(self.copy.options.values(), key=lambda row: row.id)

    def option_values(self, options_id):
        """The values of options that a form shows."""
        with self.turn:
            self.open()
            self._test_held("options", options_id)
            held = self.copy.options[options_id].object
            return [OptionValue(key, label, text_of_option(held, key)) for key, label in OPTION_LABELS]

    def set_option_values(self, options_id, texts):
        """Gives options the values of a form's texts, by their keys."""
        with self.turn:
            self.open()
            self._test_held("options", options_id)
            made = json.loads(compact(self.copy.options[options_id].object))
            for key, label in OPTION_LABELS:
                if key in texts:
                    set_option(made, key, label, texts[key])
            self.set_options(options_id, made)

    def drop_options(self, options_id):
        """Deletes options; decks that have them get options 1. The program's undo list is empty then."""
        with self.turn:
            self.open()
            self._test_held("options", options_id)
            if options_id == 1:
                raise Slip("these options are always kept")
            self._change("the deletion of options", ["allow unoptions %d" % options_id])
            self.copy.put("options", options_id, None)
            for deck in list(self.copy.decks.values()):
                if deck.options == options_id:
                    self.copy.put("decks", deck.id, deck_of(dict(deck.object, conf=1)))
            self._empty_steps()


def counts_of(answer):
    """The counts of an answer `new <n> learning <n> review <n>`."""
    words = answer.split(" ")
    return Counts(int(words[1]), int(words[3]), int(words[5]))


def listed(ids):
    """Ids as a list of SQL."""
    return ",".join("%d" % it for it in ids)


def new_deck(deck_id, path):
    return {"id": deck_id, "name": path, "conf": 1, "dyn": 0, "newToday": [0, 0], "revToday": [0, 0], "mod": 0, "usn": -1}


def _at(options, key):
    for part in key.split("."):
        options = options[part]
    return options


def text_of_option(options, key):
    value = _at(options, key)
    if value is True or value is False:
        return "yes" if value else "no"
    return " ".join(str(number) for number in value) if isinstance(value, list) else str(value)


def set_option(options, key, label, text):
    """Sets a value of options to what a text says, in the form that the value has."""
    held, text = _at(options, key), text.strip()
    if isinstance(held, str):
        # (a name stays as it is)
        made = shortest_decimal(text) if "." in key else text
    elif held is True or held is False:
        if text not in ("yes", "no"):
            raise Slip("%s: yes or no" % label)
        made = text == "yes"
    else:
        numbers = text.replace(",", " ").split()
        if not all(number.isascii() and number.isdigit() and len(number) < 16 for number in numbers):
            raise Slip("%s: whole numbers" % label)
        if not isinstance(held, list) and len(numbers) != 1:
            raise Slip("%s: one whole number" % label)
        made = [int(number) for number in numbers] if isinstance(held, list) else int(numbers[0])
    path = key.split(".")
    for part in path[:-1]:
        options = options[part]
    options[path[-1]] = made
