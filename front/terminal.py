"""Study in a terminal: `bin/anki-study FILE`."""

import os
import select
import shutil
import signal
import sys
import termios
import time
import tty

from front import charts
from front import program as programs
from front.collection import ReadFault, file_named
from front.importing import columns_of, told_of_import
from front.paths import read_file, target_of, write_file
from front.session import Lost, Session, Slip, number_of
from front.syncing import WAYS, needs_whole
from front.text import RULE, clean, clean_line, field_text, fitted, page_text

# Seconds without a key after which the file is closed.
IDLE = 60

USAGE = """usage: anki-study FILE

Study, add and browse the collection in FILE. If there is no file, it asks whether to make one.
"""

DECK_HELP = """A number studies that deck.
  a  add notes            /  browse: / and a search    c  charts
  n  new deck             r  rename a deck             x  delete a deck
  t  note types           o  options of a deck         g  new cards among reviews, after or before them
  i  import notes (CSV)   w  export notes (CSV)        s  sync with a server
  v  upload or download of the whole collection        u  undo   ?  this help   q  quit
"""

NO_UNDO = "The schema changes, and undo is empty from then on."
CLOSED = "The file is closed for it: undo is empty after."
STUDY_KEYS = "b bury  s suspend  f flag  e edit  u undo  q decks"
BUTTONS = "1 Again  2 Hard  3 Good  4 Easy  (space: Good)"


class Quit(Exception):
    pass


class Console:
    """Lines and keys of the learner's, and what is written. If the input is no terminal, a key is the first letter of a line."""

    def __init__(self, rested):
        self.input = sys.stdin.fileno()
        self.is_terminal = os.isatty(self.input)
        # What is done after a minute without a key.
        self.rested = rested
        self.pending = b""
        # How the terminal was, while it gives single keys.
        self.before = None

    def write(self, text=""):
        try:
            sys.stdout.write(text + "\n")
            sys.stdout.flush()
        except BrokenPipeError:
            raise Quit()

    def line(self, prompt):
        self.give_lines()
        sys.stdout.write(prompt)
        sys.stdout.flush()
        while b"\n" not in self.pending:
            self._read()
        line, self.pending = self.pending.split(b"\n", 1)
        return line.decode("utf-8", "replace").rstrip("\r")

    def secret(self, prompt):
        """A line that the terminal does not show."""
        if not self.is_terminal:
            return self.line(prompt)
        self.give_lines()
        shown = termios.tcgetattr(self.input)
        hidden = shown[:3] + [shown[3] & ~termios.ECHO] + shown[4:]
        termios.tcsetattr(self.input, termios.TCSADRAIN, hidden)
        try:
            return self.line(prompt)
        finally:
            termios.tcsetattr(self.input, termios.TCSADRAIN, shown)
            self.write()

    def key(self, prompt):
        if not self.is_terminal:
            return (self.line(prompt + " ") or " ")[0]
        self.give_keys()
        sys.stdout.write(prompt + " ")
        sys.stdout.flush()
        while not self.pending:
            self._read()
        key, self.pending = self.pending[:1], self.pending[1:]
        # An arrow or another key of several bytes is no key of ours.
        if key == b"\x1b":
            self.pending = b""
        self.write()
        return key.decode("latin-1")

    def give_keys(self):
        """Has the terminal give each key at once. What was typed before stays."""
        if self.before is None:
            self.before = termios.tcgetattr(self.input)
            tty.setcbreak(self.input, termios.TCSANOW)

    def give_lines(self):
        """Has the terminal give lines again, as it did before."""
        if self.before is not None:
            termios.tcsetattr(self.input, termios.TCSADRAIN, self.before)
            self.before = None

    def _read(self):
        while not select.select([self.input], [], [], IDLE)[0]:
            self.rested()
        piece = os.read(self.input, 4096)
        if not piece:
            raise Quit()
        self.pending += piece


class Study:
    def __init__(self, session):
        self.session = session
        self.console = Console(lambda: session.rest_if_idle(IDLE))
        self.write = self.console.write

    def run(self):
        shows_decks = True
        while True:
            try:
                if shows_decks:
                    self.show_decks()
                shows_decks = self.do_command(self.console.line("> ").strip())
            except (Slip, Lost, ReadFault) as told:
                self.tell(told)
                shows_decks = False

    def tell(self, told):
        self.write("! " + clean(str(told)))
        self.take_notice()

    def take_notice(self):
        notice = self.session.take_notice()
        if notice:
            self.write("! " + notice)

    # The decks.

    def show_decks(self):
        rows = self.session.deck_tree()
        self.take_notice()
        width = max(24, min(60, self.columns() - 36))
        self.write()
        self.write("%s  %s %8s %8s" % (" " * 4 + fitted("deck", width), "     new", "learning", "review"))
        for place, row in enumerate(rows):
            name = "  " * row.depth + clean_line(row.name)
            self.write("%4d %s  %8d %8d %8d" % (place + 1, fitted(name, width - 1), *row.counts))
        next_day = time.strftime("%H:%M", time.localtime(self.session.next_day_begins()))
        self.write("The next day begins at %s. A deck's number, a letter, or ? for help." % next_day)
        self.rows = rows

    def do_command(self, line):
        """Does what a line asks for, and gives whether the decks are to be shown again."""
        commands = {"a": self.add_notes, "n": self.new_deck, "r": self.rename_deck, "x": self.delete_deck, "t": self.types,
                    "o": self.options, "c": self.charts, "u": self.undo, "g": self.spread, "s": self.sync,
                    "v": self.send_whole, "i": self.import_notes, "w": self.export_notes}
        if line.isdigit():
            self.study(self.deck_at(line))
        elif line.startswith("/"):
            self.browse(line[1:])
        elif line in commands:
            commands[line]()
        elif line == "q":
            raise Quit()
        elif line == "?":
            self.write(DECK_HELP)
            return False
        elif line:
            self.write("! there is no command %s; ? tells which there are" % clean_line(line))
            return False
        return True

    def deck_at(self, word):
        place = int(word) if word.isdigit() else 0
        if not 1 <= place <= len(self.rows):
            raise Slip("there is no deck of the number %s" % clean_line(word))
        return self.rows[place - 1].deck.id

    def ask_deck(self, prompt):
        word = self.console.line(prompt).strip()
        return self.deck_at(word) if word else None

    def new_deck(self):
        name = self.console.line("Name of the new deck (A::B puts B under A): ")
        if name.strip():
            self.session.add_deck(name)

    def rename_deck(self):
        deck = self.ask_deck("Number of the deck to rename: ")
        if deck is not None:
            self.rename(self.session.deck_name(deck), lambda name: self.session.rename_deck(deck, name))

    def rename(self, held, give):
        """Asks for another name, and gives it after a question."""
        name = self.console.line("New name of %s: " % clean_line(held)).strip()
        if name and self.is_sure_of_name(held, name):
            give(name)

    def is_sure_of_name(self, held, name):
        return name == held or self.confirm("Rename %s to %s?" % (clean_line(held), clean_line(name)))

    def delete_deck(self):
        deck = self.ask_deck("Number of the deck to delete: ")
        if deck is None:
            return
        decks, cards, notes = self.session.what_drop_takes(deck)
        name = clean_line(self.session.deck_name(deck))
        gone = "%s, %s and %s go" % (number_of(decks, "deck"), number_of(cards, "card"), number_of(notes, "note"))
        if self.confirm("Delete %s: %s. Their reviews stay." % (name, gone)):
            self.session.drop_deck(deck)

    def confirm(self, question):
        return self.console.line("%s Type yes: " % question).strip() == "yes"

    def undo(self):
        self.write("Undone: %s." % clean_line(self.session.undo()))

    def spread(self):
        word = self.console.line("New cards: 0 among the reviews, 1 after them, 2 before them: ").strip()
        if word:
            self.session.set_spread(int(word) if word in ("0", "1", "2") else -1)

    # Sync with a server, and files of notes.

    def sync(self):
        server, key = self.ask_account()
        if key:
            outcome = self.session.sync(server, key)
            self.tell_outcome(outcome)
            if needs_whole(outcome):
                self.choose_way(server, key)

    def send_whole(self):
        server, key = self.ask_account()
        if key:
            self.choose_way(server, key)

    def ask_account(self):
        self.write(CLOSED)
        held = self.session.last_server
        server = self.console.line("Server, as HOST:PORT [%s]: " % clean_line(held)).strip()
        return server or held, self.console.secret("Key of the account: ").strip()

    def choose_way(self, server, key):
        """Offers the upload and the download, and does the one that is asked for twice."""
        for way in WAYS.values():
            self.write("%s: %s %s" % (way.word, way.does, way.throws))
        way = {"u": WAYS["upload"], "d": WAYS["download"]}.get(self.console.line("u upload, d download, Enter neither: ").strip())
        if way is None or not self.confirm("%s %s" % (way.does, way.throws)):
            return
        if self.console.line("This can't be undone. Type the word %s to do it: " % way.word).strip() == way.word:
            self.tell_outcome(self.session.send_whole(way.word, server, key))
        else:
            self.write("Nothing was sent.")

    def tell_outcome(self, outcome):
        for line in outcome:
            if line:
                self.write(clean_line(line))

    def import_notes(self):
        path = self.console.line("File of CSV to import: ").strip()
        if not path:
            return
        content = read_file(path)
        note_type, deck = self.ask_type(), self.ask_deck_of_all()
        self.write("A line of it is: %s. An import can't be undone. %s" % (clean_line(columns_of(note_type)), CLOSED))
        if self.confirm("Import it into %s?" % clean_line(deck.name)):
            self.write(told_of_import(self.session.import_notes(note_type.id, deck.id, content)))

    def export_notes(self):
        self.write(CLOSED)
        note_type = self.ask_type()
        path = self.console.line("File to write the notes of %s to, as CSV: " % clean_line(note_type.name)).strip()
        if not path:
            return
        path = target_of(path, self.session.path)
        if os.path.exists(path) and not self.confirm("Replace the file %s?" % clean_line(path)):
            return
        write_file(path, self.session.export_notes(note_type.id))
        self.write("The notes of %s are in %s." % (clean_line(note_type.name), clean_line(path)))

    def ask_type(self):
        return self.ask_choice("Note type", self.session.note_types(), self.session.default_type())

    def ask_deck_of_all(self):
        self.show_decks()
        return self.ask_choice("Deck", [row.deck for row in self.rows], self.session.default_deck())

    # Study.

    def study(self, deck):
        while True:
            card = self.session.next_card(deck)
            if card is None:
                self.show_end(deck)
                return
            if not self.study_card(deck, card):
                return

    def show_end(self, deck):
        known = self.session.tomorrow(deck)
        self.take_notice()
        self.write()
        self.write("%s: all done for now." % clean_line(self.session.deck_name(deck)))
        for line in end_lines(known):
            self.write(line)

    def study_card(self, deck, card):
        """Shows a card until something is done with it. Gives whether to go on."""
        front = page_text(self.session.page(card, "front"))
        counts = self.session.counts(deck)
        self.take_notice()
        self.write()
        self.write("%s   new %d  learning %d  review %d" % (clean_line(self.session.deck_name(deck)), *counts))
        self.write(RULE)
        self.write(front)
        self.write(RULE)
        began = time.monotonic()
        is_shown = False
        while True:
            key = self.console.key(BUTTONS if is_shown else "space: show the back   %s" % STUDY_KEYS)
            if not is_shown and key in " \r\n":
                self.write(page_text(self.session.page(card, "back")))
                self.take_notice()
                self.write(RULE)
                is_shown = True
            elif is_shown and (key in "1234" or key in " \r\n"):
                taken = int((time.monotonic() - began) * 1000)
                return self.give(card, int(key) if key in "1234" else 3, taken)
            elif key == "q":
                return False
            elif key in "bsfeu?":
                if self.do_card_key(card, key):
                    return True
            elif key not in "1234":
                self.write("  %s" % STUDY_KEYS)

    def give(self, card, button, taken):
        try:
            self.session.answer(card, button, taken)
        except (Slip, Lost) as told:
            self.tell(told)
        return True

    def do_card_key(self, card, key):
        """Does what a key asks for, and gives whether the card is to be asked for anew."""
        try:
            if key == "b":
                self.session.bury(card)
            elif key == "s":
                self.session.suspend(card)
            elif key == "u":
                self.undo()
            elif key == "f":
                value = self.console.key("flag 0 to 7:")
                self.session.flag(card, int(value) if value in "01234567" else 8)
                self.write("Flag %s." % value)
                return False
            elif key == "e":
                return self.edit_note(self.session.note_of(card).id)
            else:
                self.write("  %s\n  %s" % (STUDY_KEYS, BUTTONS))
                return False
            return True
        except Slip as told:
            self.tell(told)
            return False

    # Notes.

    def edit_note(self, note):
        note_type, fields, tags = self.session.note_form(note)
        self.write("Each field: a line gives it another text, an empty line keeps it, . empties it, \\n is a line end.")
        made = [self.ask_field(name, text) for name, text in zip(note_type.fields, fields)]
        line = self.console.line("tags [%s]: " % clean_line(" ".join(tags)))
        made_tags = tags if not line.strip() else [] if line.strip() == "." else line.split()
        changed = self.session.edit_note(note, made, made_tags)
        self.write("Changed." if changed else "Nothing was changed.")
        return changed

    def ask_field(self, name, text):
        line = self.console.line("%s [%s]: " % (clean_line(name), escaped(text)))
        return text if line == "" else "" if line == "." else unescaped(line)

    def add_notes(self):
        note_type, deck = self.ask_type(), self.ask_deck_of_all()
        while True:
            where = "A new note of %s in %s." % (clean_line(note_type.name), clean_line(deck.name))
            self.write("%s An empty first field ends it; \\n is a line end." % where)
            fields = []
            for place, name in enumerate(note_type.fields):
                fields.append(unescaped(self.console.line("%s: " % clean_line(name))))
                if place == 0 and not fields[0].strip():
                    return
            tags = self.console.line("tags: ").split()
            try:
                _, cards = self.session.add_note(note_type.id, deck.id, fields, tags)
                self.write("Added: %s." % number_of(cards, "card"))
            except Slip as told:
                self.tell(told)

    def ask_choice(self, what, rows, default):
        place = next((place for place, row in enumerate(rows) if row.id == default), 0)
        for number, row in enumerate(rows):
            self.write("%4d %s" % (number + 1, clean_line(row.name)))
        word = self.console.line("%s [%d]: " % (what, place + 1)).strip() or str(place + 1)
        if not word.isdigit() or not 1 <= int(word) <= len(rows):
            raise Slip("there is no number %s" % clean_line(word))
        return rows[int(word) - 1]

    # Note types and options.

    def types(self):
        rows = list(self.session.note_types())
        for place, row in enumerate(rows):
            fields = clean_line(", ".join(row.fields)) + (" (cloze)" if row.cloze else "")
            self.write("%4d %s: %s" % (place + 1, clean_line(row.name), fields))
        word = self.console.line("n new, r rename, x delete, Enter for the decks: ").strip()
        if word == "n":
            self.new_type()
        elif word in ("r", "x"):
            row = self.ask_choice("Note type", rows, rows[0].id)
            if word == "r":
                self.rename(row.name, lambda name: self.session.rename_type(row.id, name))
            elif self.confirm("Delete the note type %s? %s" % (clean_line(row.name), NO_UNDO)):
                self.session.drop_type(row.id)

    def new_type(self):
        name = self.console.line("Name: ")
        fields = [part.strip() for part in self.console.line("Fields, with commas between: ").split(",")]
        cloze = self.console.line("Are its cards made of clozes? y or n: ").strip() == "y"
        templates = []
        while not templates or not cloze:
            side = self.console.line("Name of a template (an empty line ends them): ").strip()
            if not side:
                break
            templates.append((side, unescaped(self.console.line("Front: ")), unescaped(self.console.line("Back: "))))
        if templates:
            self.session.add_type(name, fields, templates, cloze)

    def options(self):
        deck = self.ask_deck("Number of the deck: ")
        if deck is None:
            return
        rows = list(self.session.option_groups())
        used = self.session.options_of_deck(deck)
        for place, row in enumerate(rows):
            self.write("%s%3d %s" % ("*" if row.id == used else " ", place + 1, clean_line(row.name)))
        word = self.console.line("e edit, a use others, n new ones, x delete, Enter for the decks: ").strip()
        if word == "e":
            self.edit_options(used)
        elif word == "a":
            self.session.use_options(deck, self.ask_choice("Options", rows, used).id)
        elif word == "n":
            name = self.console.line("Name: ").strip()
            if name:
                self.session.use_options(deck, self.session.add_options(name))
        elif word == "x":
            row = self.ask_choice("Options", rows, used)
            if self.confirm("Delete the options %s? %s" % (clean_line(row.name), NO_UNDO)):
                self.session.drop_options(row.id)

    def edit_options(self, options_id):
        values = self.session.option_values(options_id)
        self.write("An empty line keeps a value.")
        made = {}
        for value in values:
            word = self.console.line("%s [%s]: " % (value.label, clean_line(value.text))).strip()
            made[value.key] = word or value.text
            if value.key == "name" and not self.is_sure_of_name(value.text, made[value.key]):
                made[value.key] = value.text
        self.session.set_option_values(options_id, made)

    # Browsing.

    def browse(self, expression):
        first = 0
        while True:
            found = self.session.search(expression, first, 20)
            self.take_notice()
            self.show_found(found)
            word = self.console.line("A number shows the card, + and - other pages, Enter the decks: ").strip()
            if word == "+" and first + 20 < found.total:
                first += 20
            elif word == "-" and first:
                first -= 20
            elif word.isdigit() and 1 <= int(word) - first <= len(found.cards):
                self.show_card(found.cards[int(word) - first - 1])
            elif not word:
                return

    def show_found(self, found):
        self.write(number_of(found.total, "card"))
        note, deck = self.note_widths()
        self.write("     %s %s %s %s" % (fitted("note", note), fitted("deck", deck), fitted("due", 16), "interval"))
        for place, row in enumerate(found.cards):
            words = row.due if not row.state else "(%s)" % row.state
            cells = (fitted(field_text(row.note), note), fitted(clean_line(row.deck), deck), fitted(words, 16), row.interval)
            self.write("%4d %s %s %s %s" % (found.first + place + 1, *cells))

    def note_widths(self):
        rest = max(30, self.columns() - 34)
        return rest - rest // 3, rest // 3

    def show_card(self, row):
        card = row.card.id
        for side in ("front", "back"):
            self.write("%s\n%s\n%s" % (side + " " + RULE, page_text(self.session.page(card, side)), RULE))
        self.take_notice()
        key = self.console.key("e edit  d delete  s suspend  r return from suspension  b bury  f flag, another key goes on:")
        try:
            if key == "d":
                if self.confirm("Delete the note with all its cards?"):
                    self.session.delete_note(self.session.note_of(card).id)
            elif key == "r":
                self.session.unsuspend(card)
            elif key in "esbf":
                self.do_card_key(card, key)
        except Slip as told:
            self.tell(told)

    # Charts.

    def charts(self):
        for line in chart_lines(self.session):
            self.write(line)

    def columns(self):
        return shutil.get_terminal_size().columns


def end_lines(known):
    """What comes next, of what is known of tomorrow."""
    lines = []
    if known.next_learning is not None:
        lines.append("A card in learning comes back at %s." % time.strftime("%H:%M", time.localtime(known.next_learning)))
    buried = ", %s back from burying" % number_of(known.buried, "card") if known.buried else ""
    lines.append("Tomorrow: %s to review%s. New ones left: %d." % (number_of(known.due, "card"), buried, known.new))
    return lines


def chart_lines(session):
    """The charts as lines of text."""
    copy, today = session.chart_base()
    lines = reviews_lines(copy, today)
    lines += ["", "Due in the next 30 days (what is late counts today)"]
    due = enumerate(charts.forecast(copy, today, 30))
    lines += charts.bars([(date_of(copy, today + place), count, str(count)) for place, count in due])
    lines += ["", "Intervals of learned cards, in days"]
    lines += charts.bars([(span_words(span), span.cards, str(span.cards)) for span in charts.intervals(copy)])
    lines += ["", "Right answers by interval"]
    shares = [share for share in charts.right_answers(copy) if share.total]
    bars = [(span_words(share), share.right / share.total, "%d of %d" % (share.right, share.total)) for share in shares]
    lines += charts.bars(bars or [("-", 0, "none yet")])
    lines += ["", "Hours of the day, in local time"]
    lines += charts.bars([("%02d" % hour, count, str(count)) for hour, count in enumerate(charts.hours(copy))])
    next_day = time.strftime("%H:%M", time.localtime(session.next_day_begins()))
    return lines + ["Days are the collection's: the next begins at %s." % next_day]


def reviews_lines(copy, today):
    month, year = (charts.reviews_by_day(copy, today, days) for days in (30, 365))
    lines = ["", "Reviews in the last 30 days: %d" % sum(sum(row.buttons) for row in month)]
    words = "%d  (again %d, hard %d, good %d, easy %d)"
    totals = [(date_of(copy, row.day), sum(row.buttons), row.buttons) for row in month]
    lines += charts.bars([(day, total, words % (total, *buttons)) for day, total, buttons in totals])
    lines += ["", "Reviews in the last 365 days: %d" % sum(sum(row.buttons) for row in year)]
    months = [(label, sum(buttons)) for label, buttons in by_months(copy, year)]
    return lines + charts.bars([(label, total, str(total)) for label, total in months])


def date_of(copy, day):
    return time.strftime("%Y-%m-%d", time.localtime(copy.head.crt + day * charts.DAY + charts.DAY // 2))


def by_months(copy, rows):
    months = {}
    for row in rows:
        counts = months.setdefault(date_of(copy, row.day)[:7], [0, 0, 0, 0])
        for place, count in enumerate(row.buttons):
            counts[place] += count
    return list(months.items())


def span_words(span):
    if span.low == span.high:
        return "%d" % span.low
    return "over %d" % (span.low - 1) if span.high >= 1_000_000 else "%d to %d" % (span.low, span.high)


def escaped(text):
    return clean_line(text.replace("\\", "\\\\").replace("\n", "\\n"))


def unescaped(line):
    return line.replace("\\\\", "\0").replace("\\n", "\n").replace("\0", "\\")


def ensure_collection(program, path, ask):
    """Makes the collection that a learner begins with, if there is no file and the learner says so. Gives whether it is there."""
    if os.path.exists(path) and (not os.path.isfile(path) or os.path.getsize(path) > 0):
        return True
    if not ask("There is no collection in %s. Make a new one there? y or n: " % clean_line(path)):
        return False
    status = programs.make_collection(program, path)
    if status != programs.DONE:
        raise Lost("the collection could not be made: the program's status is %d" % status)
    return True


def main(words):
    if len(words) != 1 or words[0] in ("-h", "--help"):
        sys.stderr.write(USAGE)
        return 0 if words in (["-h"], ["--help"]) else 2
    signal.signal(signal.SIGTERM, lambda *_: sys.exit(143))
    signal.signal(signal.SIGHUP, lambda *_: sys.exit(129))
    session = front = None
    try:
        path = file_named(words[0])
        program = programs.find_program()
        session = Session(program, path)
        front = Study(session)
        if not ensure_collection(program, path, lambda question: front.console.line(question).strip().lower() == "y"):
            return 1
        session.open()
        front.run()
    except Quit:
        return 0
    except KeyboardInterrupt:
        sys.stderr.write("\n")
        return 130
    except (ReadFault, Lost, programs.NoProgram) as fault:
        sys.stderr.write("anki-study: %s\n" % clean(str(fault)))
        return 1
    finally:
        if front is not None:
            front.console.give_lines()
        if session is not None:
            session.rest("")
    return 0
