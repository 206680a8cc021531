"""The screens of the page in the browser, as HTML. Every text from outside goes through `h`, or into the frame of a card."""

import html
import time
import urllib.parse

from front import charts, svg
from front.collection import fields_of
from front.frame import card_frame
from front.importing import LONGEST_FILE, columns_of
from front.session import number_of
from front.syncing import WAYS
from front.terminal import CLOSED, by_months, date_of, end_lines, span_words
from front.text import clean_line, field_text

# How many cards a screen of a search has.
MOST_FOUND = 50

BUTTONS = (("Again", "1"), ("Hard", "2"), ("Good", "3 space Enter"), ("Easy", "4"))
SPREADS = ((0, "among the reviews"), (1, "after the reviews"), (2, "before the reviews"))

# Under `no-referrer`, which each answer has, a browser hides the origin of a form too. With this it tells it to this page, and
# nothing to any other.
OWN_ORIGIN = '<meta name="referrer" content="same-origin">'

NEW_TYPE = {"fields": "Front, Back", "front": "{{Front}}", "back": "{{FrontSide}}<hr id=answer>{{Back}}"}
NAME_INPUT = 'required maxlength="5000"'
NAMED = {"deck": "deck", "type": "note type"}
NO_UNDO = "The schema changes, and undo is empty from then on."


class Screen:
    """What every form of a screen carries: the number of the screen, and the token."""

    def __init__(self, number, token, undoable, notice="", told="", is_bad=False):
        self.number, self.token, self.undoable = number, token, undoable
        self.notice, self.told, self.is_bad = notice, told, is_bad

    def form(self, path, body, css="", has_file=False, **values):
        """A form that changes something: its body, and what it carries hidden."""
        values = dict(values, number=self.number, token=self.token)
        hidden = "".join('<input type="hidden" name="%s" value="%s">' % (h(name), h(value)) for name, value in values.items())
        sent = ' enctype="multipart/form-data"' if has_file else ""
        return '<form class="%s" method="post" action="%s"%s>%s%s</form>' % (h(css), h(path), sent, hidden, body)

    def button(self, path, words, keys="", css="", **values):
        """A form of one button."""
        return self.form(path, button(words, css, keys), "inline", **values)

    def undo(self, here):
        if not self.undoable:
            return "<span><small>Nothing to undo</small></span>"
        return self.button("/undo", "Undo: " + self.undoable, "u", back=here)

    def page(self, title, body, here="/"):
        said = ""
        for text, css in ((self.notice, "told"), (self.told, "told bad" if self.is_bad else "told")):
            if text:
                said += '<p class="%s" role="status">%s</p>' % (css, h(text))
        places = (("/", "Decks"), ("/add", "Add"), ("/browse", "Browse"), ("/types", "Note types"), ("/charts", "Charts"),
                  ("/files", "Import and export"), ("/sync", "Sync"))
        return (
            '<!DOCTYPE html><html lang="en"><head><meta charset="utf-8"><title>%s</title>%s'
            '<meta name="viewport" content="width=device-width, initial-scale=1">'
            '<link rel="stylesheet" href="/style.css"><script src="/front.js" defer></script></head>'
            '<body><nav aria-label="Places">%s%s</nav><main>%s%s</main></body></html>'
            % (h(title), OWN_ORIGIN, "".join(link(path, words) for path, words in places), self.undo(here), said, body)
        )


# Parts of a screen.


def h(text):
    return html.escape(str(text))


def address(path, **values):
    """A path with a query."""
    query = urllib.parse.urlencode({name: value for name, value in values.items() if value is not None})
    return path + ("?" + query if query else "")


def link(path, words, keys="", label=""):
    more = (' data-keys="%s"' % h(keys) if keys else "") + (' aria-label="%s"' % h(label) if label else "")
    return '<a dir="auto" href="%s"%s>%s</a>' % (h(path), more, h(words))


def button(words, css="", keys=""):
    return '<button class="%s"%s>%s</button>' % (h(css), ' data-keys="%s"' % h(keys) if keys else "", h(words))


def heading(words):
    return '<h1 dir="auto">%s</h1>' % h(words)


def row(*parts):
    return '<div class="row">%s</div>' % " ".join(parts)


def label(name, words, css=""):
    return '<label class="%s" for="%s">%s</label>' % (css, h(name), h(words))


def text_input(name, text="", more=""):
    return '<input type="text" id="%s" name="%s" value="%s" dir="auto" %s>' % (h(name), h(name), h(text), more)


def text_area(name, words, text):
    """A text of several lines with its label. A browser takes the first line end away."""
    area = '<textarea id="%s" name="%s" dir="auto" rows="3">\n%s</textarea>' % (h(name), h(name), h(text))
    return label(name, words) + area


def select(name, rows, chosen, element=None):
    """A choice of rows (value, words)."""
    options = "".join(
        '<option value="%s"%s>%s</option>' % (h(value), " selected" if value == chosen else "", h(words)) for value, words in rows
    )
    return '<select id="%s" name="%s">%s</select>' % (h(element or name), h(name), options)


def table(heads, rows):
    """A table of cells that are HTML. A head that ends in `#` is of numbers."""
    css = [' class="number"' if head.endswith("#") else "" for head in heads]
    top = "".join('<th scope="col"%s>%s</th>' % (kind, h(head.rstrip("#"))) for kind, head in zip(css, heads))
    lines = ["<tr>%s</tr>" % "".join("<td%s>%s</td>" % pair for pair in zip(css, cells)) for cells in rows]
    return "<table><thead><tr>%s</tr></thead><tbody>%s</tbody></table>" % (top, "".join(lines))


def small(words):
    return "<p><small>%s</small></p>" % h(words)


def clock(seconds):
    return time.strftime("%H:%M", time.localtime(seconds))


# The decks.


def decks(screen, session, new_name=""):
    rows = [
        (
            '<span style="padding-inline-start: %.1frem">%s</span>' % (1.2 * line.depth, link(address("/study", deck=line.deck.id), line.name)),
            *line.counts,
            link(address("/deck", deck=line.deck.id), "Change", label="Change the deck %s" % line.deck.name),
        )
        for line in session.deck_tree()
    ]
    new_deck = label("name", "New deck (A::B puts B under A)") + row(text_input("name", new_name, "required"), button("Add the deck"))
    spread = label("spread", "New cards come") + row(select("spread", SPREADS, session.spread()), button("Keep"))
    body = (
        heading("Decks")
        + table(["Deck", "New#", "Learning#", "Review#", ""], rows)
        + small("The next day begins at %s, local time." % clock(session.next_day_begins()))
        + screen.form("/deck-new", new_deck)
        + screen.form("/spread", spread)
    )
    return screen.page("Decks", body)


def deck(screen, session, deck_id, name=None):
    held = session.deck_name(deck_id)
    used = session.options_of_deck(deck_id)
    groups = [(group.id, group.name) for group in session.option_groups()]
    values = link(address("/options", options=used), "Change their values")
    use = label("options", "Options") + row(select("options", groups, used), button("Use these"), values)
    new = label("new", "New options, for this deck")
    new += row('<input type="text" id="new" name="name" required>', button("Add the options"))
    body = (
        heading(held)
        + rename_form("deck", deck_id, name_row(held if name is None else name))
        + screen.form("/deck-options", use, deck=deck_id)
        + screen.form("/options-new", new, deck=deck_id)
        + "<p>%s</p>" % link(address("/sure", what="deck", id=deck_id), "Delete this deck")
    )
    return screen.page(held, body)


def options(screen, session, options_id, texts=None):
    texts = texts or {}
    lines = [
        label(value.key, value.label) + text_input(value.key, texts.get(value.key, value.text))
        for value in session.option_values(options_id)
        if value.key != "name"
    ]
    rename = rename_form("options", options_id, name_row(texts.get("name", name_of(session, "options", options_id))))
    body = heading("Options") + rename + screen.form("/options-set", "".join(lines) + row(button("Save", "main")), id=options_id)
    body += "<p>%s</p>" % link(address("/sure", what="options", id=options_id), "Delete these options")
    return screen.page("Options", body)


def sure(screen, session, what, row_id):
    """The question before something is deleted, with what goes."""
    words, path = {"deck": sure_deck, "note": sure_note, "type": sure_type}.get(what, sure_options)(session, row_id)
    body = heading("Delete?") + '<p dir="auto">%s</p>' % h("Delete %s" % words)
    return screen.page("Delete?", body + row(screen.button(path, "Yes, delete", id=row_id), link("/", "No, keep it")))


def rename_form(what, row_id, body, css=""):
    """A form that leads to the question before a row of an id gets another name."""
    hidden = '<input type="hidden" name="what" value="%s"><input type="hidden" name="id" value="%d">' % (what, row_id)
    return '<form class="%s" method="get" action="/sure">%s%s</form>' % (css, hidden, body)


def name_row(name):
    return label("name", "Name") + row(text_input("name", name, NAME_INPUT), button("Rename"))


def sure_name(screen, session, what, row_id, name):
    """The question before something gets another name, with both names."""
    what, words = (what, NAMED[what]) if what in NAMED else ("options", "options")
    question = "<p>Rename the %s <bdi>%s</bdi> to <bdi>%s</bdi>?</p>" % (words, h(name_of(session, what, row_id)), h(name.strip()))
    yes = screen.button("/%s-rename" % what, "Yes, rename", id=row_id, name=name)
    return screen.page("Rename?", heading("Rename?") + question + row(yes, link("/", "No, keep it")))


def name_of(session, what, row_id):
    if what == "deck":
        return session.deck_name(row_id)
    rows = session.note_types() if what == "type" else session.option_groups()
    return {held.id: held.name for held in rows}.get(row_id, "?")


def sure_deck(session, row_id):
    gone = "%s, %s and %s go" % tuple(map(number_of, session.what_drop_takes(row_id), ("deck", "card", "note")))
    return "the deck %s: %s. Their reviews stay." % (session.deck_name(row_id), gone), "/deck-delete"


def sure_note(session, row_id):
    session.note_form(row_id)
    cards = number_of(len(session.copy.cards_of(row_id)), "card")
    return "this note with its %s. Their reviews stay." % cards, "/note-delete"


def sure_type(session, row_id):
    return "the note type %s. %s" % (name_of(session, "type", row_id), NO_UNDO), "/type-delete"


def sure_options(session, row_id):
    words = "the options %s. Decks that use them get the default ones. %s" % (name_of(session, "options", row_id), NO_UNDO)
    return words, "/options-delete"


# Study.


def study(screen, session, deck_id, card, is_back, shows_hints):
    name, counts = session.deck_name(deck_id), session.counts(deck_id)
    page = session.page(card, "back" if is_back else "front")
    frame = card_frame(page, shows_hints, "The %s of the card" % ("back" if is_back else "front"))
    again = dict(deck=deck_id, card=card, at=screen.number)
    under = answer_buttons(screen, deck_id, card) if is_back else show_link(again)
    here = address("/study", deck=deck_id)
    tools = [
        screen.button("/bury", "Bury (b)", "b", card=card, back=here),
        screen.button("/suspend", "Suspend (s)", "s", card=card, back=here),
        link(address("/edit", note=session.copy.row("cards", card).nid, back=here), "Edit (e)", "e"),
    ]
    if "class=hint" in page and not shows_hints:
        tools.append(link(address("/study", hints=1, back=1 if is_back else None, **again), "Show hints (h)", "h"))
    tools.append(flag_form(screen, session, card, here))
    body = heading(name) + small("new %d, learning %d, review %d" % counts) + frame + under + row(*tools)
    return screen.page(name, body, here)


def show_link(again):
    path = address("/study", back=1, **again)
    return '<p><a id="show" data-keys="space Enter" href="%s"><b>Show the back</b></a> <small>(space)</small></p>' % h(path)


def answer_buttons(screen, deck_id, card):
    made = [
        screen.button("/answer", "%d %s" % (place + 1, words), keys, "main" if words == "Good" else "", deck=deck_id, card=card, button=place + 1)
        for place, (words, keys) in enumerate(BUTTONS)
    ]
    return '<div class="row buttons" role="group" aria-label="How well you knew it">%s</div>' % "".join(made)


def flag_form(screen, session, card_id, here):
    """The flags, with the card's chosen."""
    rows = [(value, "flag %d" % value if value else "no flag") for value in range(8)]
    choice = select("flag", rows, session.copy.row("cards", card_id).flags % 8)
    return screen.form("/flag", label("flag", "Flag", "inline") + " %s %s" % (choice, button("Set")), "inline", card=card_id, back=here)


def study_end(screen, session, deck_id):
    name = session.deck_name(deck_id)
    lines = "".join("<p>%s</p>" % h(line) for line in end_lines(session.tomorrow(deck_id)))
    body = heading(name) + "<p>All done for now.</p>" + lines + "<p>%s</p>" % link("/", "The decks")
    return screen.page(name, body, address("/study", deck=deck_id))


# Notes.


def note_areas(names, texts):
    return "".join(text_area("field%d" % place, name, text) for place, (name, text) in enumerate(zip(names, texts)))


def tags_input(tags):
    return label("tags", "Tags, with spaces between") + text_input("tags", tags)


def edit(screen, session, note_id, back, fields=None, tags=None):
    note_type, held_fields, held_tags = session.note_form(note_id)
    areas = note_areas(note_type.fields, held_fields if fields is None else fields)
    inside = areas + tags_input(" ".join(held_tags) if tags is None else tags) + row(button("Save", "main"), link(back, "Leave it"))
    body = heading("Edit a note of %s" % note_type.name) + screen.form("/edit", inside, note=note_id, back=back)
    body += "<p>%s</p>" % link(address("/sure", what="note", id=note_id), "Delete this note")
    return screen.page("Edit a note", body, back)


def add(screen, session, type_id=None, deck_id=None, fields=None, tags=""):
    types = session.note_types()
    chosen = next((note_type for note_type in types if note_type.id == (type_id or session.default_type())), types[0])
    deck_id = deck_id or session.default_deck()
    choice = select("type", [(note_type.id, note_type.name) for note_type in types], chosen.id, "choose")
    choice += '<input type="hidden" name="deck" value="%d">' % deck_id
    areas = note_areas(chosen.fields, fields or [""] * len(chosen.fields))
    inside = label("deck", "Deck") + select("deck", deck_rows(session), deck_id) + areas + tags_input(tags) + row(button("Add", "main"))
    body = (
        heading("Add a note")
        + '<form method="get" action="/add">%s%s</form>' % (label("choose", "Note type"), row(choice, button("Choose")))
        + screen.form("/add", inside, type=chosen.id)
        + (small("A cloze is written {{c1::text}} or {{c1::text::hint}}.") if chosen.cloze else "")
    )
    return screen.page("Add a note", body, "/add")


def deck_rows(session):
    """The decks to choose one of."""
    return [(held.id, held.name) for held in sorted(session.copy.decks.values(), key=lambda held: held.name.split("::"))]


def types(screen, session, made=None):
    rows = []
    for held in session.note_types():
        words = h("Name of the note type %s" % held.name)
        name = '<input type="text" name="name" value="%s" dir="auto" aria-label="%s" %s>' % (h(held.name), words, NAME_INPUT)
        rename = rename_form("type", held.id, name + button("Rename"), "row")
        delete = link(address("/sure", what="type", id=held.id), "Delete", label="Delete the note type %s" % held.name)
        rows.append((rename, h(", ".join(held.fields)), session.notes_of_type(held.id), delete))
    body = heading("Note types") + table(["Name", "Fields", "Notes#", ""], rows) + "<h2>A new note type</h2>"
    return screen.page("Note types", body + screen.form("/type-new", type_form(dict(NEW_TYPE, **(made or {})))), "/types")


def type_form(made):
    kinds = (("templates", "each template"), ("cloze", "the clozes of a text"))
    return (
        label("name", "Name")
        + text_input("name", made.get("name", ""), "required")
        + label("fields", "Fields, with commas between")
        + text_input("fields", made["fields"], "required")
        + label("kind", "Its cards are made of")
        + select("kind", kinds, made.get("kind"))
        + text_area("front", "Front of the card", made["front"])
        + text_area("back", "Back of the card", made["back"])
        + text_area("front2", "Front of a second card (may be empty)", made.get("front2", ""))
        + text_area("back2", "Back of a second card", made.get("back2", ""))
        + row(button("Add the note type", "main"))
    )


# Browsing.


def search_form(expression, more=""):
    box = '<input type="search" id="q" name="q" value="%s" dir="auto" %s>' % (h(expression or ""), more)
    inside = label("q", "Search, such as deck:French is:due or tag:animal") + row(box, button("Search"))
    return heading("Browse") + '<form method="get" action="/browse" role="search">%s</form>' % inside


def browse(screen, session, expression, first):
    if expression is None:
        return screen.page("Browse", search_form(expression), "/browse")
    found = session.search(expression, first, MOST_FOUND)
    here = address("/browse", q=expression, first=first)
    rows = [
        (
            link(address("/card", card=line.card.id, back=here), field_text(line.note)[:200] or "(nothing)"),
            h(line.deck),
            h("%s (%s)" % (line.due, line.state) if line.state else line.due),
            h(line.interval),
        )
        for line in found.cards
    ]
    pages = []
    if first:
        pages.append(link(address("/browse", q=expression, first=max(0, first - MOST_FOUND)), "Before"))
    if first + MOST_FOUND < found.total:
        pages.append(link(address("/browse", q=expression, first=first + MOST_FOUND), "After"))
    body = search_form(expression) + '<p role="status">%s</p>' % number_of(found.total, "card")
    return screen.page("Browse", body + table(["Note", "Deck", "Due", "Interval#"], rows) + row(*pages), here)


def search_refused(screen, expression):
    """The search's form again, with the text as it was typed."""
    return screen.page("Browse", search_form(expression, 'aria-invalid="true"'), "/browse")


def card(screen, session, card_id, back):
    here = address("/card", card=card_id, back=back)
    sides = ""
    for side in ("front", "back"):
        sides += "<h2>%s</h2>%s" % (side.title(), card_frame(session.page(card_id, side), True, "The %s of the card" % side))
    note = session.note_of(card_id)
    title = heading(field_text(fields_of(note)[0])[:80] or "A card")
    tools = row(
        link(address("/edit", note=note.id, back=here), "Edit the note"),
        screen.button("/suspend", "Suspend", card=card_id, back=here),
        screen.button("/unsuspend", "Return from suspension", card=card_id, back=here),
        screen.button("/bury", "Bury", card=card_id, back=here),
        flag_form(screen, session, card_id, here),
        link(address("/sure", what="note", id=note.id), "Delete the note"),
        link(back, "Back"),
    )
    return screen.page("A card", title + sides + tools, here)


# Charts.


def chart_page(screen, session):
    copy, today = session.chart_base()
    body = (
        heading("Charts")
        + reviews_chart(copy, today, 30)
        + reviews_chart(copy, today, 365)
        + forecast_chart(copy, today)
        + counts_chart("Intervals of learned cards, in days", "Days", [(span_words(span), span.cards) for span in charts.intervals(copy)])
        + right_chart(copy)
        + counts_chart("Hours of the day, in local time", "Hour", [("%02d" % hour, count) for hour, count in enumerate(charts.hours(copy))])
        + small("Days are the collection's: the next begins at %s, local time." % clock(session.next_day_begins()))
    )
    return screen.page("Charts", body, "/charts")


def reviews_chart(copy, today, days):
    rows = charts.reviews_by_day(copy, today, days)
    title = "Reviews in the last %d days" % days
    shown = [(date_of(copy, day.day), day.buttons) for day in rows]
    told = shown if days == 30 else by_months(copy, rows)
    names = ["Again", "Hard", "Good", "Easy"]
    legend = "<p>%s</p>" % " ".join('<span class="key %s">%s</span>' % pair for pair in zip(svg.BUTTON_CLASSES, names))
    numbers = svg.table(["Day" if days == 30 else "Month"] + names, [[words] + list(buttons) for words, buttons in told])
    total = sum(sum(day.buttons) for day in rows)
    return "<h2>%s: %d</h2>" % (title, total) + legend + svg.bar_chart(title, shown, svg.BUTTON_CLASSES) + numbers


def forecast_chart(copy, today):
    rows = [(date_of(copy, today + place), count) for place, count in enumerate(charts.forecast(copy, today, 30))]
    return counts_chart("Due in the next 30 days", "Day", rows) + small("What is late counts today.")


def counts_chart(title, head, rows):
    drawn = svg.bar_chart(title, [(words, [count]) for words, count in rows])
    return "<h2>%s</h2>" % title + drawn + svg.table([head, "Number"], rows)


def right_chart(copy):
    shares = charts.right_answers(copy)
    title = "Right answers by interval, in percent"
    rows = [(span_words(share), [100 * share.right / share.total if share.total else 0]) for share in shares]
    numbers = svg.table(["Days", "Right", "Of"], [[span_words(share), share.right, share.total] for share in shares])
    return "<h2>%s</h2>" % title + svg.bar_chart(title, rows, ("good",), "%") + numbers


# Files of notes.


def files(screen, session, type_id=None, deck_id=None):
    types = [(held.id, held.name) for held in session.note_types()]
    type_id = type_id or session.default_type()
    columns = "".join("<li><bdi>%s</bdi>: <bdi>%s</bdi></li>" % (h(held.name), h(columns_of(held))) for held in session.note_types())
    bring = label("file", "File of CSV, of at most %d MiB" % (LONGEST_FILE >> 20))
    bring += '<input type="file" id="file" name="file" accept=".csv,text/csv,text/plain" required>'
    bring += label("type", "Note type") + select("type", types, type_id)
    bring += label("deck", "Deck") + select("deck", deck_rows(session), deck_id or session.default_deck()) + row(button("Import", "main"))
    take = label("out", "Note type") + row(select("type", types, type_id, "out"), button("Export"))
    body = (
        heading("Import and export")
        + small(CLOSED)
        + "<h2>Import</h2><p>A line of the file has these columns, and no line has their names:</p><ul>%s</ul>" % columns
        + small("A guid that a note of the type has gives that note other fields and tags; another guid adds a note to the deck. An import can't be undone. Of a text that Anki has exported bin/from-anki-text makes such files.")
        + screen.form("/import", bring, has_file=True)
        + "<h2>Export</h2>"
        + screen.form("/export", take)
    )
    return screen.page("Import and export", body, "/files")


# Sync.


def account_inputs(session, server=None):
    secret = '<input type="password" id="key" name="key" autocomplete="off" required>'
    inside = label("server", "Server, as HOST:PORT") + text_input("server", session.last_server if server is None else server, "required")
    return inside + label("key", "Key of the account") + secret


def sync(screen, session, server=None):
    form = screen.form("/sync", account_inputs(session, server) + row(button("Sync", "main")))
    body = heading("Sync") + small(CLOSED) + form + "<h2>The whole collection</h2>"
    body += "<p>Where a sync ends with <q>full needed</q>, one side takes the whole collection of the other, and what only it had is gone.</p>"
    for way in WAYS.values():
        body += "<p>%s %s %s</p>" % (link(address("/whole", way=way.word), way.word.title()), h(way.does), h(way.throws))
    return screen.page("Sync", body, "/sync")


def way_question(screen, session, way):
    """The first question before an upload or a download."""
    body = heading("%s the whole collection?" % way.word.title()) + "<p>%s</p><p><b>%s</b></p>" % (h(way.does), h(way.throws))
    body += row(link(address("/whole", way=way.word, sure=1), "Go on to the %s" % way.word), link("/sync", "No, leave both as they are"))
    return screen.page("Sync", body, "/sync")


def way_sure(screen, session, way, server=None):
    """The second question, with what the run needs."""
    inside = account_inputs(session, server) + label("word", "Type the word %s" % way.word)
    inside += '<input type="text" id="word" name="word" autocomplete="off" required>'
    inside += row(button("%s, and throw that away" % way.word.title(), "main"), link("/sync", "No, leave both as they are"))
    body = heading("%s: are you sure?" % way.word.title()) + "<p>%s <b>%s</b> This can't be undone. %s</p>" % (h(way.does), h(way.throws), CLOSED)
    return screen.page("Sync", body + screen.form("/" + way.word, inside), "/sync")


def message(screen, title, text):
    return screen.page(title, heading(title) + '<p dir="auto">%s</p><p>%s</p>' % (h(clean_line(text)), link("/", "The decks")))


def plain(title, text):
    """A page for whoever has not come in."""
    return (
        '<!DOCTYPE html><html lang="en"><head><meta charset="utf-8"><title>%s</title></head>'
        "<body><h1>%s</h1><p>%s</p></body></html>" % (h(title), h(title), h(text))
    )
