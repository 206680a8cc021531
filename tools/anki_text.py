"""Between Anki's "Notes in Plain Text" and the CSV that `import` reads and `export` writes: a record is a guid, the tags with one space between, and the fields.

    from-anki-text FILE TEXT FOLDER    one file of CSV in FOLDER for each note type and deck of TEXT, and the commands that import them into FILE
    to-anki-text TYPE DECK             the CSV of standard input as Anki's text on standard output, for notes of this type in this deck

Anki's text begins with lines such as `#separator:tab`, which say what stands in which column. Status 0: done. 2: the words are others.
3: refused, and nothing was written; if FILE lacks a type, a field or a deck, the lines for its desk that make it are printed. 5: nobody reads what is printed.
"""
import csv
import hashlib
import html
import json
import os
import re
import shlex
import shutil
import sys

from front.collection import ReadFault, open_collection

SEPARATORS = {"tab": "\t", "comma": ",", "semicolon": ";", "space": " ", "pipe": "|", "colon": ":"}

# What a field may hold in Anki; the csv module's own limit is lower.
LONGEST_FIELD = 1 << 30


class Refused(Exception):
    """Why a text was not converted, in a sentence for the reader."""


class Note:
    """A note of Anki's text. `fields` may have empty ones at its end that belong to other types."""

    def __init__(self, guid, type_name, deck_name, tags, fields):
        self.guid, self.type_name, self.deck_name, self.tags, self.fields = guid, type_name, deck_name, tags, fields


# ---- Anki's text

class Lines:
    """The lines of a text for a reader of CSV: where a record begins, a line with `#` is passed over."""

    def __init__(self, text):
        self.lines, self.is_at_start = iter(re.findall(r"[^\n]*\n|[^\n]+", text)), True

    def __iter__(self):
        return self

    def __next__(self):
        line = next(self.lines)
        while self.is_at_start and (line.startswith("#") or not line.strip("\r\n")):
            line = next(self.lines)
        self.is_at_start = False
        return line


def head_of(text):
    """What the first lines say: their words in lower case, each with its value."""
    head = {}
    for line in text.split("\n"):
        found = re.fullmatch(r"#([^:]+):(.*)", line.rstrip("\r"))
        if not found:
            break
        head[found.group(1).strip().lower()] = found.group(2)
    return head


def separator_of(head, text):
    """The character between columns: the one that is named, else a tab, a semicolon or a comma, whichever the first record has."""
    if "separator" in head:
        named = head["separator"]
        found = SEPARATORS.get(named.strip().lower(), named if len(named) == 1 else None)
        if found is None:
            raise Refused("the text's separator %r is none of %s" % (named, ", ".join(SEPARATORS)))
        return found
    first = next(Lines(text), "")
    return next((it for it in "\t;" if it in first), ",")


def columns_of(head):
    """The places of the special columns, from 0, by their words."""
    places = {}
    for word in ("guid", "notetype", "deck", "tags"):
        number = head.get(word + " column", "").strip()
        if not number:
            continue
        if not re.fullmatch(r"[1-9][0-9]{0,5}", number):
            raise Refused("the text's head says #%s column:%s, which is no number of a column" % (word, number))
        places[word] = int(number) - 1
    return places


def records_of(text, separator):
    """The records of a text, each a list of columns."""
    csv.field_size_limit(LONGEST_FIELD)
    lines = Lines(text)
    reader = csv.reader(lines, delimiter=separator, quotechar='"', doublequote=True, strict=False)
    while True:
        lines.is_at_start = True
        try:
            record = next(reader)
        except StopIteration:
            return
        except csv.Error as fault:
            raise Refused("line %d of the text is no record: %s" % (reader.line_num, fault)) from None
        yield record


def as_html(text):
    """A plain text as a field holds it."""
    return re.sub(r"\r\n|\r|\n", "<br>", html.escape(text, quote=False))


def notes_of(text):
    """The notes of Anki's text. One without a guid gets one that is made of its type and first field."""
    text = text[1:] if text.startswith("\ufeff") else text
    head = head_of(text)
    places = columns_of(head)
    is_html = head.get("html", "false").strip().lower() == "true"
    made = {}
    for record in records_of(text, separator_of(head, text)):
        note = note_of(head, places, record)
        if not is_html:
            note.fields = [as_html(field) for field in note.fields]
        note.guid = note.guid or guid_of(note, made)
        yield note


def note_of(head, places, record):
    def column(word, default):
        return record[places[word]] if places.get(word, len(record)) < len(record) else default

    special = set(places.values())
    fields = [field for place, field in enumerate(record) if place not in special]
    tags = " ".join((head.get("tags", "") + " " + column("tags", "")).split())
    type_name, deck_name = head.get("notetype", "Basic").strip(), head.get("deck", "Default").strip()
    return Note(column("guid", ""), column("notetype", type_name), column("deck", deck_name), tags, fields)


def guid_of(note, made):
    """A guid for a note that has none: the same each time that the same text is converted."""
    key = (note.type_name, note.fields[0] if note.fields else "")
    made[key] = made.get(key, 0) + 1
    return hashlib.sha1("\x1f".join(key + (str(made[key]),)).encode("utf-8", "surrogateescape")).hexdigest()[:20]


# ---- the CSV of `import` and `export`

def csv_line(columns):
    """A record as a line: a column with a comma, a quote, CR or LF in it is quoted."""
    return ",".join('"%s"' % it.replace('"', '""') if re.search('[,"\r\n]', it) else it for it in columns) + "\n"


def fitted(note, count):
    """The fields of a note of a type with so many: those past them are empty, and other types'."""
    return (note.fields + [""] * count)[:count]


# ---- from-anki-text

def anki_beside(script):
    """What a shell calls bin/anki by, beside this script: its name if the shell finds it so."""
    path = os.path.join(os.path.dirname(script), "anki")
    found = shutil.which("anki")
    return "anki" if found and os.path.realpath(found) == os.path.realpath(path) else path


def from_anki_text(path, text_path, folder, program=None, anki="bin/anki"):
    """The lines to print, the lines for the desk that are missing, and how many notes name a file of pictures or sounds."""
    with open(text_path, encoding="utf-8", errors="strict", newline="") as text:
        notes = list(notes_of(text.read()))
    if not notes:
        raise Refused("%s has no notes" % text_path)
    with open_collection(path, program) as collection:
        types = {it.name: it for it in collection.types().values()}
        decks = {it.name: it.id for it in collection.decks().values()}
    missing = list(missing_lines(notes, types, decks))
    if missing:
        return [], missing, 0
    files = files_of(notes, types, decks)
    write_files(folder, files)
    lines = [command_of(anki, path, folder, type_id, deck_id) for type_id, deck_id in files]
    return lines, [], sum(1 for note in notes if re.search(r"\[sound:|<img\b", "".join(note.fields)))


def missing_lines(notes, types, decks):
    """The lines for the desk that make the types and decks that the notes name and the collection has not, and give a type that it has more fields."""
    longest, clozes = {}, {}
    for note in notes:
        used = max((place for place, field in enumerate(note.fields, 1) if field), default=1)
        longest[note.type_name] = max(longest.get(note.type_name, 1), used)
        for place, field in enumerate(note.fields):
            if re.search(r"\{\{c[0-9]+::", field):
                clozes[note.type_name] = min(place, clozes.get(note.type_name, place))
    for name in sorted(longest):
        if name not in types:
            yield "type " + compact(new_type(name, longest[name], clozes.get(name)))
        elif longest[name] > len(types[name].fields):
            yield "allow retype " + compact(longer_type(types[name], longest[name]))
    for name in sorted({note.deck_name for note in notes} - set(decks)):
        if not name.isprintable():
            raise Refused("the deck's name %r is none of a line of the desk" % name)
        yield "deck " + name


def compact(value):
    return json.dumps(value, ensure_ascii=False, separators=(",", ":"))


def new_type(name, count, cloze):
    """A type with so many fields and one template: in front the field of this place, if it is of clozes, else the first; the others behind."""
    fields = ["Field %d" % place for place in range(1, count + 1)]
    asked = fields[cloze or 0]
    front = "{{%s}}" % asked if cloze is None else "{{cloze:%s}}" % asked
    back = ("{{FrontSide}}<hr>" if cloze is None else front + "<br>") + "<br>".join("{{%s}}" % field for field in fields if field != asked)
    return {
        "flds": [{"name": field} for field in fields], "id": 1, "mod": 0, "name": name, "sortf": 0,
        "tmpls": [{"afmt": back, "name": "Card 1", "qfmt": front}], "type": 0 if cloze is None else 1, "usn": 0,
    }


def longer_type(held, count):
    """What a line `retype` takes to give a type so many fields: the type, and where each of its fields and templates was. No side shows the new fields yet."""
    more = range(len(held.fields), count)
    changed = dict(held.object, flds=held.object["flds"] + [{"name": "Field %d" % (place + 1)} for place in more])
    return [changed, list(range(len(held.fields))) + [None] * len(more), list(range(len(held.templates)))]


def files_of(notes, types, decks):
    """The text of CSV for each type and deck, by their ids, in the order in which they come first."""
    files = {}
    for note in notes:
        kind = types[note.type_name]
        columns = [note.guid, note.tags] + fitted(note, len(kind.fields))
        files.setdefault((kind.id, decks[note.deck_name]), []).append(csv_line(columns))
    return files


def name_of(type_id, deck_id):
    return "type-%d-deck-%d.csv" % (type_id, deck_id)


def write_files(folder, files):
    """Writes the files into a folder, which is made if need be. None that is there is written over."""
    os.makedirs(folder, exist_ok=True)
    held = [name_of(*ids) for ids in files if os.path.lexists(os.path.join(folder, name_of(*ids)))]
    if held:
        raise Refused("%s has a file %s already; name another folder" % (folder, held[0]))
    made = []
    try:
        for ids, lines in files.items():
            with open(os.path.join(folder, name_of(*ids)), "x", encoding="utf-8", newline="") as out:
                made.append(out.name)
                out.writelines(lines)
    except BaseException:
        for path in made:
            os.remove(path)
        raise


def command_of(anki, path, folder, type_id, deck_id):
    file = os.path.join(folder, name_of(type_id, deck_id))
    return "%s %s - import %d %d < %s" % (shlex.quote(anki), shlex.quote(path), type_id, deck_id, shlex.quote(file))


# ---- to-anki-text

def to_anki_text(text, type_name, deck_name):
    """The lines of Anki's text for the CSV that `export` wrote: the columns as Anki exports them, guid, type, deck, fields and tags."""
    csv.field_size_limit(LONGEST_FIELD)
    records = [record for record in csv.reader(re.findall(r"[^\n]*\n|[^\n]+", text)) if record]
    counts = {len(record) for record in records}
    if any(count < 2 for count in counts) or len(counts) > 1:
        raise Refused("the input is not what `export` writes: a guid, tags, and as many fields in each record")
    fields = max(counts, default=3) - 2
    yield from ("#separator:tab\n", "#html:true\n", "#guid column:1\n", "#notetype column:2\n", "#deck column:3\n", "#tags column:%d\n" % (4 + fields))
    for guid, tags, *texts in records:
        yield anki_line([guid, type_name, deck_name] + texts + [tags])


def anki_line(columns):
    """A record of Anki's text: a column with a tab, a quote, CR, LF or a leading `#` is quoted."""
    return "\t".join('"%s"' % it.replace('"', '""') if re.search('[\t"\r\n]|\\A#', it) else it for it in columns) + "\n"


# ---- the two programs

def say(name, text):
    print("%s: %s" % (name, text), file=sys.stderr)


def run_from(words, script="bin/from-anki-text"):
    """`from-anki-text`, which answers its status."""
    name, anki = "from-anki-text", anki_beside(script)
    if len(words) != 3:
        say(name, "takes FILE TEXT FOLDER: a collection's file, Anki's text, and a folder for what is to be imported")
        return 2
    path, text_path, folder = words
    from front import program as programs

    try:
        lines, missing, media = from_anki_text(path, text_path, folder, programs.find_program(), anki)
    except (Refused, ReadFault, OSError, UnicodeDecodeError, programs.NoProgram) as fault:
        say(name, "%s; nothing was written" % fault)
        return 3
    if write_out(line + "\n" for line in missing or lines):
        return 5
    if missing:
        say(name, "%s lacks what these lines make; nothing was written. Give them to %s %s - desk, and begin again" % (path, anki, shlex.quote(path)))
        if any(line.startswith("allow ") for line in missing):
            say(name, "a line with allow gives a type more fields: if the collection is synced, the next sync prints full needed")
        return 3
    if media:
        say(name, "%d notes name pictures or sounds, which are not shown here" % media)
    return 0


def run_to(words):
    """`to-anki-text`, which answers its status."""
    name = "to-anki-text"
    if len(words) != 2:
        say(name, "takes TYPE DECK, the names that Anki is to give, and reads what bin/anki FILE - export TYPE wrote")
        return 2
    try:
        with open(sys.stdin.fileno(), encoding="utf-8", errors="strict", newline="", closefd=False) as text:
            lines = list(to_anki_text(text.read(), *words))
    except (Refused, csv.Error, UnicodeDecodeError) as fault:
        say(name, "%s; nothing was written" % fault)
        return 3
    return write_out(lines)


def write_out(lines):
    """Writes lines, and answers 0, or 5 if nobody reads them any more."""
    try:
        sys.stdout.writelines(lines)
        sys.stdout.flush()
        return 0
    except BrokenPipeError:
        os.dup2(os.open(os.devnull, os.O_WRONLY), 1)
        return 5
