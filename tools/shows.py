"""`show FILE decks|types|options|notes [SEARCH]`: what a collection holds, with ids, a line each, its columns parted by tabs."""
import json
import os
import subprocess

from front import program as programs
from front.collection import NoFile, ReadFault, fields_of, open_collection, tags_of
from tools import doctor, files
from tools.files import Refused

TABLES = ("decks", "types", "options", "notes")


def show(path, table, search):
    """The lines to print."""
    files.refuse_journals("what is shown is read from SQLite: docs/FILES.md says how to bring a journal into such a file", path)
    if table not in TABLES:
        raise Refused("there is no table %s to show; there are %s" % (table, ", ".join(TABLES)))
    if search and table != "notes":
        raise Refused("a search finds notes: bin/anki show FILE notes SEARCH")
    for finding in doctor.outside(path):
        raise Refused("%s; %s" % (finding.what, finding.remedy))
    program = files.program_path()
    # The program says more of what is wrong with a file than can be read here.
    found = cards_found(program, path, " ".join(search)) if search else None
    try:
        with open_collection(path, program) as collection:
            yield from {"decks": decks, "types": types, "options": options}[table](collection) if table != "notes" else notes(collection, found)
    except NoFile as fault:
        raise Refused(str(fault)) from None
    except ReadFault as fault:
        wrong = doctor.findings_of(path)
        raise Refused("%s" % (wrong[0].what if wrong else fault)) from None


def cards_found(program, path, search):
    """The ids of the cards that the program finds."""
    if "\n" in search:
        raise Refused("a search is one line")
    done = subprocess.run(
        programs.words_for(program, path, "desk"), input=("find %s\n" % search).encode("utf-8", "surrogateescape"), stdout=subprocess.PIPE
    )
    printed = done.stdout.decode("utf-8", "replace").rstrip("\n")
    if done.returncode == 6:
        wrong = doctor.findings_of(path)
        raise Refused("%s can't be opened: %s" % (path, wrong[0].what if wrong else "see bin/anki doctor"))
    if done.returncode != 0 or not printed.startswith("found "):
        raise Refused("the search was refused: %s" % printed.replace("line 1: ", ""))
    return {int(word) for word in printed.split(" ")[2:]}


def line(*cells):
    return "\t".join(cells)


def as_json(value):
    """JSON in one line, with no character in it that a terminal would obey."""
    text = json.dumps(value, ensure_ascii=False, separators=(",", ":"))
    return "".join(char if char.isprintable() else escaped(char) for char in text)


def escaped(char):
    code = ord(char)
    return "\\u%04x" % code if code < 0x10000 else json.dumps(char)[1:-1]


def decks(collection):
    yield line("# deck", "options", "name")
    for deck in sorted(collection.decks().values(), key=lambda it: it.name):
        yield line(str(deck.id), str(deck.options), as_json(deck.name)[1:-1])


def types(collection):
    yield line("# type", "name", "fields", "templates", "as `retype` takes it")
    for it in collection.types().values():
        names = as_json(it.fields), as_json([side.name for side in it.templates])
        yield line(str(it.id), as_json(it.name)[1:-1], *names, as_json(it.object))


def options(collection):
    yield line("# options", "name", "as `options` takes it")
    for it in collection.options().values():
        yield line(str(it.id), as_json(it.name)[1:-1], as_json(it.object))


def notes(collection, found):
    """The notes, all or those with a card that was found."""
    cards = {}
    for card in collection.cards():
        cards.setdefault(card.nid, []).append(card)
    yield line("# note", "type", "cards", "decks", "tags", "fields")
    for note in collection.notes():
        own = cards.get(note.id, [])
        if found is not None and not any(card.id in found for card in own):
            continue
        ids, homes = " ".join(str(card.id) for card in own), " ".join(str(it) for it in sorted({card.did for card in own}))
        yield line(str(note.id), str(note.mid), ids, homes, as_json(tags_of(note)), as_json(fields_of(note)))
