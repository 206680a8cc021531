"""What a collection's file holds, read for showing. The one module that reads the file without the program.

    from front.collection import open_collection, ReadFault

    with open_collection(path, program) as collection:
        collection.head()         # Head: crt, mod, scm, ver, dty, usn, ls, conf (a dict), tags (a dict: name to usn)
        collection.types()        # {id: NoteType}    id, name, cloze, fields (names), templates, object
        collection.decks()        # {id: Deck}        id, name, options, filtered, object
        collection.options()      # {id: Options}     id, name, object
        collection.notes()        # Note after Note, by id. Columns as in the file, see NOTE_COLUMNS
        collection.note(id)       # a Note, or None
        collection.cards()        # Card after Card, by id. See CARD_COLUMNS
        collection.reviews(since) # Review after Review, by id, from the id `since` on. See REVIEW_COLUMNS
        collection.graves()       # Grave after Grave: usn, oid, type
        collection.count("notes") # the number of rows of notes, cards, revlog or graves
        collection.raw()          # the row of `col` as it stands: texts of JSON, not read
        collection.copy_to(other) # all of it into another sqlite connection, say to ":memory:"

All of it is one state of the file: one read transaction. Ranges and forms are not tested, but what is read as JSON must be
JSON of its form. Texts that are not UTF-8 come with surrogates (`surrogateescape`); values come in the type in which the
file has them, so a column may hold a number, a text, bytes or None.

`program` is the path of the built program. It is run only if the file's log, FILE-wal, holds something, after a kill: then the
program opens and closes the file first. With None that step is left out, and sqlite reads the log itself.

Faults are ReadFaults, whose texts are for the learner:

    NoFile         there is no such file, or it is a folder
    Held           another program has the file open; the text says which, where the system tells
    NotCollection  it is no SQLite file, or has not the tables, or no collection, or JSON of another form
    Unreadable     the system refused: permissions, a folder in which SQLite can't make its -shm file, a read that failed

While a file is read here, the program can't open it (it ends with status 6): read, close, and then start the program.
`open_collection` waits half a second for a lock, since another reader holds the file for a moment only.

The file is opened by `mode=ro`, never `immutable`, which would pass over locks and the log. SQLite makes FILE-shm for the
time of the read, and FILE-wal if there is none. Both go again here, under a lock that nobody else has the file with;
if somebody has, they stay to him.
"""

import collections
import contextlib
import fcntl
import json
import os
import re
import sqlite3
import threading
import urllib.parse

from front import program as programs
from front.names import journal_path

NOTE_COLUMNS = "id guid mid mod usn tags flds sfld csum flags data"
CARD_COLUMNS = "id nid did ord mod usn type queue due ivl factor reps lapses left odue odid flags data"
REVIEW_COLUMNS = "id cid usn ease ivl lastIvl factor time type"
GRAVE_COLUMNS = "usn oid type"
HEAD_COLUMNS = "crt mod scm ver dty usn ls conf models decks dconf tags"

Note = collections.namedtuple("Note", NOTE_COLUMNS)
Card = collections.namedtuple("Card", CARD_COLUMNS)
Review = collections.namedtuple("Review", REVIEW_COLUMNS)
Grave = collections.namedtuple("Grave", GRAVE_COLUMNS)
RawHead = collections.namedtuple("RawHead", HEAD_COLUMNS)
Head = collections.namedtuple("Head", "crt mod scm ver dty usn ls conf tags")

# `object` is the JSON object as the file has it, but that of options is as the program writes it. Other names than in it: `options`
# is its `conf`, `filtered` its `dyn`, `cloze` its `type`, `front` and `back` are `qfmt` and `afmt`.
Template = collections.namedtuple("Template", "name front back")
NoteType = collections.namedtuple("NoteType", "id name cloze fields templates object")
Deck = collections.namedtuple("Deck", "id name options filtered object")
Options = collections.namedtuple("Options", "id name object")

# What parts the fields of a note in the column `flds`.
FIELD_SEPARATOR = "\x1f"

# How long the log FILE-wal is when no program has the file open and all that was committed is in the file.
LOG_AT_REST = 41

# Where SQLite's locks are in the file, and the program's: bytes that are never written.
LOCK_START = 0x40000000
LOCK_LENGTH = 512

# Seconds to wait for a lock.
PATIENCE = 0.5

# A lock of the system is the process's: the end of one use in a process would take the lock of another.
_one_at_a_time = threading.RLock()


class ReadFault(Exception):
    """Why a file was not read, in words for the learner."""


class NoFile(ReadFault):
    pass


class Held(ReadFault):
    pass


class NotCollection(ReadFault):
    pass


class Unreadable(ReadFault):
    pass


@contextlib.contextmanager
def open_collection(path, program=None):
    """A Collection for as long as the `with` lasts. See the head of this file."""
    with _one_at_a_time:
        _find_file(path)
        if program is not None and _log_holds_something(path):
            programs.open_and_close(program, path)
        # SQLite follows links before it names the files beside one.
        path = os.path.realpath(path)
        if program is not None and _log_holds_something(path):
            programs.open_and_close(program, path)
        had_log = os.path.exists(path + "-wal")
        connection = None
        try:
            connection = _connect(path)
            yield Collection(path, connection)
        except sqlite3.Error as fault:
            raise _read_fault(path, fault) from None
        finally:
            if connection is not None:
                connection.close()
            _remove_helpers(path, had_log)


class Collection:
    """One state of a collection's file. See the head of this file."""

    def __init__(self, path, connection):
        self.path = path
        self._connection = connection

    def raw(self):
        rows = list(self._rows("col", RawHead, "order by id limit 2"))
        if len(rows) != 1:
            raise NotCollection("%s holds no collection" % self.path)
        return rows[0]

    def head(self):
        raw = self.raw()
        conf = self._object("conf", raw.conf)
        tags = self._object("tags", raw.tags)
        return Head(raw.crt, raw.mod, raw.scm, raw.ver, raw.dty, raw.usn, raw.ls, conf, tags)

    def types(self):
        return self._read_objects("models", note_type_of)

    def decks(self):
        return self._read_objects("decks", deck_of)

    def options(self):
        return self._read_objects("dconf", options_of)

    def notes(self):
        return self._rows("notes", Note, "order by id")

    def note(self, note_id):
        for row in self._rows("notes", Note, "where id = ?", (note_id,)):
            return row
        return None

    def cards(self):
        return self._rows("cards", Card, "order by id")

    def reviews(self, since=0):
        return self._rows("revlog", Review, "where id >= ? order by id", (since,))

    def graves(self):
        return self._rows("graves", Grave, "order by type, oid")

    def count(self, table):
        if table not in ("notes", "cards", "revlog", "graves"):
            raise ValueError(table)
        return self._connection.execute("select count(*) from %s" % table).fetchone()[0]

    def copy_to(self, other):
        self._connection.backup(other)

    def _rows(self, table, form, rest, values=()):
        columns = ", ".join('"%s"' % column for column in form._fields)
        for row in self._connection.execute("select %s from %s %s" % (columns, table, rest), values):
            yield form._make(row)

    def _read_objects(self, column, read):
        objects = self._object(column, getattr(self.raw(), column))
        try:
            made = [read(value) for value in objects.values()]
            return {row.id: row for row in sorted(made, key=lambda row: row.id)}
        except (KeyError, TypeError, AttributeError):
            raise NotCollection("%s: the column %s has objects of another form" % (self.path, column)) from None

    def _object(self, column, text):
        try:
            value = json.loads(text)
        except (TypeError, ValueError, RecursionError):
            raise NotCollection("%s: the column %s is no JSON" % (self.path, column)) from None
        if not isinstance(value, dict):
            raise NotCollection("%s: the column %s is no JSON object" % (self.path, column))
        return value


def note_type_of(value):
    """A NoteType of its JSON object."""
    return NoteType(
        id=value["id"],
        name=value["name"],
        cloze=value["type"] == 1,
        fields=[field["name"] for field in value["flds"]],
        templates=[Template(side["name"], side["qfmt"], side["afmt"]) for side in value["tmpls"]],
        object=value,
    )


def deck_of(value):
    """A Deck of its JSON object."""
    return Deck(value["id"], value["name"], value["conf"], value["dyn"] == 1, value)


def options_of(value):
    """Options of their JSON object, in version 1 or 2."""
    return Options(value["id"], value["name"], in_version_2(value))


# What version 1 of options calls otherwise: steps, which are in minutes there, and factors, which are whole permille.
OLD_KEYS = {
    "new": {"delays": "steps"}, "rev": {"ease4Pm": "ease4", "hardFactorPm": "hardFactor", "ivlFctPm": "ivlFct"},
    "lapse": {"delays": "steps", "multPm": "mult"},
}


def in_version_2(options):
    """The object of options in version 2: of version 1, what the program writes once it has read it."""
    if "delays" not in options["new"]:
        return options
    made = dict(options, **{group: dict(options[group]) for group in OLD_KEYS})
    for group, keys in OLD_KEYS.items():
        for old, key in keys.items():
            held = made[group].pop(old)
            made[group][key] = [60 * minutes for minutes in held] if key == "steps" else shortest_decimal("%d.%03d" % divmod(held, 1000))
    return made


def shortest_decimal(text):
    """A decimal without zeros that say nothing, as the program writes it. Another text stays."""
    return text.rstrip("0").rstrip(".") if re.fullmatch(r"[0-9]+\.[0-9]{1,3}", text) else text


def fields_of(note):
    """The fields of a Note."""
    return note.flds.split(FIELD_SEPARATOR)


def tags_of(note):
    """The tags of a Note."""
    return [tag for tag in note.tags.split(" ") if tag]


def file_named(word):
    """The whole path of the file that a learner names to a front, which reads files of SQLite alone."""
    if journal_path(word) is not None:
        raise NotCollection("%s is a journal, and a front reads collections in SQLite: docs/FILES.md says how to bring a journal into one" % word)
    return os.path.realpath(word)


def _find_file(path):
    if os.path.isdir(path):
        raise NoFile("%s is a folder" % path)
    if not os.path.isfile(path):
        raise NoFile("there is no file %s" % path)
    if not os.access(path, os.R_OK):
        raise Unreadable("%s can't be read: permission denied" % path)


def _log_holds_something(path):
    try:
        return os.path.getsize(path + "-wal") > LOG_AT_REST
    except OSError:
        return False


def _connect(path):
    """A connection with one read transaction open, that begins with the first read."""
    address = "file:%s?mode=ro" % urllib.parse.quote(path)
    connection = sqlite3.connect(
        address, uri=True, timeout=PATIENCE, isolation_level=None, check_same_thread=False
    )
    try:
        connection.text_factory = lambda text: text.decode("utf-8", "surrogateescape")
        connection.execute("pragma query_only = 1")
        connection.execute("begin")
        connection.execute("select count(*) from col").fetchone()
    except BaseException:
        connection.close()
        raise
    return connection


def holders(path):
    """Who has a file open, as far as the system tells: "anki-web, process 1234". Of the program that a front has started
    the front is told."""
    found = []
    for process in filter(str.isdigit, os.listdir("/proc") if os.path.isdir("/proc") else []):
        if int(process) != os.getpid() and _has_open(process, path):
            front = _words_of(_parent_of(process))
            names = [name for name in ("anki-web", "anki-study") if any(word.endswith(name) for word in front)]
            found.append("%s, process %s" % ((names or [os.path.basename((_words_of(process) or ["?"])[0])])[0],
                                             _parent_of(process) if names else process))
    return found


def _has_open(process, path):
    folder = "/proc/%s/fd" % process
    try:
        return any(os.readlink(os.path.join(folder, name)) == path for name in os.listdir(folder))
    except OSError:
        return False


def _parent_of(process):
    try:
        with open("/proc/%s/stat" % process, errors="replace") as file:
            return file.read().rsplit(")", 1)[1].split()[1]
    except (OSError, IndexError):
        return "0"


def _words_of(process):
    try:
        with open("/proc/%s/cmdline" % process, errors="replace") as file:
            return file.read().split("\0")
    except OSError:
        return []


def _read_fault(path, fault):
    text = str(fault)
    if "locked" in text or "busy" in text:
        who = holders(path)
        return Held("%s is open in another program%s" % (path, who and " (%s)" % "; ".join(who) or ""))
    if "no such table" in text or "no such column" in text or "not a database" in text or "malformed" in text:
        return NotCollection("%s is no collection: %s" % (path, text))
    return Unreadable("%s can't be read: %s" % (path, text))


def _remove_helpers(path, had_log):
    """Takes away FILE-shm, and an empty FILE-wal that was not there, unless somebody has the file open."""
    made = [path + "-shm"]
    if not had_log:
        made.append(path + "-wal")
    if not any(os.path.exists(name) for name in made):
        return
    try:
        file = os.open(path, os.O_RDWR | os.O_CLOEXEC)
    except OSError:
        return
    try:
        fcntl.lockf(file, fcntl.LOCK_EX | fcntl.LOCK_NB, LOCK_LENGTH, LOCK_START)
        for name in made:
            if name.endswith("-shm") or os.path.getsize(name) == 0:
                os.remove(name)
    except OSError:
        pass
    finally:
        os.close(file)
