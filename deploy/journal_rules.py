"""Journals by their rules alone, apart from the program: for what a file stands, what a collection in SQLite holds, and what a commit writes.

A journal is a list of frames and a gate that is not open. A frame is the byte 1, the length of its payload as 8 bytes, the greatest first, and the payload. A gate is open
if it is 1 and at least 8 bytes stand behind it. A payload is the compact text of one object: `all` is true if all rows were replaced, `cut` lists names as [table,id], `head` is null
or the head, `put` lists rows as [table,row]. The tables go from 0 to 8, lists by table and then by id.
"""
import functools
import json
import os
import shutil
import sqlite3
import sys
import tempfile

TOP = os.path.dirname(os.path.dirname(os.path.realpath(__file__)))
sys.path.insert(0, TOP)

from tools import forms, ranges  # noqa: E402

OPEN, SHUT = 1, 0
# A gate and a length.
HEAD = 9

NOTE, CARD, REVIEW, TYPE, DECK, OPTIONS, NOTE_GRAVE, CARD_GRAVE, DECK_GRAVE = range(9)
# The columns in SQLite of the rows that are arrays, in the order of their JSON.
ARRAYS = {
    NOTE: ("notes", "id guid mid mod usn tags flds sfld csum flags data"),
    CARD: ("cards", 'id nid did ord mod usn type queue due ivl factor reps lapses "left" odue odid flags data'),
    REVIEW: ("revlog", "id cid usn ease ivl lastIvl factor time type"),
}
USN_PLACES = {NOTE: 4, CARD: 5, REVIEW: 2, NOTE_GRAVE: 0, CARD_GRAVE: 0, DECK_GRAVE: 0}
OBJECTS = {TYPE: "models", DECK: "decks", OPTIONS: "dconf"}
# The tables of graves by the code that a grave has.
GRAVES = (CARD_GRAVE, NOTE_GRAVE, DECK_GRAVE)
HEAD_KEYS = {"conf", "crt", "ls", "mod", "scm", "tags", "usn"}


class Damaged(Exception):
    """An open gate has a payload that is cut off or that of no change. `place` is the gate's."""

    def __init__(self, place):
        super().__init__("journal damaged at %d" % place)
        self.place = place


class NotOfForm(Exception):
    """Why a payload is that of no change."""


class Collection:
    """Rows as JSON values by their names, (table, id), and the head, or None."""

    def __init__(self, rows=None, head=None):
        self.rows, self.head = rows or {}, head

    def __eq__(self, other):
        return self.rows == other.rows and self.head == other.head

    def content(self):
        """What an upload and a download leave: no graves, no numbers of updates, and of the head the creation, the settings and the tags."""
        rows = {name: without_usn(name[0], row) for name, row in self.rows.items() if name[0] < NOTE_GRAVE}
        return rows, self.head and (self.head["crt"], self.head["conf"], sorted(self.head["tags"]))


def without_usn(table, row):
    if table in USN_PLACES:
        return row[:USN_PLACES[table]] + row[USN_PLACES[table] + 1:]
    return {key: value for key, value in row.items() if key != "usn"}


# ---- frames
def payloads_in(data):
    """The payloads of the frames up to the first gate that is not open, and that gate's place."""
    found, gate = [], 0
    while len(data) >= gate + HEAD and data[gate] == OPEN:
        size = int.from_bytes(data[gate + 1:gate + HEAD], "big")
        if size > len(data) - gate - HEAD:
            raise Damaged(gate)
        found.append(bytes(data[gate + HEAD:gate + HEAD + size]))
        gate += HEAD + size
    return found, gate


def frame(payload):
    return bytes([OPEN]) + len(payload).to_bytes(8, "big") + payload


def journal_of(payloads):
    """The bytes of a journal at rest."""
    return b"".join(map(frame, payloads)) + bytes([SHUT])


# ---- payloads
def compact(value):
    return json.dumps(value, ensure_ascii=False, separators=(",", ":"), sort_keys=True).encode()


def payload_of(change):
    return compact(change)


def change_of(payload):
    """The change of a payload. It is refused unless the payload is just what is written of that change."""
    try:
        change = forms.read_json(payload.decode("utf-8"))
    except (UnicodeDecodeError, forms.NotRead) as fault:
        raise NotOfForm(str(fault)) from None
    if not isinstance(change, dict) or set(change) != {"all", "cut", "head", "put"} or compact(change) != payload:
        raise NotOfForm("it is not the compact text of an object with the four keys")
    if not isinstance(change["all"], bool) or not all(isinstance(change[key], list) for key in ("cut", "put")):
        raise NotOfForm("a value is of another kind")
    cut, put = [name_of_cut(it) for it in change["cut"]], [name_of_put(it) for it in change["put"]]
    for names in (cut, put):
        if any(one >= other for one, other in zip(names, names[1:])):
            raise NotOfForm("names do not ascend")
    if set(cut) & set(put):
        raise NotOfForm("a name is both cut and put")
    if change["head"] is None and change["all"]:
        raise NotOfForm("all was replaced, and there is no head")
    if change["head"] is not None and head_fault(change["head"]):
        raise NotOfForm("the head: " + head_fault(change["head"]))
    return change


def pair_of(entry):
    if not isinstance(entry, list) or len(entry) != 2 or not forms.is_integer(entry[0]) or not NOTE <= entry[0] <= DECK_GRAVE:
        raise NotOfForm("an entry is no pair of a table and what is in it")
    return entry


def name_of_cut(entry):
    table, number = pair_of(entry)
    if not forms.is_integer(number):
        raise NotOfForm("a name is no number")
    return table, number


def name_of_put(entry):
    table, row = pair_of(entry)
    fault = row_fault(table, row)
    if fault:
        raise NotOfForm("a row of table %d: %s" % (table, fault))
    return table, id_in(table, row)


def id_in(table, row):
    return row["id"] if table in OBJECTS else row[1] if table >= NOTE_GRAVE else row[0]


@functools.lru_cache(None)
def known():
    """The ranges of columns, as the pages of the profile tell them."""
    return ranges.Ranges()


def row_fault(table, row):
    """Why a value is no row of a table as it is written, or None."""
    if table == TYPE:
        fault = forms.note_type_fault(known(), row)
        places = fault or [it.get("ord") for key in ("flds", "tmpls") for it in row[key]] == [n for key in ("flds", "tmpls") for n in range(len(row[key]))]
        return fault or (None if places else "an ord is not its place")
    if table == DECK:
        return forms.object_fault(known().deck, forms.DECK, row)
    if table == OPTIONS:
        fault = forms.object_fault(known().options, forms.OPTIONS, row)
        return fault or next(("a decimal is not the shortest" for key in ("ease4", "ivlFct", "hardFactor") if not is_shortest(row["rev"][key])), None) \
            or (None if is_shortest(row["lapse"]["mult"]) else "a decimal is not the shortest")
    column = {NOTE: known().note, CARD: known().card, REVIEW: known().review}.get(table, known().grave)
    if not isinstance(row, list) or len(row) != len(column):
        return "it is no list of %d columns" % len(column)
    for (name, range_of), value in zip(column.items(), row):
        if isinstance(range_of, ranges.Bytes) != isinstance(value, str) or not isinstance(value, str) and not forms.is_integer(value):
            return "the column %s is of another kind" % name
        if range_of.fault(value):
            return "the column %s %s" % (name, range_of.fault(value))
    if table >= NOTE_GRAVE and GRAVES[row[2]] != table:
        return "a grave of another table"
    return None


def is_shortest(decimal):
    whole, point, places = decimal.partition(".")
    return not point or not places.endswith("0")


def head_fault(head):
    """Why a value is no head, or None."""
    if not isinstance(head, dict) or set(head) != HEAD_KEYS:
        return "it has other keys"
    for key, column in (("crt", "crt"), ("mod", "moment"), ("scm", "schema"), ("usn", "usn"), ("ls", "last_sync")):
        if not forms.is_integer(head[key]) or known().head[column].fault(head[key]):
            return "its %s is out of range" % key
    if forms.object_fault(known().conf, forms.CONF, head["conf"]):
        return "its settings: " + forms.object_fault(known().conf, forms.CONF, head["conf"])
    if not isinstance(head["tags"], dict):
        return "its tags are no object"
    for name, usn in head["tags"].items():
        if known().head["tags"].fault(name) or not forms.is_integer(usn) or known().tag_usn.fault(usn):
            return "a tag is out of range"
    return None


# ---- collections
def apply(change, collection):
    """Makes a change of a collection."""
    if change["all"]:
        collection.rows.clear()
    for table, number in change["cut"]:
        collection.rows.pop((table, number), None)
    for table, row in change["put"]:
        collection.rows[table, id_in(table, row)] = row
    if change["head"] is not None:
        collection.head = change["head"]


def fold(payloads):
    """The collection to which payloads lead from nothing."""
    held, gate = Collection(), 0
    for payload in payloads:
        try:
            apply(change_of(payload), held)
        except NotOfForm:
            raise Damaged(gate) from None
        gate += HEAD + len(payload)
    return held


def read(data):
    """The collection for which a file stands. Of several gates that are damaged one whose payload is cut off is told."""
    return fold(payloads_in(data)[0])


def bytes_of(path):
    with open(path, "rb") as file:
        return file.read()


def read_file(path):
    return read(bytes_of(path))


def change_between(before, after):
    """The change that makes one collection of another, row by row. A head or a row that is the same is not told."""
    put = [[name[0], after.rows[name]] for name in sorted(after.rows) if before.rows.get(name) != after.rows[name]]
    cut = [list(name) for name in sorted(set(before.rows) - set(after.rows))]
    return {"all": False, "cut": cut, "head": after.head if before.head != after.head else None, "put": put}


def of_sqlite(path):
    """What a collection's file of SQLite holds, with its log; another program may have it open."""
    with tempfile.TemporaryDirectory(prefix="journal-") as room:
        copy = os.path.join(room, "copy")
        for end in ("", "-wal"):
            if os.path.exists(path + end):
                shutil.copyfile(path + end, copy + end)
        link = sqlite3.connect(copy)
        try:
            return held_in(link)
        finally:
            link.close()


def held_in(link):
    if not link.execute("select 1 from sqlite_master where name = 'col'").fetchone():
        return Collection()
    rows = {}
    for table, (name, columns) in ARRAYS.items():
        for row in link.execute("select %s from %s" % (columns.replace(" ", ", "), name)):
            rows[table, row[0]] = list(row)
    for usn, number, code in link.execute("select usn, oid, type from graves"):
        rows[GRAVES[code], number] = [usn, number, code]
    heads = link.execute("select crt, ls, mod, scm, usn, conf, tags from col").fetchall()
    if not heads:
        return Collection(rows)
    head = dict(zip(("crt", "ls", "mod", "scm", "usn"), heads[0]), conf=json.loads(heads[0][5]), tags=json.loads(heads[0][6]))
    for table, column in OBJECTS.items():
        for row in json.loads(link.execute("select %s from col" % column).fetchone()[0]).values():
            rows[table, row["id"]] = row
    return Collection(rows, head)


def into_sqlite(held, path):
    """Puts a collection in place of the one in a file of SQLite that the program made."""
    link = sqlite3.connect(path)
    with link:
        for table, (name, columns) in ARRAYS.items():
            link.execute("delete from %s" % name)
            marks = ", ".join("?" for _ in columns.split(" "))
            link.executemany("insert into %s values (%s)" % (name, marks), [row for (it, _), row in held.rows.items() if it == table])
        link.execute("delete from graves")
        link.executemany("insert into graves values (?, ?, ?)", [row for (it, _), row in held.rows.items() if it >= NOTE_GRAVE])
        texts = {column: {str(row["id"]): row for (it, _), row in held.rows.items() if it == table} for table, column in OBJECTS.items()}
        texts.update(conf=held.head["conf"], tags=held.head["tags"])
        told = {key: compact(value).decode() for key, value in texts.items()}
        told.update({key: held.head[key] for key in ("crt", "ls", "mod", "scm", "usn")})
        link.execute("update col set %s" % ", ".join("%s = :%s" % (key, key) for key in told), told)
    link.close()
