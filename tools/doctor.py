"""Why the program refuses a collection's file. Nothing is changed: what a file holds is looked at in a copy of it and of its log.

The ranges are those of docs/profile/collection.md, and the texts of the tables are asked of the program itself.
"""
import contextlib
import functools
import os
import sqlite3
import stat
import tempfile

from front import program as programs
from front.collection import NotCollection, ReadFault, open_collection
from front.names import JOURNAL, journal_path
from tools import files, forms
from tools.ranges import Bytes, Ranges, short

# How many faults of one kind are told one by one.
MOST_TOLD = 20

# What can be done about a file that is not whole.
PUT_BACK = "put a copy back by `bin/anki restore`; `sqlite3 FILE .recover` may save rows of it"

# And about a journal.
PUT_BACK_JOURNAL = "put a copy of the file back, or take the collection from your server: see docs/FILES.md"

# The status of the program after a damaged journal.
DAMAGED = 16

# Names of columns in the file that are others in docs/profile/collection.md.
OTHER_NAMES = {"mod": "stamp", "data": "extra", "type": "kind", "lastIvl": "last_ivl"}
OTHER_HEAD_NAMES = {"mod": "moment", "scm": "schema", "ls": "last_sync"}


class Finding:
    """What is wrong, in words that can stand in a sentence, and what can be done about it. A file can be barred, by its rights or by another program: then
    it may be as good as any."""

    def __init__(self, what, remedy, is_barred=False):
        self.what, self.remedy, self.is_barred = what, remedy, is_barred

    def __repr__(self):
        return "Finding(%r, %r)" % (self.what, self.remedy)


def findings_of(path):
    """All that makes the program refuse the file, in the order in which it would meet it; none if it opens."""
    if journal_path(path) is not None:
        from tools import journal_doctor

        return journal_doctor.findings_of(journal_path(path))
    found = list(outside(path))
    return found if found else list(inside(path))


def outside(path):
    """What can be seen without reading what the file holds."""
    if path in ("", ":memory:") or path.startswith("file:"):
        yield Finding("%r is no name that the program takes for a file" % path, "name a file in a folder, such as ./my.anki")
        return
    folder, name = os.path.split(files.real(path))
    if len(os.fsencode(name)) + len("-wal") > 255:
        yield Finding("the file's name is too long", "give it one of at most 251 bytes")
        return
    try:
        found = os.stat(path)
    except OSError:
        yield from unseen(path, folder, path)
        return
    if stat.S_ISDIR(found.st_mode):
        yield Finding("%s is a folder" % path, "name a file in it, such as %s" % os.path.join(path, "my.anki"))
    elif not stat.S_ISREG(found.st_mode):
        yield Finding("%s is no regular file" % path, "name a file")
    else:
        yield from of_file(path, folder)


def unseen(path, folder, name):
    """Why a file can't be seen: there is none, or the way to it is barred. The name is what the program would be given."""
    if os.path.islink(path):
        yield Finding("%s is a link to nothing" % path, "mend the link, or take it away")
    elif not os.path.isdir(folder):
        yield Finding("there is no folder %s" % folder, "make it, or mend the name")
    elif not os.access(folder, os.X_OK):
        yield Finding("the folder %s may not be entered by %s" % (folder, user()), "chmod u+x the folder, or work as its owner")
    elif not os.access(folder, os.W_OK):
        yield Finding("there is no file %s, and %s may not make one in %s" % (path, user(), folder), "name another folder, or work as its owner")
    elif not files.is_room_for(folder, 1 << 16):
        yield Finding("there is no file %s, and its disk is full" % path, "make room on the disk")
    else:
        yield Finding("there is no file %s" % path, "mend the name, or make a collection by `bin/anki %s - init`" % name)


def of_file(path, folder):
    """What bars a regular file from being opened."""
    barred = list(lacking_rights(path))
    yield from barred
    if not barred and files.is_held(path):
        yield Finding("%s is open in another program%s" % (path, files.holder_words(path)), "end that program, and try again", True)
        return
    log = files.real(path) + "-wal"
    if not os.path.lexists(log) and not os.access(folder, os.W_OK | os.X_OK):
        yield Finding("%s may not make the file %s" % (user(), log), "chmod u+wx the folder, or work as its owner", True)
    elif os.path.lexists(log):
        yield from of_log(log)
    others = os.stat(path).st_nlink
    if others != 1:
        yield Finding("%s has %d names (hard links)" % (path, others), "copy it to a file of its own by `cp`, with its -wal, or take the other name away")
    if has_open_journal(files.real(path) + "-journal"):
        yield Finding("%s-journal is left of an edit by another program that did not end" % files.real(path), "open the file by that program, or by `sqlite3`, which puts it right")


def lacking_rights(path):
    """That this user may not read or write a file, if so."""
    lacks = [word for word, mode in (("read", os.R_OK), ("written", os.W_OK)) if not os.access(path, mode)]
    if lacks:
        yield Finding("%s may not be %s by %s" % (path, " or ".join(lacks), user()), "chmod u+rw the file, or work as its owner (`ls -l` names him)", True)


def of_disk(path):
    """That the disk is full, if it is. The file may open all the same, and can't be changed."""
    folder = os.path.dirname(files.real(path))
    if not os.path.isdir(folder) or files.is_room_for(folder, 0):
        return None
    return Finding("the disk of %s is full" % path, "make room on it")


def of_log(log):
    found = os.lstat(log)
    if not stat.S_ISREG(found.st_mode) or found.st_nlink != 1:
        yield Finding("%s is no file with one name" % log, "move it away; what the program wrote there is a regular file")
    elif not os.access(log, os.R_OK | os.W_OK):
        yield Finding("%s may not be read or written by %s" % (log, user()), "chmod u+rw the file, or work as its owner", True)
    elif files.is_held(log):
        yield Finding("%s is open in another program%s" % (log, files.holder_words(log)), "end that program, and try again", True)


def has_open_journal(path):
    """Whether SQLite left a rollback journal there, or anything but a file has its name."""
    try:
        if not stat.S_ISREG(os.lstat(path).st_mode):
            return True
        with open(path, "rb") as journal:
            return journal.read(1) not in (b"", b"\0")
    except FileNotFoundError:
        return False
    except OSError:
        return True


def user():
    import pwd

    try:
        return "the user " + pwd.getpwuid(os.geteuid()).pw_name
    except KeyError:
        return "the user %d" % os.geteuid()


def inside(path):
    """What the file holds that is no collection. Last of all the program is asked, over the copy."""
    with files.scratch_copy(path) as copy:
        found = list(of_contents(copy))
        status = files.open_and_close(copy)
        if status in (0, 3):
            # The program alone decides.
            return
        yield from found or [Finding("it is refused, and nothing that is known here is wrong with it", "go back to a copy: see docs/FILES.md")]


def of_contents(copy):
    """What is wrong inside a file, looked at by sqlite3."""
    if os.path.getsize(copy) and not begins_as_database(copy):
        yield Finding("it is no SQLite file%s" % (", or only the first bytes of one" if os.path.getsize(copy) < 100 else ""), remedy_for_other(copy))
        return
    if sizes_of_cut(copy):
        yield Finding("it was cut: it has %d bytes, and should have %d" % sizes_of_cut(copy), PUT_BACK)
        return
    try:
        connection = sqlite3.connect(copy, isolation_level=None)
        with contextlib.closing(connection):
            damage = damage_in(connection)
            if damage:
                yield Finding("it is damaged: %s" % damage, PUT_BACK)
                return
            others = list(kind_faults(connection)) or list(layout_faults(connection)) or list(col_row_faults(connection))
        yield from others
        if not others:
            with open_collection(copy) as collection:
                yield from capped(row_faults(collection))
    except ReadFault as fault:
        yield Finding(str(fault), PUT_BACK)
    except sqlite3.Error as fault:
        yield Finding("it can't be read as a SQLite file: %s" % fault, PUT_BACK)


def remedy_for_other(path):
    """What to do about a file that is no database; a journal begins with the byte 0 or 1."""
    with open(path, "rb") as file:
        is_journal = file.read(1) <= b"\1"
    return "if it is a journal, write `%s` before its name" % JOURNAL if is_journal else "name the collection's file; a copy is put back by `bin/anki restore`"


def begins_as_database(path):
    with open(path, "rb") as file:
        return file.read(16) == b"SQLite format 3\0"


def sizes_of_cut(path):
    """How many bytes a file has, and how many it should have by its own first page, if it has fewer; else None. A log with commits knows better."""
    if files.commits_in(path + "-wal"):
        return None
    with open(path, "rb") as file:
        head = file.read(100)
    size, page = os.path.getsize(path), int.from_bytes(head[16:18], "big") or 1
    wanted = int.from_bytes(head[28:32], "big") * (page if page > 1 else 65536)
    return (size, wanted) if len(head) == 100 and head[24:28] == head[92:96] and size < wanted else None


def damage_in(connection):
    """What the stock check of SQLite finds first, or None."""
    try:
        first = connection.execute("pragma integrity_check(1)").fetchone()[0]
    except sqlite3.DatabaseError as fault:
        return str(fault)
    return None if first == "ok" else first


def kind_faults(connection):
    """Kinds of SQLite files that the program does not read."""
    if connection.execute("pragma auto_vacuum").fetchone()[0] != 0:
        yield Finding("it is a SQLite file with auto_vacuum, which the program does not read", "`sqlite3 FILE 'pragma auto_vacuum = 0; vacuum'`")
    if connection.execute("pragma encoding").fetchone()[0] != "UTF-8":
        yield Finding("it is a SQLite file in another encoding than UTF-8", "`sqlite3 FILE .dump`, and read that into a new file")


def layout_of(connection):
    connection.text_factory = lambda text: text.decode("utf-8", "replace")
    return connection.execute("select type, name, sql from sqlite_master").fetchall()


@functools.lru_cache(None)
def wanted_layout():
    """The texts of the tables by their names, as the program makes them in a new file."""
    with tempfile.TemporaryDirectory(prefix="anki-") as folder:
        path = os.path.join(folder, "collection")
        if programs.make_collection(files.program_path(), path) != 0:
            raise files.Refused("the program could not make a collection in %s to compare with" % folder)
        with contextlib.closing(sqlite3.connect(path)) as connection:
            return {name: text for kind, name, text in layout_of(connection) if kind == "table"}


def layout_faults(connection):
    """Tables that are missing or of another make, and what is there besides."""
    wanted, found = wanted_layout(), layout_of(connection)
    tables = {name: text for kind, name, text in found if kind == "table" and not name.startswith("sqlite_")}
    if not found:
        return
    for name in wanted:
        if name not in tables:
            yield Finding("it has no table %s" % name, "name the collection's file")
        elif tables[name] != wanted[name]:
            yield Finding("its table %s is of another make, as in a file of Anki itself or of another version" % name, "name a file that `bin/anki FILE - init` made")
    for kind, name, text in found:
        if name.startswith("sqlite_"):
            continue
        if kind == "table" and name not in wanted or kind in ("view", "trigger"):
            yield Finding("it has the %s %s, which no collection has" % (kind, name), "`sqlite3 FILE 'drop %s \"%s\"'`, if you made it" % (kind, name))
        if kind == "index" and (text or "").startswith("CREATE UNIQUE"):
            yield Finding("it has the unique index %s, which would refuse rows" % name, "`sqlite3 FILE 'drop index \"%s\"'`" % name)


def capped(found):
    """The first so many findings, and how many more there are."""
    more = 0
    for number, finding in enumerate(found):
        if number < MOST_TOLD:
            yield finding
        else:
            more += 1
    if more:
        yield Finding("%d more of its values are no collection's" % more, "mend these first")


def col_row_faults(connection):
    """What is wrong with the rows of `col` as such. A file without one is no collection yet, and is not refused."""
    rows = [row[0] for row in connection.execute("select id from col order by id")] if layout_of(connection) else []
    if len(rows) > 1:
        yield Finding("its table col has %d rows, and may have one" % len(rows), remedy_for("col", "id", "id %s" % rows[1]))
    elif rows and rows[0] != 1:
        yield col_finding("id", "is %s, and a collection has 1 there" % rows[0], "id %s" % rows[0])


def row_faults(collection):
    ranges = Ranges()
    yield from table_faults("notes", ranges.note, collection.notes())
    yield from table_faults("cards", ranges.card, collection.cards())
    yield from table_faults("revlog", ranges.review, collection.reviews(-(1 << 63)))
    yield from table_faults("graves", ranges.grave, collection.graves())
    yield from col_faults(collection, ranges)


def table_faults(table, ranges, rows):
    """The first column of each row that is out of its range or of another kind."""
    for row in rows:
        for column, value in zip(row._fields, row):
            fault = cell_fault(ranges[OTHER_NAMES.get(column, column)], value)
            if fault:
                at = "oid %s" % row.oid if table == "graves" else "id %s" % row.id
                yield Finding("in the table %s, row %s, the column %s %s" % (table, at, column, fault), remedy_for(table, column, at))
                break


def remedy_for(table, column, at):
    return "copy FILE and FILE-wal away, and mend the value by `sqlite3 FILE \"update %s set \\\"%s\\\" = ... where %s\"`" % (table, column, at.replace(" ", " = ", 1))


def cell_fault(column, value):
    """How a cell is no value of its range, or None."""
    if isinstance(column, Bytes):
        if not isinstance(value, str):
            return "is %s, and must be a text" % kind_of(value)
        return column.fault(value) if is_utf8(value) else "is a text that is not UTF-8"
    if not isinstance(value, int):
        return "is %s, and must be a whole number" % kind_of(value)
    return column.fault(value)


def is_utf8(text):
    """Whether a text was read without surrogates in place of bytes."""
    try:
        text.encode("utf-8")
    except UnicodeEncodeError:
        return False
    return True


def kind_of(value):
    if value is None:
        return "null"
    if isinstance(value, float):
        return "the number %s" % value
    if isinstance(value, int):
        return "the number %d" % value
    return "the %s %r" % ("text" if isinstance(value, str) else "value", short(value))


def col_faults(collection, ranges):
    """What is wrong with the head, and with the note types, decks and options in its columns."""
    try:
        head = collection.raw()
    except NotCollection:
        return
    for column, wanted, why in (("ver", 11, "as version"), ("dty", 0, "there")):
        if getattr(head, column) != wanted or not isinstance(getattr(head, column), int):
            yield col_finding(column, "is %s, and a collection has %d %s" % (kind_of(getattr(head, column)), wanted, why))
    for column in ("crt", "mod", "scm", "usn", "ls"):
        fault = cell_fault(ranges.head[OTHER_HEAD_NAMES.get(column, column)], getattr(head, column))
        if fault:
            yield col_finding(column, fault)
    for column in ("conf", "tags", "models", "decks", "dconf"):
        for fault in json_faults(ranges, column, getattr(head, column)):
            yield col_finding(column, fault)


def col_finding(column, fault, at="id 1"):
    return Finding("in the table col the column %s %s" % (column, fault), remedy_for("col", column, at))


def json_faults(ranges, column, cell):
    """What is wrong in a column that holds JSON."""
    if not isinstance(cell, str) or not is_utf8(cell):
        yield "is %s, and must be a text" % kind_of(cell) if not isinstance(cell, str) else "is a text that is not UTF-8"
        return
    try:
        value = forms.read_json(cell)
    except forms.NotRead as fault:
        yield "can't be read: %s" % fault
        return
    if not isinstance(value, dict):
        yield "is no JSON object"
    elif column == "conf":
        fault = forms.object_fault(ranges.conf, forms.CONF, value)
        if fault:
            yield "has settings of which %s" % fault
    elif column == "tags":
        yield from tag_faults(ranges, value)
    else:
        yield from object_faults(ranges, column, value)


def tag_faults(ranges, tags):
    for name, usn in sorted(tags.items()):
        fault = ranges.head["tags"].fault(name)
        if fault:
            yield "has a tag whose name %s" % fault
        elif not forms.is_integer(usn):
            yield "has the tag %s with a number that is not whole" % short(name)
        elif ranges.tag_usn.fault(usn):
            yield "has the tag %s whose number %s" % (short(name), ranges.tag_usn.fault(usn))


def object_faults(ranges, column, rows):
    word = {"models": "note type", "decks": "deck", "dconf": "option group"}[column]
    for key, value in sorted(rows.items()):
        if column == "models":
            fault = forms.note_type_fault(ranges, value)
        elif column == "decks":
            fault = forms.object_fault(ranges.deck, forms.DECK, value)
        else:
            fault = forms.object_fault(ranges.options, forms.OLD_OPTIONS if forms.is_old(value) else forms.OPTIONS, value)
        if fault:
            yield "has the %s %s, of which %s" % (word, short(key), fault)
        elif str(value["id"]) != key:
            yield "has the %s %s under the key %s" % (word, value["id"], short(key))
