"""Why the program refuses a journal. Nothing is changed: the program is asked about a copy."""
import contextlib
import fcntl
import os
import shutil
import stat
import subprocess
import tempfile

from front.names import JOURNAL
from tools import doctor, files
from tools.doctor import Finding

# An open gate, and how many bytes stand in front of its payload.
OPEN, HEAD = 1, 9


def findings_of(path):
    """All that makes the program refuse the journal at a path; none if it opens."""
    return list(outside(path)) or list(inside(path))


def outside(path):
    """What can be seen without asking the program."""
    if not path:
        yield Finding("`journal:` names no file", "name one behind it, such as journal:my.log")
        return
    folder = os.path.dirname(files.real(path))
    try:
        found = os.stat(path)
    except OSError:
        yield from doctor.unseen(path, folder, JOURNAL + path)
        return
    if not stat.S_ISREG(found.st_mode):
        yield Finding("%s is %s" % (path, "a folder" if stat.S_ISDIR(found.st_mode) else "no regular file"), "name a file")
        return
    barred = list(doctor.lacking_rights(path))
    yield from barred
    if not barred and is_held(path):
        yield Finding("%s is open in another program%s" % (path, files.holder_words(path)), "end that program, and try again", True)
    elif not barred:
        yield from of_first_bytes(path)


def of_first_bytes(path):
    """That a file is no journal, if its first byte says so."""
    if doctor.begins_as_database(path):
        yield Finding("%s is a collection in SQLite, and no journal" % path, "name it without `journal:`; docs/FILES.md says how to make a journal of it")
        return
    first = first_bytes(path)[:1]
    if first > b"\1":
        yield Finding("%s is no journal: it begins with the byte %d, and a journal with 0 or 1" % (path, first[0]), "name the journal's file, or one that is not there yet")


def first_bytes(path):
    with open(path, "rb") as file:
        return file.read(HEAD)


def has_frame(path):
    """Whether a journal holds a commit at all."""
    found = first_bytes(path)
    return len(found) == HEAD and found[0] == OPEN


def is_held(path):
    """Whether another process has the journal open."""
    with open(path, "rb") as file:
        try:
            fcntl.flock(file, fcntl.LOCK_SH | fcntl.LOCK_NB)
        except OSError:
            return True
    return False


@contextlib.contextmanager
def held(path):
    """Holds a journal, so that the program can't open it meanwhile."""
    with open(path, "rb+") as file:
        fcntl.flock(file, fcntl.LOCK_EX | fcntl.LOCK_NB)
        yield


def inside(path):
    status, printed = asked(path)
    if status == doctor.DAMAGED:
        yield Finding("it is damaged: %s" % printed, doctor.PUT_BACK_JOURNAL)
    elif status not in (0, 3):
        yield Finding("it is refused, and nothing that is known here is wrong with it", "go back to a copy: see docs/FILES.md")


def asked(path, lines=b""):
    """The status and the last line of a desk over a copy of a journal."""
    if not files.is_room_for(tempfile.gettempdir(), os.path.getsize(path)):
        raise files.Refused("%s has no room for a copy of %s to look into; TMPDIR names another folder" % (tempfile.gettempdir(), path))
    with tempfile.TemporaryDirectory(prefix="anki-") as folder:
        copy = os.path.join(folder, "journal")
        shutil.copyfile(path, copy)
        done = subprocess.run([files.program_path(), JOURNAL + copy, "-", "desk"], input=lines, stdout=subprocess.PIPE)
        return done.returncode, done.stdout.decode("utf-8", "replace").rstrip("\n").split("\n")[-1]
