"""Files that a learner names in the terminal, to import notes from and to export notes to."""

import os
import tempfile

from front.importing import LONGEST_FILE, too_long
from front.sitting import Slip


def read_file(path):
    """The bytes of a file that is to be imported."""
    path = os.path.expanduser(path)
    try:
        if not os.path.isfile(path):
            raise Slip("there is no file %s" % path)
        if os.path.getsize(path) > LONGEST_FILE:
            raise Slip(too_long())
        with open(path, "rb") as file:
            return file.read()
    except OSError as fault:
        raise Slip("%s can't be read: %s" % (path, fault.strerror)) from None


def target_of(path, collection):
    """The whole path of a file that notes may be written to. That is no folder, and none of the files of the collection."""
    path = os.path.realpath(os.path.expanduser(path))
    for held in (collection + end for end in ("", "-wal", "-shm")):
        if path == held or os.path.exists(path) and os.path.exists(held) and os.path.samefile(path, held):
            raise Slip("%s is a file of the collection's own" % path)
    if os.path.exists(path) and not os.path.isfile(path):
        raise Slip("%s is no file" % path)
    return path


def write_file(path, content):
    """Writes a file whole, or leaves what was there. It is for this user alone."""
    try:
        number, made = tempfile.mkstemp(prefix=".anki-export-", dir=os.path.dirname(path))
        try:
            with os.fdopen(number, "wb") as file:
                file.write(content)
            os.replace(made, path)
        except BaseException:
            os.remove(made)
            raise
    except OSError as fault:
        raise Slip("%s can't be written: %s" % (path, fault.strerror)) from None
