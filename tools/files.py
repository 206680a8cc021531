"""A collection's two files: FILE, and FILE-wal beside it, to which commits go until the program ends in order."""
import contextlib
import fcntl
import os
import shutil
import stat
import struct
import tempfile

from front import program as programs
from front.collection import LOCK_LENGTH, LOCK_START, LOG_AT_REST, holders
from front.names import journal_path

# What stands beside a file under its name and one of these belongs to it.
BESIDE = ("-wal", "-shm", "-journal")


class Refused(Exception):
    """Why a word of bin/anki did nothing, in a sentence for the reader."""


def program_path():
    """The program that bin/anki found."""
    try:
        return programs.find_program()
    except programs.NoProgram as fault:
        raise Refused(str(fault)) from None


def refuse_journals(remedy, *names):
    """Refuses names of journals, for a word that works on files of SQLite."""
    for name in names:
        if journal_path(name) is not None:
            raise Refused("%s is a journal; %s" % (name, remedy))


def real(path):
    """The path to which links lead: beside it stand the files that belong to it."""
    return os.path.realpath(path)


def log_size(path):
    """How long the file's log, FILE-wal, is in bytes, 0 if there is none."""
    try:
        return os.lstat(real(path) + "-wal").st_size
    except OSError:
        return 0


def beside(path):
    """The files that stand beside a file and belong to it, each as what is added to its name."""
    return [end for end in BESIDE if os.path.lexists(real(path) + end)]


@contextlib.contextmanager
def held(path, is_read_only=False):
    """Holds a file, so that neither the program nor stock sqlite3 can write it meanwhile, and gives its descriptor."""
    try:
        file = os.open(path, os.O_CLOEXEC | (os.O_RDONLY if is_read_only else os.O_RDWR))
    except OSError as fault:
        raise Refused("%s can't be opened: %s" % (path, fault.strerror)) from None
    try:
        try:
            fcntl.lockf(file, (fcntl.LOCK_SH if is_read_only else fcntl.LOCK_EX) | fcntl.LOCK_NB, LOCK_LENGTH, LOCK_START)
        except OSError:
            raise Refused("%s is open in another program%s" % (path, holder_words(path))) from None
        yield file
    finally:
        os.close(file)


def is_held(path):
    """Whether another process holds the file."""
    try:
        file = os.open(path, os.O_RDWR | os.O_CLOEXEC)
    except OSError:
        return False
    try:
        # struct flock: type, whence, start, length, process.
        asked = struct.pack("hhqqi4x", fcntl.F_WRLCK, os.SEEK_SET, LOCK_START, LOCK_LENGTH, 0)
        return struct.unpack("hhqqi4x", fcntl.fcntl(file, fcntl.F_GETLK, asked))[0] != fcntl.F_UNLCK
    except OSError:
        return False
    finally:
        os.close(file)


def holder_words(path):
    """In brackets, which processes have the file open, as far as the system tells it."""
    found = holders(real(path))
    return " (%s)" % "; ".join(found) if found else ""


def open_and_close(path):
    """Has the program open and close a file that is there, and returns its status: 0 if a collection is held, 3 if none, 6 if the file is refused.

    After 0 and 3 all commits are in FILE.
    """
    return programs.open_and_close(program_path(), path)


def is_at_rest(path):
    """Whether the file's log holds no commit that is not in the file."""
    return log_size(path) <= LOG_AT_REST


def commits_in(log):
    """Where in a log each of its commits ends, as far as the marks of its pages tell."""
    try:
        with open(log, "rb") as file:
            head = file.read(32)
            if len(head) < 32:
                return []
            frame, salts = 24 + struct.unpack(">I", head[8:12])[0], head[16:24]
            ends, place = [], 32
            while True:
                mark = file.read(24)
                if len(mark) < 24 or mark[8:16] != salts or len(file.read(frame - 24)) < frame - 24:
                    return ends
                place += frame
                # The size of the file in pages, which only the last page of a commit has.
                if mark[4:8] != b"\0\0\0\0":
                    ends.append(place)
    except OSError:
        return []


def is_room_for(folder, size):
    """Whether a folder's disk has room for so many bytes and a little more."""
    disk = os.statvfs(folder)
    return disk.f_bavail * disk.f_frsize > size + (1 << 20)


@contextlib.contextmanager
def scratch_copy(path):
    """A copy of a file and of its log in a folder of its own, which goes again."""
    size = os.stat(path).st_size + log_size(path)
    if not is_room_for(tempfile.gettempdir(), size):
        raise Refused("%s has no room for a copy of %d bytes to look into; TMPDIR names another folder" % (tempfile.gettempdir(), size))
    folder = tempfile.mkdtemp(prefix="anki-")
    try:
        copy = os.path.join(folder, "collection")
        shutil.copyfile(path, copy)
        if is_regular(real(path) + "-wal"):
            shutil.copyfile(real(path) + "-wal", copy + "-wal")
        yield copy
    finally:
        shutil.rmtree(folder, ignore_errors=True)


def is_regular(path):
    try:
        return stat.S_ISREG(os.lstat(path).st_mode)
    except OSError:
        return False


def copy_held(file, target):
    """Copies what an open file holds to a new file of this name, and brings it to the disk."""
    size, done = os.fstat(file).st_size, 0
    with open(target, "xb") as out:
        while done < size:
            piece = os.pread(file, 1 << 20, done)
            if not piece:
                raise Refused("the file became shorter while it was copied")
            out.write(piece)
            done += len(piece)
        out.flush()
        os.fchmod(out.fileno(), stat.S_IMODE(os.fstat(file).st_mode))
        os.fsync(out.fileno())


def bring_to_disk(folder):
    """Brings the names in a folder to the disk."""
    file = os.open(folder or ".", os.O_RDONLY)
    try:
        os.fsync(file)
    except OSError:
        pass
    finally:
        os.close(file)
