"""`backup FILE COPY` and `restore COPY FILE`: whole copies of a collection, by way of the program, which puts all commits into one file first."""
import contextlib
import os
import shutil
import stat
import time

from tools import doctor, files
from tools.files import Refused

# How often a file is opened and closed again, if other programs work on it in between.
TRIES = 5


def backup(path, copy):
    """Makes COPY, one whole file with all that was printed so far. Returns what to say."""
    files.refuse_journals("it is one file: while no program has it open, copy it by `cp`", path, copy)
    ask_for_collection(path)
    ask_for_free_name(copy)
    folder = os.path.dirname(copy) or "."
    if not os.path.isdir(folder):
        raise Refused("there is no folder %s" % folder)
    if not files.is_room_for(folder, os.stat(path).st_size + files.log_size(path)):
        raise Refused("the disk of %s has no room for the copy" % folder)
    settle(path)
    new = "%s.new-%d" % (copy, os.getpid())
    try:
        with settled(path) as file:
            files.copy_held(file, new)
        put_new(new, copy)
    finally:
        remove(new)
    files.bring_to_disk(folder)
    return [
        "%s holds all of %s: one file, %d bytes." % (copy, path, os.path.getsize(copy)),
        "To go back to it: bin/anki restore %s %s" % (copy, path),
    ]


def restore(copy, path):
    """Puts COPY in FILE's place, and moves what is there aside. Returns what to say."""
    files.refuse_journals("while no program has it open, move it away by `mv`, and copy its copy to its name by `cp`", copy, path)
    ask_for_copy(copy)
    ask_for_two(copy, path)
    if os.path.islink(path) and not os.path.exists(path):
        raise Refused("%s is a link to nothing" % path)
    target = files.real(path)
    folder = os.path.dirname(target)
    if not os.path.isdir(folder):
        raise Refused("there is no folder %s" % folder)
    if not files.is_room_for(folder, os.stat(copy).st_size + files.log_size(copy)):
        raise Refused("the disk of %s has no room for the copy" % folder)
    if os.path.lexists(target):
        ask_for_quiet(path)
    new = "%s.new-%d" % (target, os.getpid())
    try:
        make_whole(copy, new)
        give_access(new, target if os.path.exists(target) else copy)
        aside = exchange(target, new)
    finally:
        for end in ("", "-wal"):
            remove(new + end)
    files.bring_to_disk(folder)
    said = ["%s holds what %s holds." % (path, copy)]
    if aside:
        said.append("What was there before is in %s." % " and ".join(aside))
    return said + SYNC_WORDS


SYNC_WORDS = [
    "If you sync this collection, decide before the next sync which side is to win, since the server knows nothing of this step back:",
    "  `download` takes the server's collection, and throws away what this copy has and the server has not. Do so if the server has the later state.",
    "  `upload` puts this copy in the server's place, and throws away what the server and the other devices have that it has not. Do so if this copy is to win.",
]


def ask_for_collection(path):
    """Refuses a file that the program can't open, as far as that is seen from outside."""
    for finding in doctor.outside(path):
        raise Refused("%s; %s" % (finding.what, finding.remedy))


def ask_for_copy(copy):
    """Refuses a copy that can't be read. It may be one that nobody may write, as on a disk for reading alone."""
    if not os.path.isfile(copy):
        ask_for_collection(copy)
    if not os.access(copy, os.R_OK):
        raise Refused("%s may not be read by %s" % (copy, doctor.user()))


def ask_for_free_name(copy):
    if not copy or os.path.isdir(copy):
        raise Refused("%s is a folder: name a file in it" % (copy or "''"))
    if os.path.lexists(copy):
        raise Refused("%s is there already, and stays as it is: name another copy" % copy)
    for end in files.beside(copy):
        raise Refused("%s%s is there already, and would be taken for a part of the copy: name another copy, or move it away" % (copy, end))


def ask_for_two(copy, path):
    if not path or os.path.isdir(path):
        raise Refused("%s is a folder: name a file in it" % (path or "''"))
    if os.path.exists(path) and os.path.samefile(copy, path):
        raise Refused("%s and %s are one file" % (copy, path))


def ask_for_quiet(path):
    """Refuses to move a file aside that is open elsewhere, or that this user may not open. Any other fault of it is a reason to restore."""
    for finding in doctor.outside(path):
        if finding.is_barred:
            raise Refused("%s; %s" % (finding.what, finding.remedy))
    if os.path.lexists(path) and not os.path.isfile(path):
        raise Refused("%s is no regular file" % path)


def settle(path):
    """Has the program bring all commits into FILE."""
    status = files.open_and_close(path)
    if status == 0:
        return
    if status == 3:
        raise Refused("%s holds no collection" % path)
    found = doctor.findings_of(path)
    raise Refused("%s can't be opened: %s" % (path, found[0].what if found else "the program ended with status %d" % status))


@contextlib.contextmanager
def settled(path):
    """Holds FILE at a moment when it has all commits, and gives its descriptor."""
    for _ in range(TRIES):
        with files.held(path) as file:
            if files.is_at_rest(path):
                yield file
                return
        # Another program was there in between.
        settle(path)
    raise Refused("%s is used by other programs again and again" % path)


def make_whole(copy, new):
    """Makes one whole file of a copy, with its log if it has one. The copy itself stays untouched."""
    with files.held(copy, is_read_only=not os.access(copy, os.W_OK)) as file:
        files.copy_held(file, new)
        os.chmod(new, 0o600)
        log = files.real(copy) + "-wal"
        if os.path.lexists(log):
            shutil.copyfile(log, new + "-wal")
    status = files.open_and_close(new)
    if status == 3:
        raise Refused("%s holds no collection" % copy)
    if status != 0:
        found = doctor.findings_of(new)
        raise Refused("%s can't be opened: %s" % (copy, found[0].what if found else "the program ended with status %d" % status))
    if not files.is_at_rest(new):
        raise Refused("the program did not bring all of %s into one file" % copy)
    remove(new + "-wal")


def give_access(new, like):
    """Gives a file the mode of another, and its owner where this user may."""
    found = os.stat(like)
    with contextlib.suppress(OSError):
        os.chown(new, found.st_uid, found.st_gid)
    os.chmod(new, stat.S_IMODE(found.st_mode) | stat.S_IRUSR | stat.S_IWUSR)


def exchange(target, new):
    """Moves FILE and what belongs to it aside, puts the new file in its place, and returns the names of what was moved.

    Each step is one renaming, so a kill in between loses nothing: each file stands under its old name or its new one.
    """
    aside = free_name(target)
    with contextlib.ExitStack() as stack:
        if os.path.lexists(target):
            # If the program refuses the file, it is moved with its log as the two are.
            files.open_and_close(target)
            stack.enter_context(files.held(target))
        moved = []
        for end in files.beside(target) + [""]:
            if os.path.lexists(target + end):
                os.rename(target + end, aside + end)
                moved.insert(0, aside + end)
        put_new(new, target)
    return moved


def free_name(path):
    """A name for what is moved aside, with the time in universal time."""
    first = "%s.before-%s" % (path, time.strftime("%Y%m%d-%H%M%S", time.gmtime()))
    name, number = first, 1
    while any(os.path.lexists(name + end) for end in ("",) + files.BESIDE):
        number += 1
        name = "%s-%d" % (first, number)
    return name


def put_new(new, path):
    """Gives a new file its name, if nobody has it."""
    try:
        os.link(new, path)
    except FileExistsError:
        raise Refused("%s came to be there meanwhile, and stays as it is" % path) from None
    except OSError:
        # A file system without hard links.
        os.rename(new, path)
        return
    os.remove(new)


def remove(path):
    with contextlib.suppress(OSError):
        os.remove(path)
