#!/usr/bin/env python3
"""A stand-in for a program `anki` that takes journals: it writes them by their rules, and lets the real program do the work over a file of SQLite beside. BEHIND names that
program. It is a model from outside, for the tests of what tries and measures journals."""
import contextlib
import ctypes
import fcntl
import os
import resource
import signal
import subprocess
import sys
import tempfile

sys.dont_write_bytecode = True
sys.path.insert(0, os.path.dirname(os.path.dirname(os.path.realpath(__file__))))

import journal_rules as rules  # noqa: E402
from front.names import JOURNAL  # noqa: E402

REAL = os.environ.get("BEHIND") or os.path.join(rules.TOP, "dist", "anki")
REFUSED, DAMAGED = 6, 16
LIMIT = resource.getrlimit(resource.RLIMIT_FSIZE)


class Journal:
    """The journal at a path, locked for this process. An OSError is a fault of the file."""

    def __init__(self, path):
        self.file = os.open(path, os.O_RDWR | os.O_CREAT | os.O_CLOEXEC, 0o666)
        fcntl.flock(self.file, fcntl.LOCK_EX | fcntl.LOCK_NB)
        size = os.fstat(self.file).st_size
        if size == 0:
            folder = os.open(os.path.dirname(os.path.realpath(path)), os.O_RDONLY)
            os.fsync(folder)
            os.close(folder)
        data = self.read(size)
        if data.startswith(b"SQLite format 3"):
            raise OSError("a database of SQLite")
        os.fdatasync(self.file)
        payloads, self.gate = rules.payloads_in(data)
        self.held = rules.fold(payloads)
        os.ftruncate(self.file, self.gate)
        os.fdatasync(self.file)
        self.write(self.gate, bytes([rules.SHUT]))

    def read(self, size):
        data = b""
        while len(data) < size:
            piece = os.pread(self.file, size - len(data), len(data))
            if not piece:
                break
            data += piece
        return data

    def write(self, place, data):
        with limited():
            while data:
                count = os.pwrite(self.file, data, place)
                place, data = place + count, data[count:]
        os.fdatasync(self.file)

    def commit(self, now, is_whole):
        """Keeps what is held now, if it is another collection than before."""
        change = rules.change_between(self.held, now)
        if not change["cut"] and not change["put"] and change["head"] is None:
            return
        if is_whole:
            change = dict(rules.change_between(rules.Collection(), now), all=True)
        payload = rules.payload_of(change)
        self.write(self.gate + 1, len(payload).to_bytes(8, "big") + payload + bytes([rules.SHUT]))
        self.write(self.gate, bytes([rules.OPEN]))
        self.gate, self.held = self.gate + rules.HEAD + len(payload), now


@contextlib.contextmanager
def limited():
    """What is done inside obeys the limit of a file's size with which this process began; all else is beside the journal."""
    resource.setrlimit(resource.RLIMIT_FSIZE, LIMIT)
    try:
        yield
    finally:
        resource.setrlimit(resource.RLIMIT_FSIZE, (LIMIT[1], LIMIT[1]))


def die_with_parent():
    ctypes.CDLL(None).prctl(1, signal.SIGKILL, 0, 0, 0)


def filled(journal, room):
    """A file of SQLite with what the journal holds."""
    path = os.path.join(room, "collection")
    if journal.held.head is not None:
        subprocess.run([REAL, path, "-", "init"], check=True)
        rules.into_sqlite(journal.held, path)
    return path


def desk(journal, room):
    """The desk's lines, each answered by the real program and kept before its answer is printed."""
    path, real = None, None
    for line in sys.stdin.buffer:
        if real is None:
            path = filled(journal, room)
            real = subprocess.Popen([REAL, path, "-", "desk"], stdin=subprocess.PIPE, stdout=subprocess.PIPE, preexec_fn=die_with_parent)
        with contextlib.suppress(BrokenPipeError):
            real.stdin.write(line)
            real.stdin.flush()
        if line.strip() and not line.startswith(b"#"):
            answer = real.stdout.readline()
            journal.commit(rules.of_sqlite(path), False)
            os.write(1, answer)
            if not answer or answer.startswith(b"line "):
                break
    if real is None:
        return 0
    with contextlib.suppress(BrokenPipeError):
        real.stdin.close()
    os.write(1, real.stdout.read())
    return real.wait()


def work(journal, words):
    with tempfile.TemporaryDirectory(prefix="journal-") as room:
        if words[1:] == ["desk"] and journal.held.head is not None:
            return desk(journal, room)
        path = filled(journal, room)
        ran = subprocess.run([REAL, path, *words], stdout=subprocess.PIPE, preexec_fn=die_with_parent)
        if os.path.exists(path):
            journal.commit(rules.of_sqlite(path), words[1:2] in (["init"], ["download"]))
        os.write(1, ran.stdout)
        return ran.returncode


def main(words):
    if not words or not words[0].startswith(JOURNAL):
        os.execv(REAL, [REAL, *words])
    resource.setrlimit(resource.RLIMIT_FSIZE, (LIMIT[1], LIMIT[1]))
    try:
        return work(Journal(words[0][len(JOURNAL):]), words[1:])
    except rules.Damaged as fault:
        print(fault)
        return DAMAGED
    except OSError:
        return REFUSED


if __name__ == "__main__":
    sys.exit(main(sys.argv[1:]))
