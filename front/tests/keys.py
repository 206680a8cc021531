"""A learner's terminal for tests: it presses keys, and reads what is written."""

import fcntl
import os
import pty
import select
import subprocess
import sys
import termios
import time

from front.program import ROOT

STUDY = [sys.executable, os.path.join(ROOT, "bin", "anki-study")]


class Terminal:
    """A terminal of its own, in which `words` are run over a file."""

    def __init__(self, path, program, words=tuple(STUDY)):
        self.master, slave = pty.openpty()
        self.process = subprocess.Popen(
            list(words) + [path], stdin=slave, stdout=slave, stderr=slave, start_new_session=True,
            preexec_fn=lambda: fcntl.ioctl(0, termios.TIOCSCTTY, 0), env=dict(os.environ, ANKI_PROGRAM=program, TERM="xterm"),
        )  # fmt: skip
        os.close(slave)
        self.said = ""

    def wait_for(self, words, never=None):
        """Reads until these words came. They come in a minute, and what never may come before them doesn't."""
        ends = time.monotonic() + 60
        while words not in self.said:
            if never is not None and never in self.said or time.monotonic() > ends or not select.select([self.master], [], [], 60)[0]:
                raise AssertionError("%r did not come in %r" % (words, self.said))
            try:
                self.said += os.read(self.master, 65536).decode("utf-8", "replace")
            except OSError:
                raise AssertionError("%r did not come in %r" % (words, self.said)) from None
        before, self.said = self.said.split(words, 1)
        if never is not None and never in before:
            raise AssertionError("%r came in %r" % (never, before))

    def press(self, keys):
        os.write(self.master, keys.encode())

    def close(self):
        self.process.kill()
        self.process.wait()
        os.close(self.master)
