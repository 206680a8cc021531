"""A stand-in for the program: it is `anki` but for the commands that it answers as it is told."""

import os

SCRIPT = """#!/bin/sh
here=%s
case "$3" in
%s) printf '%%s\\n' "$*" > "$here/asked"; cat > "$here/given"; cat "$here/said"; exit "$(cat "$here/status")" ;;
*) exec "%s" "$@" ;;
esac
"""


class StandIn:
    """A program in a folder of its own. `path` is its file."""

    def __init__(self, folder, program, *commands):
        self.folder = os.path.join(folder, "tools")
        os.mkdir(self.folder)
        self.path = self.keep("anki", SCRIPT % (self.folder, "|".join(commands), program))
        os.chmod(self.path, 0o755)

    def keep(self, name, text):
        path = os.path.join(self.folder, name)
        with open(path, "w") as file:
            file.write(text)
        return path

    def answer(self, said, status):
        """What a command prints from here on, and the status that it ends with."""
        self.keep("said", said)
        self.keep("status", str(status))

    def asked(self):
        """The words of the last command, or None."""
        return self._read("asked", "r")

    def given(self):
        """What the last command was given to read, as bytes."""
        return self._read("given", "rb")

    def _read(self, name, mode):
        path = os.path.join(self.folder, name)
        if not os.path.exists(path):
            return None
        with open(path, mode) as file:
            return file.read()
