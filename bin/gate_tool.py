"""The one place that reaches into the toolchain's command `rt`, which is a Python program and is read here as a module. Everything else in
bin/ runs its commands. `toolchain` tests that each name that is used here is there, and says so in a sentence if one is not.
"""
import importlib.machinery
import importlib.util
import io
import os
import shutil
import subprocess
import sys

# The names of `rt` that are used here, and those of its class of crates.
NAMES = ("main", "Crate", "checked", "linked", "must_fail", "handles_of", "rtlib", "MISSED", "REFUSED", "AT_LIMIT")
OF_CRATES = ("below", "words", "front_end", "cuts_libraries", "allowed")
# Of each command that ended: its words, the folder that it ran in, and the seconds of processor time that it and all it started took.
ENDED = []


def toolchain():
    """Returns `rt` as a module, or ends with status 2 and a sentence if there is none, or one of another version."""
    found = shutil.which("rt")
    if not found:
        sys.exit(told("the toolchain's command rt is not on the PATH"))
    loader = importlib.machinery.SourceFileLoader("rt", os.path.realpath(found))
    made = importlib.util.module_from_spec(importlib.util.spec_from_loader("rt", loader))
    sys.modules["rt"] = made
    try:
        loader.exec_module(made)
    except (SyntaxError, ImportError, ValueError) as error:
        sys.exit(told(f"this version of the toolchain's rt is no Python program that can be read here ({error})"))
    lacking = [it for it in NAMES if not hasattr(made, it)] or [it for it in OF_CRATES if not hasattr(made.Crate, it)]
    if lacking:
        version = subprocess.run(["rt", "version"], stdout=subprocess.PIPE, text=True).stdout.strip()
        sys.exit(told(f"bin/gate_tool.py was written for version 13f of the toolchain, and here is {version}: its rt has no {lacking[0]}"))
    # The crates that stand below one that is made here are then of rt's kind too.
    made.rtlib.Crate = made.Crate
    # As under rt ci, the crates above a library load its statements and not its proofs.
    made.Crate.cuts_libraries = True
    return made


def told(why):
    print(why, file=sys.stderr)
    return 2


class Tried:
    """A crate of a copy in which `rt ci` has built the libraries below it, to be checked with edits in it."""

    def __init__(self, top, name):
        self.rt = toolchain()
        self.rt.Crate.allowed = self.rt.handles_of(top)
        self.name, self.folder = name, f"{top}/crates/{name}"
        self.crate = self.rt.Crate(self.folder, top, {})

    def check(self, texts, functions, seed):
        """Checks these functions of the crate, or all if there are none, with these texts in it, over what the folder `seed` holds, and returns the process."""
        only = [word for it in functions for word in ("--only", it)]
        return self.rt.checked(self.crate, texts, ["--jobs", "1", *only], seed)

    def alone(self, edit, seed):
        """Tries one edit by a check of the whole crate, and returns whether it was refused, and what is said of it."""
        kind, line = self.rt.must_fail(self.crate, edit, ["--jobs", "1"], seed)
        return kind in (self.rt.REFUSED, self.rt.AT_LIMIT), line

    def compiled(self):
        """Returns what is said of the crate before any proof, '' if it compiles. No library below it is built in the copy then."""
        self.crate.out = io.StringIO()
        return self.crate.out.getvalue() if self.crate.front_end() else ""

    def copied(self, seed, to):
        self.rt.linked(seed, to)


class Measured(subprocess.Popen):
    """A command whose processor time, and that of all it started, is told once it ends."""

    def __init__(self, words, *more, **how):
        self.folder = how.get("cwd") or ""
        super().__init__(words, *more, **how)

    def _try_wait(self, flags):
        try:
            found, status, usage = os.wait4(self.pid, flags)
        except ChildProcessError:
            return self.pid, 0
        if found == self.pid:
            ENDED.append((self.args, self.folder, usage.ru_utime + usage.ru_stime))
        return found, status


def part_of(words, folder):
    """Returns the crate that one of the gate's commands was for, and the part of its cost; None for the run of a program, say."""
    if "--crate-name" not in words:
        return None
    if os.path.basename(folder).startswith("rt-edit-"):
        part = "edits"
    else:
        part = "tests" if "--test" in words else "code" if "--crate-checked" in words else "proof"
    return words[words.index("--crate-name") + 1], part


def measured_gate(words):
    """Runs `rt ci` with these words in the folder that is current, and returns its status, and of each crate the seconds of each part."""
    rt = toolchain()
    subprocess.Popen = Measured
    status, costs = rt.main(["ci", *words]), {}
    for given, folder, seconds in ENDED:
        found = part_of(given, folder)
        if found:
            parts = costs.setdefault(found[0], {})
            parts[found[1]] = parts.get(found[1], 0.0) + seconds
    return status, costs
