"""What bin/try-edits and bin/try-swaps share: the crates of this repository, edits and what they change, and copies in which they are tried.

An edit is a file with a line 'file: src/NAME.rt' and then pairs of lines 'old: TEXT' and 'new: TEXT'. Each TEXT after 'old:' stands in
that file exactly once, where the pairs before it have been applied.
"""
import os
import re
import shutil
import sys
import tempfile

TOP = os.path.dirname(os.path.dirname(os.path.realpath(__file__)))
# What a check or a run of a crate reads.
PARTS = ("src", "specs", "proofs", "args", "stdin", "stdout", "status", "data")


def text_of(path):
    with open(path, encoding="utf-8") as file:
        return file.read()


def crates_below():
    """Returns the crates of crates.txt in its order, each with those of this repository that it needs: there each stands after these."""
    found = {}
    for line in text_of(f"{TOP}/crates.txt").split("\n"):
        name, _, uses = line.split("#")[0].partition(":")
        if uses or name.strip():
            found[name.split()[0]] = [it for use in uses.split() if use in found for it in (*found[use], use)]
    return {name: list(dict.fromkeys(below)) for name, below in found.items()}


def chosen(words):
    """Returns the crates that were named, or all; ends with status 2 if one is unknown."""
    every = list(crates_below())
    unknown = [word for word in words if word not in every]
    if unknown:
        print(f"no crate {unknown[0]} in crates.txt", file=sys.stderr)
        sys.exit(2)
    return [name for name in every if name in words] if words else every


def edits_in(folder):
    """Returns the edits of a folder by name."""
    if not os.path.isdir(folder):
        return []
    return sorted(f"{folder}/{name}" for name in os.listdir(folder) if name.endswith(".edit"))


def pairs_of(edit):
    """Gives the edit's texts: a file, what stands in it, and what is put in its place."""
    file = old = ""
    for line in text_of(edit).split("\n"):
        if line.startswith("file: "):
            file = line[len("file: ") :].strip()
        elif line.startswith("old: "):
            old = line[len("old: ") :]
        elif line.startswith("new:"):
            yield file, old, re.sub(r"\Anew: ?", "", line)


def planted(folder, edits):
    """Returns the texts of the crate's files with all these edits in them, and why one doesn't apply beside the others, if one doesn't."""
    texts = {}
    for edit in edits:
        pairs = list(pairs_of(edit))
        if not pairs:
            return {}, "it has no 'old:' and 'new:' pair"
        for file, old, new in pairs:
            if file not in texts and not os.path.isfile(f"{folder}/{file}"):
                return {}, f"there is no file {file}"
            text = texts[file] if file in texts else text_of(f"{folder}/{file}")
            if not old or text.count(old) != 1:
                return {}, f"an 'old:' text is in {file} {text.count(old) if old else 0} times, and not once"
            texts[file] = text.replace(old, new)
    return texts, ""


def add_crate(room, name):
    """Puts what is read of the crate into the copy, without its edits, and its line into the copy's crates.txt."""
    for part in PARTS:
        at, to = f"{TOP}/crates/{name}/{part}", f"{room}/crates/{name}/{part}"
        if os.path.isdir(at):
            shutil.copytree(at, to)
        elif os.path.isfile(at):
            os.makedirs(os.path.dirname(to), exist_ok=True)
            shutil.copyfile(at, to)
    with open(f"{room}/crates.txt", "a", encoding="utf-8") as file:
        file.writelines(f"{line}\n" for line in text_of(f"{TOP}/crates.txt").split("\n") if line.partition(":")[0].split()[:1] == [name])


def copy_of(names):
    """Returns a new folder with these crates, as a repository of its own: what is tried there touches nothing here."""
    room = tempfile.mkdtemp(prefix="kuldraff-edits-")
    os.makedirs(f"{room}/.git")
    os.makedirs(f"{room}/crates")
    shutil.copyfile(f"{TOP}/HANDLES", f"{room}/HANDLES")
    with open(f"{room}/crates.txt", "w", encoding="utf-8"):
        pass
    for name in names:
        add_crate(room, name)
    return room
