"""The names of the functions in crates/*/src/ and of the clauses of their contracts, read off the text of the sources, where each stands, and how long it is."""
import functools
import glob
import os
import re

TOP = os.path.dirname(os.path.dirname(os.path.realpath(__file__)))
BEGINS = re.compile(r"(?m)^\s*(?:pub(?:\([^)]*\))? )?(?:const |final )*fn (\w+)|^\s*(?:ensures\*?|requires)(?: (\w+))? *\{")
STRING = re.compile(r'"(?:[^"\\]|\\.)*"')
FUNCTION = re.compile(r"\s*(?:pub(?:\([^)]*\))? )?(?:const |final )*fn (\w+)")
CLAUSE = re.compile(r"\s*ensures\*?(?: (\w+))? *\{")


@functools.lru_cache(maxsize=None)
def contracts(top=TOP):
    """The clauses of each function of each crate, each with its file and line; of several functions of one name in a crate, those of all. A clause without a name is None."""
    found = {}
    for path in sorted(glob.glob(f"{top}/crates/*/src/**/*.rt", recursive=True)):
        place = os.path.relpath(path, top)
        crate, function = place.split("/")[1], None
        with open(path, encoding="utf-8") as file:
            for number, line in enumerate(file, 1):
                begins, clause = FUNCTION.match(line), CLAUSE.match(line)
                if begins:
                    function = found.setdefault((crate, begins[1]), {})
                elif clause and function is not None:
                    function.setdefault(clause[1], f"{place}:{number}")
    return found


def end_of(text, place):
    """The place behind the brace that closes the one before this place. A brace in a string is none."""
    depth = 1
    while depth:
        if text[place] == '"':
            place = STRING.match(text, place).end()
            continue
        depth += {"{": 1, "}": -1}.get(text[place], 0)
        place += 1
    return place


def lengths(top=TOP):
    """How many characters each clause has, its white space as single spaces, by its crate, its function and its name."""
    found = {}
    for path in sorted(glob.glob(f"{top}/crates/*/src/**/*.rt", recursive=True)):
        crate, function = os.path.relpath(path, top).split("/")[1], ""
        with open(path, encoding="utf-8") as file:
            text = file.read()
        for begins in BEGINS.finditer(text):
            if begins[1]:
                function = begins[1]
                continue
            clause = " ".join(text[begins.start() : end_of(text, begins.end())].split())
            key = (f"{crate}::{function}", begins[2] or "")
            found[key] = max(len(clause), found.get(key, 0))
    return found


def missing(names, found):
    """Those of the names that do not stand in the sources. A name with `::` is a function with its crate; the names after it are of its clauses."""
    gone, function = [], ""
    for name in names:
        if "::" in name:
            function = name
            is_there = tuple(name.split("::")) in found
        else:
            is_there = name in found.get(tuple(function.split("::")), ())
        gone += [] if is_there else [name if name == function else f"{function}: {name}"]
    return gone


def bare(names, found):
    """The functions among the names of which no clause is named, though each of their clauses has a name."""
    for name, after in zip(names, [*names[1:], "::"]):
        clauses = found.get(tuple(name.split("::")), ())
        if "::" in name and "::" in after and clauses and None not in clauses:
            yield name
