"""How bin/try-edits --together tries a crate's edits: those of distinct functions stand in one copy of it, and a check of just these
functions judges each edit by what is told of its own. A check of the functions without edits comes first, and must pass. An edit of
anything else than functions is tried by itself, by a check of the whole crate."""
import os
import re
import shutil
import subprocess

import edit_files
import gate_tool
from edit_files import pairs_of, text_of

# What is said of a proof file that names what an edit took away, and of what cites that file. (A remark on a shown text says that a name "is not in scope here".)
NAMES = re.compile(r"has no (?:field|constructor|member)|is not in scope(?! here, so)|has no `|was not admitted|projects from a record")
# What is said of an answer whose goal the edit took away, with the answer's name.
GONE = re.compile(r"error: `([^`]+)`: .*(?:`(?:[^`]*\.)?\1` is not in scope|has no (?:\w+ )?`\1`)")
# What is said of a goal that no answer and no tactic proves, with its name.
OPEN = re.compile(r"note: (?:\./)?src/\S+: it is not proved that .*?(?:\(`([^`]+)`\)|\Z)")
# The words that goals of a loop or a call end in; any other begins with what it is about.
ENDS = ("requires", "init", "preserved", "smaller")
# What is said of a function that calls one without a proof.
CALLS = re.compile(r"it calls .*")
HEAD = r"(?:pub(?:\(\w+\))? )?"


def function_at(text, place, module):
    """Returns the function that holds this place of a module's text, in the layout of `rt fmt`, or None: a path with its module or type."""
    lines = text[: text.find("\n", place)].split("\n")
    first = max((number for number, line in enumerate(lines) if re.match("[a-z]", line)), default=0)
    plain = re.match(HEAD + r"fn (\w+)", lines[first])
    if plain:
        return f"{module}::{plain[1]}"
    owner = re.match(HEAD + r"(?:impl(<(?:[^<>]|<[^<>]*>)*>)?|trait) (?:(.*) for )?(\w+)(?:<(\w+)>)?", lines[first])
    methods = [it[1] for it in (re.match("    " + HEAD + r"fn (\w+)", line) for line in lines[first:]) if it]
    if not owner or not methods:
        return None
    generic, given, name, argument = owner.groups()
    # (the methods of a type of one argument alone, as `impl Server<MemoryKeeper>`, are told with it)
    only = f"+{argument}" if argument and not generic and not given else ""
    return f"{name}{only}{re.sub(r'[^A-Za-z0-9_]', '', given or '')}::{methods[-1]}"


def functions_of(crate, edit):
    """Returns the functions that the edit changes; none, if it changes anything else."""
    found = []
    for file, old, _ in pairs_of(edit):
        place = text_of(f"{crate.folder}/{file}").find(old)
        # (what an earlier pair put there stands in the same function)
        if place >= 0:
            module = "::".join([crate.name, *(it for it in file[: -len(".rt")].split("/")[1:] if it not in ("lib", "main"))])
            found.append(function_at(text_of(f"{crate.folder}/{file}"), place, module) if file.startswith("src/") else None)
    return list(dict.fromkeys(found)) if all(found) else []


def rounds_of(crate, edits):
    """Returns lists of edits with their functions, which are distinct within each; an edit of anything else is a list by itself."""

    def fits(others, edit, functions):
        is_apart = functions and all(mine and not {*functions} & {*mine} for _, mine in others)
        return is_apart and edit_files.planted(crate.folder, [*(it for it, _ in others), edit])[0]

    rounds = []
    for edit in edits:
        functions = functions_of(crate, edit)
        others = next((it for it in rounds if fits(it, edit, functions)), None)
        if others is None:
            rounds.append([])
        (rounds[-1] if others is None else others).append((edit, functions))
    return rounds


def is_within(name, function):
    """Tells whether a name of a check is this function's or that of a closure in it."""
    return f"::{function}::" in f"::{name}::".replace("::fn::", "::")


def waits(told, function):
    """Tells whether a function calls another one that has no proof in this check: what is told of it then need not come of its own edit."""
    names = [name for it in told for name in re.findall("`([^`]+)`", "".join(CALLS.findall(it)))]
    return any(not is_within(it, function) for it in names)


def lines_of(said):
    """Returns what a check says as lines: one that begins with two spaces belongs to the line before it."""
    return re.sub(r"\n {2,}", " ", said).split("\n")


def about(goal):
    """Returns what a goal's name says of its kind, without the names of the code, and the clause that it is of, if it tells it."""
    parts, _, clause = re.sub(r"(?:-\d+)+\Z", "", goal).partition("-clause-")
    words = parts.split("-")
    return words[-1] if words[-1] in ENDS else words[0], clause


def may_be_one(answer, goal):
    """Tells whether an answer without a goal may be for this open one, which an edit gave another name: they are of one kind, or it is a loop's invariant."""
    (kind, clause), (other, of_other) = about(answer), about(goal)
    return kind in ("invariant", "decreases") or not goal or kind == other and (clause == of_other or not clause or not of_other)


def folder_of(crate, function):
    """Returns a pattern of the folder below proofs/ of a function, or of the cycle of calls that has its name."""
    *path, name = re.sub(rf"\A{crate.name}::", "", function).split("::")
    # (a function of a type is told without its module)
    return ("" if function.startswith(f"{crate.name}::") else r"(?:\S+/)?") + "".join(f"{re.escape(it)}/" for it in path) + rf"\+?{re.escape(name)}"


def judged(crate, said, function):
    """Returns whether a check's words mean that an edit in a function was refused, and why; None if nothing is told of it or of its closures, or it waits."""
    told, own, block, lines = [], [], [], lines_of(said)
    errors = [line for line in lines if re.match(rf"(?:\./)?proofs/{folder_of(crate, function)}/\S+: error", line)]
    gone = [found[1] for found in map(GONE.search, errors) if found]
    for line in lines:
        found = re.match(r"fn (\S+): (.*)", line)
        if found and is_within(found[1], function):
            told.append(found[2])
            goals = [it for it in map(OPEN.match, block) if it]
            own += [it.string for it in goals if not any(may_be_one(answer, it[1] or "") for answer in gone)]
        block = [] if found else [*block, line]
    own += [line for line in errors if not NAMES.search(line)]
    if told and all(it.startswith("proved") for it in told):
        return False, "NOT REFUSED: its function is still proved with this edit"
    # (one that calls another edited one of its round is tried by itself, whatever is told of it)
    if waits(told, function):
        return None
    if told and all(it.startswith("could not tell") for it in told):
        return True, "refused, as it must be (only by a limit of the prover, which gave no verdict)"
    if own:
        return True, f"refused, as it must be: {own[0][:160]}"
    if not told or any("it calls" in it for it in told):
        return None
    return True, f"refused, as it must be (only since a proof names what it takes away: change a value and keep the names): {(errors or told)[0][:160]}"


def try_round(crate, edits, seed):
    """Returns what each of these edits came to: by one check together; if that tells nothing of one, by itself, at last by a check of the crate."""
    functions = [it for _, mine in edits for it in mine]
    texts = edit_files.planted(crate.folder, [edit for edit, _ in edits])[0] if functions else {}
    said, results = crate.check(texts, functions, seed).stdout if texts else "", []
    for edit, mine in edits:
        told = [judged(crate, said, it) for it in mine]
        # (of an edit in several functions the one refusal that is not "only" for its names or a limit, if there is one)
        refused = min((it for it in told if it and it[0]), key=lambda it: "(only " in it[1], default=None)
        best = refused or (told[0] if told and all(told) else None)
        if best:
            results.append((best[0], f"must-fail {crate.name}/{os.path.basename(edit)}: {best[1]}"))
        elif len(edits) > 1:
            results += try_round(crate, [(edit, mine)], seed)
        else:
            results.append(crate.alone(edit, seed))
    return results


def try_all(crate, room, edits):
    """Tries the edits, round by round, and returns the lines of those that were not refused."""
    rounds, lost = rounds_of(crate, edits), []
    every = [mine for of_round in rounds for _, mine in of_round]
    functions = list(dict.fromkeys(it for mine in every for it in mine)) if all(every) else []
    control = crate.check({}, functions, f"{room}/seed")
    if control.returncode:
        return [f"{crate.name}: NOT TRIED: without edits its check ended with status {control.returncode}:\n{control.stdout}"]
    print(f"{crate.name}: {len(functions) or 'all'} functions are proved without edits", flush=True)
    for number, of_round in enumerate(rounds):
        crate.copied(f"{room}/seed", f"{room}/{number}")
        for is_refused, line in try_round(crate, of_round, f"{room}/{number}"):
            print(line, flush=True)
            lost += [line] * (not is_refused)
    return lost


def try_together(name, edits):
    """Tries the crate's edits in a copy in which the gate builds the libraries below it, and returns the lines of those that were not refused."""
    below = edit_files.crates_below()[name]
    room = edit_files.copy_of(below)
    try:
        how = {"cwd": room, "stdin": subprocess.DEVNULL, "stdout": subprocess.PIPE, "stderr": subprocess.STDOUT, "text": True}
        ran = subprocess.run(["rt", "ci"] if below else ["true"], **how)
        if ran.returncode:
            return [f"{name}: NOT TRIED: the crates below it are not proved:\n{ran.stdout[-3000:]}"]
        edit_files.add_crate(room, name)
        return try_all(gate_tool.Tried(room, name), room, edits)
    finally:
        shutil.rmtree(room, ignore_errors=True)
