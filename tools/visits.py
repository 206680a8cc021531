"""`doctor FILE`: what is wrong with a collection's file, or that it opens, and what it holds."""
import os
import subprocess

from front import program as programs
from front.collection import open_collection
from front.names import journal_path
from tools import answers, doctor, files, journal_doctor


def visit(path):
    """Whether the program refuses the file, and the lines to print."""
    found = doctor.findings_of(path)
    if found:
        lines = ["%s is refused:" % path]
        for finding in found:
            lines += ["- %s." % finding.what, "  To do: %s." % finding.remedy]
        return True, lines
    lines = ["%s opens." % path]
    if journal_path(path) is not None:
        return False, lines + visit_journal(path)
    if files.commits_in(files.real(path) + "-wal"):
        lines.append("Commits stand in %s-wal that are not in the file itself yet: a run was killed. Nothing is lost; keep the two together. The next run brings them in." % files.real(path))
    full = doctor.of_disk(path)
    if full:
        lines.append("But %s, so a run that changes anything ends with status 6. To do: %s." % (full.what, full.remedy))
    with files.scratch_copy(path) as copy:
        done = subprocess.run(programs.words_for(files.program_path(), copy, "desk"), input=b"check\n", stdout=subprocess.PIPE)
        printed = done.stdout.decode("utf-8", "replace").rstrip("\n")
        if printed == "no collection":
            return False, lines + ["It holds no collection yet: `bin/anki %s - init` makes one." % path]
        with open_collection(copy) as collection:
            lines.append("It holds %d notes, %d cards, %d reviews, %d note types, %d decks." % (
                collection.count("notes"), collection.count("cards"), collection.count("revlog"), len(collection.types()), len(collection.decks())))
    return False, lines + [check_told(printed)]


def check_told(printed):
    """What a check of the collection printed, as a sentence."""
    if printed == "sound":
        return "It is sound."
    told = answers.text_told(answers.read_answers(), printed) or {"why": "", "do": ""}
    return "It is not sound: %s. To do: %s." % (printed, told["do"])


def visit_journal(name):
    """What is told of a journal that opens."""
    path = journal_path(name)
    full = doctor.of_disk(path)
    lines = ["But %s, so a run that changes anything ends with status 6. To do: %s." % (full.what, full.remedy)] if full else []
    _, printed = journal_doctor.asked(path, b"check\n")
    if printed == "no collection":
        return lines + ["It holds no collection yet: `bin/anki %s - init` makes one." % name]
    return lines + ["It is a journal of %d bytes." % os.path.getsize(path), check_told(printed)]
