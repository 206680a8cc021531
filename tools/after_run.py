"""What comes after a run: files that it should not have left are taken away, and one sentence says how it ended."""
import difflib
import os
import re
import signal
import shutil
import sqlite3
import tempfile

from front.names import JOURNAL
from tools import answers, doctor, files, journal_doctor

# How much of the output's end is read for the refused line, and how large an input may be to be looked through for it, in bytes.
LONGEST_REFUSAL, LARGEST_INPUT = 4096, 64 << 20

# How much of the input is looked through for CR LF, in bytes, and how much of a line is quoted, in characters.
HEAD_OF_INPUT, LONGEST_QUOTE = 1 << 16, 60

# An empty collection's file is no larger, in bytes.
LARGEST_EMPTY = 1 << 16


def take_back(run, words, status):
    """Takes away the files that this run made and that hold nothing: a file where none was, an empty log beside a file that was refused."""
    if words[:1] == ["-"] or not run.file:
        return
    if run.is_journal:
        take_back_journal(run)
        return
    path = files.real(run.file)
    if not run.had_file and holds_nothing(path):
        remove_held(path, lambda: holds_nothing(path), [path + "-wal", path])
    elif not run.had_log and os.path.lexists(path + "-wal") and files.log_size(path) == 0:
        remove_held(path, lambda: files.log_size(path) == 0, [path + "-wal"])


def take_back_journal(run):
    """Takes away a journal that this run made and that holds no commit."""
    path = files.real(run.path)
    try:
        if not run.had_file and files.is_regular(path):
            with journal_doctor.held(path):
                if not journal_doctor.has_frame(path):
                    os.remove(path)
    except OSError:
        pass


def holds_nothing(path):
    """Whether a file that the program made has no row in any table."""
    if not files.is_regular(path) or os.path.getsize(path) > LARGEST_EMPTY or not files.is_at_rest(path):
        return False
    if os.path.getsize(path) == 0:
        return True
    with tempfile.TemporaryDirectory(prefix="anki-") as folder:
        copy = os.path.join(folder, "collection")
        shutil.copyfile(path, copy)
        connection = sqlite3.connect(copy)
        try:
            names = [row[0] for row in connection.execute("select name from sqlite_master where type = 'table'")]
            return all(connection.execute('select count(*) from "%s"' % name).fetchone()[0] == 0 for name in names)
        except sqlite3.Error:
            return False
        finally:
            connection.close()


def remove_held(path, is_still_so, names):
    """Removes files while nobody else can have the collection open."""
    try:
        with files.held(path):
            if is_still_so():
                for name in names:
                    if os.path.lexists(name):
                        os.remove(name)
    except (files.Refused, OSError):
        pass


def sentence_of(run, status):
    """What a run says of its end; nothing after status 0."""
    told = answers.read_answers()
    if os.WIFSIGNALED(status):
        name = signal.Signals(os.WTERMSIG(status)).name if os.WTERMSIG(status) in set(signal.Signals) else "signal %d" % os.WTERMSIG(status)
        end = told["signals"]
        if run.command == "desk" and run.file != "-":
            return joined(end["what"].replace("<signal>", name), end["safe"], end["again" if run.is_journal else "do"])
        return joined(end["what"].replace("<signal>", name), end["again"])
    number = os.WEXITSTATUS(status)
    if number == 0:
        return None
    if number == 3:
        return refused_sentence(run, told)
    if number == 6:
        return file_sentence(run, told)
    end = answers.status_told(told, number, run.command)
    if end is None:
        return "the program ended with status %d, of which docs/ANSWERS.md tells nothing" % number
    do = end["do"]
    if number in (4, 5, 8) and (run.file == "-" or run.command != "desk"):
        return joined(end["what"], safe_beside_a_desk(run, number, told), end.get("again", do))
    return joined(end["what"], end["safe"], do)


def safe_beside_a_desk(run, number, told):
    """What is kept after the statuses 4, 5 and 8, if the run was not one of a desk over a file."""
    if run.command in ("desk", "lab"):
        return "nothing is kept of what is in memory alone"
    if run.command == "import" and number == 4:
        return answers.status_told(told, 3, "import")["safe"]
    return ""


def joined(*clauses):
    return "; ".join(answers.plain(it).replace("`", "'") for it in clauses if it)


def refused_sentence(run, told):
    """After status 3: no collection, one that is held, or a line that was refused."""
    if run.command == "init":
        end = answers.status_told(told, 3, "init")
        return joined(end["what"].replace("the file", run.file), end["safe"], end["do"])
    if run.command != "lab" and not holds_collection(run):
        return no_collection_sentence(run, told)
    if run.command == "import":
        return refused_import_sentence(run, told)
    end = answers.status_told(told, 3, "lab" if run.command == "lab" else "desk")
    safe = end["safe"]
    if run.file == "-" and run.command == "desk":
        safe = "nothing is kept of what is in memory alone"
    number, text = refusal_printed(run)
    if number is None:
        return joined("a line was refused, and the last line of the output has its number and says why", safe, hint_of_lines(run) or end["do"])
    what = "line %d was refused (%s)" % (number, text)
    quote = line_of_input(run, number)
    if quote is not None:
        what = "line %d, %s, was refused (%s)" % (number, quote, text)
    found = answers.text_told(told, text)
    return joined(what, safe, hint_of_lines(run) or (found and found["do"]) or end["do"])


def refused_import_sentence(run, told):
    """After an import of which a record, or the whole input, was refused. A record is no line: it may have several, and empty ones are none."""
    end = answers.status_told(told, 3, "import")
    number, text = refusal_printed(run)
    if number is None:
        return joined("a record was refused, and the output has its number and says why", end["safe"], end["do"])
    own = {"texts": answers.texts_under(told, "Refused records of an import")}
    found = answers.text_told(own, text) or answers.text_told(told, text)
    what = "record %d was refused (%s)" % (number, text) if number else "the input was refused (%s)" % text
    return joined(what, end["safe"], found and found["do"] or end["do"])


def holds_collection(run):
    """Whether the run's file holds a collection, so that a refusal was one of a line."""
    if run.file == "-" or not run.had_file:
        return False
    if run.is_journal:
        return journal_doctor.has_frame(run.path)
    from front.collection import NotCollection, ReadFault, open_collection

    try:
        with open_collection(run.file) as collection:
            collection.raw()
        return True
    except NotCollection:
        return False
    except ReadFault:
        return True


def no_collection_sentence(run, told):
    end = answers.status_told(told, 3, "none")
    if run.file == "-":
        return joined("the file '-' is an empty collection in memory", "", "name a file, and make a collection in it by 'bin/anki FILE - init'")
    what = "%s holds no collection" % run.file if run.had_file else "there is no file %s" % run.path
    near = near_name(run) if not run.had_file else None
    do = "make one by 'bin/anki %s - init'" % run.file
    return joined(what, end["safe"], "did you mean %s?" % near if near else do)


def near_name(run):
    """A collection in the folder whose name is like that of a run's file."""
    folder, name = os.path.split(run.path)
    try:
        names = [it for it in os.listdir(folder or ".") if not it.endswith(files.BESIDE) and files.is_regular(os.path.join(folder, it))]
    except OSError:
        return None
    near = difflib.get_close_matches(name, names, 1)
    path = os.path.join(folder, near[0]) if near else None
    if path and run.is_journal:
        return JOURNAL + path if journal_doctor.has_frame(path) else None
    return path if path and doctor.begins_as_database(path) else None


def refusal_printed(run):
    """The number and the text of the refused line, read at the end of the output if that is a file."""
    if run.output is None:
        return None, None
    try:
        end = os.lseek(1, 0, os.SEEK_CUR)
        begin = max(run.output, end - LONGEST_REFUSAL)
        with open("/proc/self/fd/1", "rb") as output:
            output.seek(begin)
            printed = output.read(end - begin)
    except OSError:
        return None, None
    last = printed.decode("utf-8", "replace").rstrip("\n").split("\n")[-1]
    found = re.fullmatch(r"line (\d+): (.*)", last)
    return (int(found.group(1)), found.group(2)) if found else (None, None)


def line_of_input(run, number):
    """A line of the input in quotes, if the input is a file, else None."""
    if run.input is None:
        return None
    try:
        with open("/proc/self/fd/0", "rb") as lines:
            if os.fstat(lines.fileno()).st_size - run.input > LARGEST_INPUT:
                return None
            lines.seek(run.input)
            for _ in range(number - 1):
                lines.readline()
            line = lines.readline(4 * LONGEST_QUOTE).rstrip(b"\n").decode("utf-8", "replace")
    except OSError:
        return None
    text = line if len(line) <= LONGEST_QUOTE else line[:LONGEST_QUOTE] + "..."
    return "'%s'" % "".join(char if char.isprintable() else "\\x%02x" % ord(char) for char in text)


def hint_of_lines(run):
    """What to do about lines that end with CR LF, if the input is a file in which the first ones do."""
    if run.input is None:
        return None
    try:
        with open("/proc/self/fd/0", "rb") as lines:
            lines.seek(run.input)
            head = lines.read(HEAD_OF_INPUT)
    except OSError:
        return None
    if head.count(b"\r\n") * 2 <= head.count(b"\n"):
        return None
    return "the lines of the input end with CR LF, and may end with LF alone: make them so by \"tr -d '\\r'\", and run it again"


def file_sentence(run, told):
    """After status 6: what the doctor says."""
    end = answers.status_told(told, 6)
    try:
        full = doctor.of_disk(run.path)
        found = [full] if full else doctor.findings_of(run.file)
    except (files.Refused, OSError) as fault:
        return joined("%s was refused, or could not be written" % run.file, end["safe"], "%s; %s" % (fault, end["do"]))
    if not found:
        return joined("%s could not be written for a while, and now opens again" % run.file, end["safe"], "look what is held by 'bin/anki show', and go on from there")
    return joined("%s was refused: %s" % (run.file, found[0].what), end["safe"], found[0].remedy)
