"""`help [TOPIC]`, `--help` and `--version`. What help prints stands in the tables of docs/profile/, and nowhere else."""
import os
import re
import shutil
import subprocess
import textwrap

from tools import answers, files
from tools.pages import TOP, blocks_under, codes_in, items_under, plain, table_under, tables_of

WIDTH, INDENT = 100, "    "


class Entry:
    """A row of a table for help: its forms, what it does, and an example."""

    def __init__(self, forms, what, example):
        self.forms, self.what, self.example = forms, what, example


def entries_of(table):
    """The entries of a table of three columns: forms, what is done, an example or what is printed."""
    return [Entry(codes_in(row[0]) or [plain(row[0])], plain(row[1]), codes_in(row[2]) if len(row) > 2 else []) for row in table.rows]


def commands():
    """The commands of the program."""
    return entries_of(table_under("profile/ends.md", "The program", "words"))


def script_words():
    """The words that bin/anki does itself."""
    return entries_of(table_under("profile/words.md", "The words of bin/anki", "words"))


def desk_lines():
    return entries_of(table_under("profile/desk.md", "The desk's lines", "line"))


def lab_lines():
    return entries_of(table_under("profile/lab.md", "The lab", "line"))


def lab_prints():
    """What each line of a lab prints."""
    return [plain(row[2]) for row in table_under("profile/lab.md", "The lab", "line").rows]


def lab_examples():
    """Scripts, each a list of lines."""
    return [codes_in(row[0]) for row in table_under("profile/lab.md", "Examples", "script").rows]


def server_words():
    """The forms of the words of bin/ankid, and what each does: the lines of its head."""
    with open(os.path.join(TOP, "bin", "ankid"), encoding="utf-8") as text:
        head = re.match(r"(?:#.*\n)*", text.read()).group()
    return [Entry([form], what, []) for form, what in re.findall(r"^# +bin/(ankid .*\S) {2,}(\S.*)$", head, re.MULTILINE)]


def server_options():
    """The words that the program ankid takes."""
    return entries_of(table_under("OPERATORS.md", "In short", "word"))


class End:
    """How a run of ankid ends: its status, or `signal`; what happened, what is safe, what to do."""

    def __init__(self, status, what, safe, todo):
        self.status, self.what, self.safe, self.todo = status, what, safe, todo


def server_ends():
    return [End(*map(plain, row)) for row in table_under("OPERATORS.md", "In short", "status").rows]


def server_start():
    """The lines that start a server."""
    return blocks_under("OPERATORS.md", "In short")[0]


def server_accounts():
    """The lines of an account, and what holds of accounts and keys."""
    return blocks_under("OPERATORS.md", "Accounts and keys")[0], [plain(item) for item in items_under("OPERATORS.md", "Accounts and keys")]


def verbs_of(entries):
    """The first words of the lines, each once."""
    return list(dict.fromkeys(form.split(" ")[0] for entry in entries for form in entry.forms))


def wrapped(text, indent=INDENT):
    return textwrap.wrap(text, width(), initial_indent=indent, subsequent_indent=indent, break_long_words=False, break_on_hyphens=False) or [indent]


def width():
    return min(WIDTH, shutil.get_terminal_size((WIDTH, 24)).columns)


def listed(entries):
    """The lines for entries: the forms, what they do, and examples as they can be typed."""
    for entry in entries:
        yield from entry.forms
        yield from wrapped(entry.what)
        for example in entry.example:
            yield INDENT + "> " + example


def help_of(topic):
    known = {"": of_commands, "desk": of_desk, "lab": of_lab, "import": of_import, "sync": of_sync, "answers": of_answers}
    if topic not in known:
        raise files.Refused("there is no help on %s; there is on %s" % (topic, ", ".join(it for it in known if it)))
    return known[topic]()


def of_commands():
    yield "anki %s: a learner's collection, kept by proved code." % version_number()
    yield ""
    yield "The program (<file> is a collection's file, journal:PATH for one in a journal, or - for an empty one in memory):"
    yield ""
    yield from listed([it for it in commands() if it.example])
    yield ""
    yield "Words of bin/anki:"
    yield ""
    yield from listed(script_words())
    yield ""
    yield "bin/anki help desk has the lines that a learner types; docs/FILES.md tells of copies and crashes."


def of_desk():
    yield "Lines of a desk: bin/anki FILE - desk reads them from standard input. An empty line and one that begins with # are skipped."
    yield "bin/anki show FILE decks (types, options, notes) prints the ids."
    yield ""
    yield from listed(desk_lines())
    yield ""
    yield "A refused line ends the run with `line <n>: <text>`; bin/anki help answers has each text."


def of_lab():
    yield "Lines of a lab: bin/anki - - lab reads a script from standard input. An empty line and one that begins with # are skipped."
    yield ""
    for entry, prints in zip(lab_lines(), lab_prints()):
        yield from entry.forms
        yield from wrapped("%s; prints: %s" % (entry.what, prints))
    yield ""
    yield "Scripts, line by line:"
    for lines in lab_examples():
        yield INDENT + "> printf '%s\\n' " + " ".join("'%s'" % line for line in lines) + " | bin/anki - - lab"
    yield INDENT + "> bin/anki - - lab < examples/first-sync.lab"


def csv_lines(heading):
    """What the page on CSV says under a heading: an example, and points."""
    return [line for block in blocks_under("profile/csv.md", heading) for line in block], [plain(item) for item in items_under("profile/csv.md", heading)]


def of_import():
    yield "Notes as CSV: bin/anki FILE - import TYPE DECK reads records from standard input, bin/anki FILE - export TYPE writes them."
    yield "A record is a guid, the tags with one space between, and a column for each field of the note type. There is no header line."
    for heading in ("The form", "What an import does"):
        example, points = csv_lines(heading)
        yield ""
        yield heading + ":"
        yield from (INDENT + "> " + line for line in example)
        for point in points:
            yield from wrapped(point)
    yield ""
    yield "What is printed, and what is to be done then:"
    for it in answers.texts_under(answers.read_answers(), "Answers of an import", "Refused records of an import"):
        yield it["text"]
        yield from wrapped(plain("%s%s" % (it["why"], "" if it["do"].startswith("nothing") else ". To do: %s." % it["do"])))
    yield ""
    yield "bin/from-anki-text makes such files of a text that Anki exported; docs/profile/csv.md tells more."


def of_sync():
    yield "How a sync ends (bin/anki FILE SERVER sync KEY), and what is to be done then:"
    yield ""
    ends = next(it for it in tables_of("profile/outcomes.md") if it.head[:1] == ["printed"])
    told = answers.read_answers()
    for printed, status, when in ends.rows:
        text = codes_in(printed)[0]
        yield "%s (status %s)" % (text, status)
        yield from wrapped(plain(when))
        found = answers.text_told(told, text)
        yield from wrapped("To do: %s." % answers.plain(found["do"])) if found else ()
    yield ""
    yield from (INDENT + "> " + example for entry in commands() for example in entry.example if " sync " in example)


def of_answers():
    told = answers.read_answers()
    for it in told["texts"]:
        if "group" in it:
            yield ""
            yield "%s (%s):" % (it["group"], it["on"])
            continue
        yield it["text"]
        yield from wrapped(answers.plain(it["why"]))
        if it["do"] != "nothing":
            yield from wrapped("To do: %s." % answers.plain(it["do"]))


def version_number():
    with open(os.path.join(TOP, "VERSION"), encoding="utf-8") as text:
        return text.read().strip()


def version_day():
    """The day of the newest version in CHANGELOG.md."""
    with open(os.path.join(TOP, "CHANGELOG.md"), encoding="utf-8") as text:
        return re.search(r"^## %s \((\d{4}-\d\d-\d\d)\)$" % re.escape(version_number()), text.read(), re.MULTILINE).group(1)


def version():
    """The version, the sum of the sources, and whether the program that would run is the one in dist/."""
    yield "anki %s" % version_number()
    script = os.path.join(TOP, "bin", "program.sh")
    if not os.path.exists(script) or not os.path.isdir(os.path.join(TOP, "crates")):
        yield "sources: not here; the program in dist/ is of those with the sum %s" % (told_of_shipped("sources") or "(not told)")
        return
    total = asked('sum_of_sources "$root"')
    yield "sources: %s" % total
    if asked('is_shipped "%s" && echo yes' % total) == "yes":
        yield "program: dist/anki, which is of these sources"
    elif os.access(os.path.join(TOP, "out", "anki-" + total), os.X_OK):
        yield "program: out/anki-%s, built here of these sources" % total
    else:
        yield "program: none of these sources yet; the first run proves and builds it"


def told_of_shipped(key):
    try:
        with open(os.path.join(TOP, "dist", "anki.txt"), encoding="utf-8") as text:
            return next((line.split(": ", 1)[1].strip() for line in text if line.startswith(key + ": ")), None)
    except OSError:
        return None


def asked(command):
    """What a command of bin/program.sh prints."""
    words = ["sh", "-c", 'root=$1; program=anki; . "$root/bin/program.sh"; ' + command, "sh", TOP]
    return subprocess.run(words, stdin=subprocess.DEVNULL, stdout=subprocess.PIPE, stderr=subprocess.DEVNULL).stdout.decode().strip()
