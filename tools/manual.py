"""The pages of man/, made of the tables of docs/profile/, of docs/answers.json, and for the server of docs/OPERATORS.md."""
import re
import textwrap

from tools import answers, helps
from tools.pages import codes_in, plain, tables_of

# The width of a line of a page's source.
WIDTH = 78

SECTION_NAMES = {1: "User commands", 5: "File formats", 8: "System administration"}

SOURCES = "docs/profile/ or docs/answers.json"


def pages():
    return {
        "man/anki.1": page("anki", 1, "keeps a learner's collection, by proved code", of_anki()),
        "man/anki-desk.5": page("anki-desk", 5, "the lines of a desk", of_desk()),
        "man/anki-lab.5": page("anki-lab", 5, "the lines of a lab", of_lab()),
        "man/ankid.8": page("ankid", 8, "serves the collections of accounts to their devices, by proved code", of_ankid(), "docs/OPERATORS.md or the head of bin/ankid"),
    }


def page(name, section, about, lines, sources=SOURCES):
    """A page of a name and a section, in the macros of man(7)."""
    head = [
        '.\\" Made by tools/make_pages.py: change %s, and make it anew.' % sources,
        '.TH %s %d "%s" "anki %s" "%s"' % (name.upper(), section, helps.version_day(), helps.version_number(), SECTION_NAMES[section]),
        ".SH NAME",
        "%s \\- %s" % (escaped(name), escaped(about)),
    ]
    return "\n".join(head + list(lines)) + "\n"


def escaped(text):
    """A text in which roff sees no command: each hyphen stays one, as a word that can be copied needs it."""
    text = text.replace("\\", "\\e").replace("-", "\\-").replace("'", "\\(aq").replace("`", "\\(ga").replace("^", "\\(ha").replace("~", "\\(ti").replace('"', "\\(dq")
    text = "".join(char if ord(char) < 128 else "\\[u%04X]" % ord(char) for char in text)
    return "\\&" + text if text[:1] in (".",) else text


def paragraph(text):
    """A text in short lines, each sentence beginning with a line of its own."""
    lines = [line for sentence in sentences(text) for line in textwrap.wrap(escaped(sentence), WIDTH, break_long_words=False, break_on_hyphens=False)]
    return ["\\&" + line if line[:1] in (".", "'") else line for line in lines]


def sentences(text):
    """A text with each sentence on a line of its own, as roff wants it."""
    return re.split(r"(?<=[.:?])\s+(?=[A-Z])", " ".join(text.split()))


def code(lines):
    return [".RS 4", ".nf", *[escaped(line) for line in lines], ".fi", ".RE"]


def about_pages():
    """The variable by which the scripts ask for pages of 2 MB."""
    yield ".TP"
    yield ".B GLIBC_TUNABLES"
    yield from paragraph("How the C library takes memory. Where it is not set, it is set to glibc.malloc.hugetlb=1: pages of 2 MB, where the system has them.")


def listed(entries):
    """Entries of help: each form in bold, what it does, and its examples."""
    for entry in entries:
        forms = [".B %s" % escaped(form) for form in entry.forms]
        yield ".TP"
        yield forms[0]
        for form in forms[1:]:
            yield ".TQ"
            yield form
        yield from paragraph(entry.what)
        if entry.example:
            yield ".RS"
            yield ".nf"
            yield from map(escaped, entry.example)
            yield ".fi"
            yield ".RE"


def of_anki():
    yield ".SH SYNOPSIS"
    for entry in helps.commands():
        if entry.example:
            yield ".B %s" % escaped(entry.forms[0])
            yield ".br"
    yield ".B anki"
    yield escaped("backup | restore | doctor | show | help | --help | --version ...")
    yield ".SH DESCRIPTION"
    yield from paragraph("The program anki keeps a collection of notes, cards and reviews in a file, and schedules, finds, edits and undoes. It is proved to do so as its documents say. The file is named first; - is an empty collection in memory that ends with the program, and journal:PATH is a journal, of which docs/FILES.md tells. The second word is the server, as HOST:PORT; - is none.")
    yield ".SS Commands"
    yield from listed([it for it in helps.commands() if it.example])
    yield ".SS Words beside the program"
    yield from paragraph("If the second word is - or has the form host:port, all words go to the program. Else these words are done beside it:")
    yield from listed(helps.script_words())
    yield ".SH NOTES AS CSV"
    yield from paragraph("A record that import reads and export writes is a guid, the tags with one space between, and a column for each field of the note type. There is no header line. An import prints one line: its counts, or line <n>: and one of the other texts, with the number of the record.")
    yield from told_under("Answers of an import", "Refused records of an import")
    yield from paragraph("A record whose note can't be added or updated is refused by a text of anki-desk(5).")
    yield ".SH EXIT STATUS"
    told = answers.read_answers()
    for number in sorted({it["status"] for it in told["statuses"]}):
        yield ".TP"
        yield ".B %d" % number
        for it in [it for it in told["statuses"] if it["status"] == number]:
            yield from paragraph(plain("%s%s; %s. To do: %s." % (it["what"][:1].upper(), it["what"][1:], it["safe"], it["do"])))
    yield ".SH ENVIRONMENT"
    yield ".TP"
    yield ".B ANKI_QUIET"
    yield from paragraph("With the value 1 nothing is said on standard error after a run. Else a run that ends with another status than 0 leaves one sentence there.")
    yield ".TP"
    yield ".B ANKI_PROGRAM"
    yield from paragraph("The path of the program, for the words beside it, in place of the one that is found.")
    yield from about_pages()
    yield ".SH FILES"
    yield ".TP"
    yield ".IR FILE ,"
    yield ".I FILE\\-wal"
    yield from paragraph("The two files of a collection. They belong together: after a kill the second may hold what was printed last. A run that ends in order leaves all of it in the first.")
    yield ".TP"
    yield ".IR PATH ,"
    yield escaped("named as journal:PATH")
    yield from paragraph("The one file of a collection that is kept in a journal. It grows with each commit. What is no journal is refused: a file whose first byte is above 1.")
    yield ".SH EXAMPLES"
    yield from code(["anki my.anki - init", "anki my.anki - desk < first-session.desk", "anki backup my.anki my-monday.anki"])
    yield ".SH SEE ALSO"
    yield ".BR anki\\-desk (5),"
    yield ".BR anki\\-lab (5),"
    yield ".BR ankid (8),"
    yield ".BR sqlite3 (1)"


def of_desk():
    yield ".SH DESCRIPTION"
    yield from paragraph("The command desk of anki reads lines from standard input, and prints an answer to each. An empty line and one that begins with # are skipped. A line ends with LF alone. A refused line ends the run with status 3 and line <n>: <text>; what the lines before it did stays.")
    yield ".SH LINES"
    yield from listed(helps.desk_lines())
    yield ".SH ANSWERS"
    yield from told_under("Answers of the desk", "Answers of a check")
    yield ".SH REFUSALS"
    yield from told_under("Refused lines of any input", "Refused lines of the desk")
    yield ".SH SEE ALSO"
    yield ".BR anki (1),"
    yield ".BR anki\\-lab (5)"


def of_lab():
    yield ".SH DESCRIPTION"
    yield from paragraph("The command lab of anki reads a script from standard input: one server and up to 16 devices, in memory. An empty line and one that begins with # are skipped. A refused line ends the script with status 3 and line <n>: <text>.")
    yield ".SH LINES"
    for entry, prints in zip(helps.lab_lines(), helps.lab_prints()):
        entry.what = "%s; prints: %s" % (entry.what, prints)
        entry.example = []
        yield from listed([entry])
    yield ".SH ANSWERS"
    yield from told_under("Answers of a lab", "How a sync ends")
    yield ".SH REFUSALS"
    yield from told_under("Refused lines of any input", "Refused lines of a lab")
    yield from paragraph("A line after do is refused by the texts of anki\\-desk(5).".replace("\\-", "-"))
    yield ".SH EXAMPLES"
    yield from code(helps.lab_examples()[0])
    yield ".SH SEE ALSO"
    yield ".BR anki (1),"
    yield ".BR anki\\-desk (5)"


def of_ankid():
    yield ".SH SYNOPSIS"
    for place, entry in enumerate(helps.server_words()):
        if place > 0:
            yield ".br"
        yield ".B %s" % escaped(entry.forms[0])
    yield ".SH DESCRIPTION"
    yield from paragraph("The program ankid keeps the collections of accounts, each in a file, and serves their syncs over HTTP, until it is ended. It is proved to do so as its documents say. It prints nothing but usage, where its words are not those below. It has no TLS, and listens best at the loopback, behind a server that has.")
    yield ".SS Commands"
    yield from listed(helps.server_words())
    yield ".SH OPTIONS"
    yield from listed(helps.server_options())
    yield ".SH ACCOUNTS AND KEYS"
    lines, items = helps.server_accounts()
    yield from paragraph("The accounts' file is TOML:")
    yield from code(lines)
    for item in items:
        yield ".IP \\(bu 2"
        yield from paragraph(installed(item))
    yield ".SH EXIT STATUS"
    for end in helps.server_ends():
        yield ".TP"
        yield ".B %s" % escaped(end.status)
        yield from paragraph(installed("%s%s; %s. To do: %s." % (end.what[:1].upper(), end.what[1:], end.safe, end.todo)))
    for it in [it for it in answers.read_answers()["statuses"] if it["status"] >= 100]:
        yield ".TP"
        yield ".B %d" % it["status"]
        yield from paragraph(plain("%s%s; %s. To do: %s." % (it["what"][:1].upper(), it["what"][1:], it["safe"], it["do"])))
    yield ".PP"
    yield from paragraph("The word new-account ends with 2 if it refuses its words, and with 1 if the system gave no key.")
    yield ".SH ENVIRONMENT"
    yield ".TP"
    yield ".B ANKI_QUIET"
    yield from paragraph("With the value 1 nothing is said on standard error when it ends. Else one sentence is left there.")
    yield from about_pages()
    yield ".SH EXAMPLES"
    yield from code(map(installed, helps.server_start()))
    yield ".SH SEE ALSO"
    yield ".BR anki (1)"
    yield ".PP"
    yield from paragraph("The page docs/OPERATORS.md, under share/anki where it is installed, tells of devices, TLS, systemd, logs, backup and restore, and limits.")


def installed(text):
    """A text of a document, with the commands as they are called where they are installed."""
    return re.sub(r"\bbin/(ankid?)\b", r"\1", text)


def told_under(*groups):
    """What docs/answers.json tells of the texts of these groups."""
    for it in answers.texts_under(answers.read_answers(), *groups):
        yield ".TP"
        yield ".B %s" % escaped(it["text"])
        yield from paragraph(plain("%s%s.%s" % (it["why"][:1].upper(), it["why"][1:], "" if it["do"] == "nothing" else " To do: %s." % it["do"])))
