"""The words of bin/anki that are no commands of the program: anki_words.py WORD...

    backup FILE COPY, restore COPY FILE, doctor FILE, show FILE TABLE [SEARCH], help [TOPIC], --help, --version

The environment variable ANKI_PROGRAM names the program; without it `bin/anki --program` is asked. Status 0: done. 2: the words are
none of these. 3: refused, and nothing was changed. 6: of `doctor`, the program refuses the file.
"""
import os
import sys

sys.dont_write_bytecode = True
sys.path.insert(0, os.path.dirname(os.path.dirname(os.path.realpath(__file__))))

DONE, USAGE, REFUSED, FILE_REFUSED = 0, 2, 3, 6


def backup(path, copy):
    from tools import backups

    return DONE, backups.backup(path, copy)


def restore(copy, path):
    from tools import backups

    return DONE, backups.restore(copy, path)


def doctor(path):
    from tools import visits

    is_refused, lines = visits.visit(path)
    return (FILE_REFUSED if is_refused else DONE), lines


def show(path, table, *search):
    from tools import shows

    return DONE, shows.show(path, table, search)


def help_of(*topic):
    from tools import helps

    return DONE, helps.help_of(" ".join(topic))


def version():
    from tools import helps

    return DONE, helps.version()


# Each word with the call that it makes, and how many words come after it.
WORDS = {
    "backup": (backup, 2, 2, "FILE COPY"),
    "restore": (restore, 2, 2, "COPY FILE"),
    "doctor": (doctor, 1, 1, "FILE"),
    "show": (show, 2, 1000, "FILE decks|types|options|notes [SEARCH]"),
    "help": (help_of, 0, 1, "[TOPIC]"),
    "--help": (help_of, 0, 0, ""),
    "--version": (version, 0, 0, ""),
}


def say(text):
    print("anki: %s" % text, file=sys.stderr)


def main(words):
    if not words or words[0] not in WORDS:
        say("there is no word %s; %s" % (words[:1], ", ".join(WORDS)))
        return USAGE
    call, least, most, form = WORDS[words[0]]
    if not least <= len(words) - 1 <= most:
        say("%s takes %s" % (words[0], form or "no more words"))
        return USAGE
    from tools.files import Refused

    try:
        status, lines = call(*words[1:])
        for line in lines:
            print(line)
        sys.stdout.flush()
        return status
    except Refused as fault:
        say(fault)
        return REFUSED


if __name__ == "__main__":
    sys.stdout.reconfigure(encoding="utf-8", errors="surrogateescape", newline="\n")
    sys.stderr.reconfigure(encoding="utf-8", errors="backslashreplace")
    try:
        sys.exit(main(sys.argv[1:]))
    except KeyboardInterrupt:
        say("stopped; what was there before is there")
        sys.exit(130)
    except BrokenPipeError:
        os.dup2(os.open(os.devnull, os.O_WRONLY), 1)
        sys.exit(5)
    except OSError as fault:
        say("the system refused: %s" % fault)
        sys.exit(REFUSED)
