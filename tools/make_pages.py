"""Makes what is made of the tables of docs/profile/ and docs/OPERATORS.md and of docs/answers.json: docs/ANSWERS.md, the pages of man/ and the words of completion/.

    python3 tools/make_pages.py            makes them anew
    python3 tools/make_pages.py --check    fails if one of them is stale
"""
import os
import re
import sys

sys.dont_write_bytecode = True
sys.path.insert(0, os.path.dirname(os.path.dirname(os.path.realpath(__file__))))

from tools import answers, completions, helps, manual  # noqa: E402
from tools.pages import TOP  # noqa: E402


def answers_page():
    """docs/ANSWERS.md."""
    told = answers.read_answers()
    yield "# Answers"
    yield ""
    yield "What `anki` prints and how it ends: why, what is lost, what to do. This page is made of `answers.json` by `tools/make_pages.py`, and so is the sentence that"
    yield "`bin/anki` leaves on standard error after a run that ends with another status than 0. A word in angle brackets stands for what is printed in its place."
    yield "At the end of the statuses stand those of the server `ankid`, which are made of [its page](OPERATORS.md)."
    yield ""
    yield "## Statuses"
    yield ""
    yield "| status | of | what happened | what is lost | what to do |"
    yield "|---|---|---|---|---|"
    for it in told["statuses"]:
        yield row(str(it["status"]), ON.get(it.get("on"), ""), it["what"], "nothing: " + it["safe"], it["do"])
    yield row("ended by a signal", "", told["signals"]["what"], "nothing: " + told["signals"]["safe"], told["signals"]["do"])
    yield ""
    yield "Where the work is in memory alone (`-` as the file, a lab, and `make`) nothing of it is kept after any end."
    yield ""
    yield "## Statuses of ankid"
    yield ""
    yield "| status | what happened | what is lost | what to do |"
    yield "|---|---|---|---|"
    for end in helps.server_ends():
        yield row("ended by a signal" if end.status == "signal" else end.status, end.what, "nothing: " + end.safe, end.todo)
    yield ""
    yield "`bin/ankid` ends with 100 and 101 as `bin/anki` does."
    for it in told["texts"]:
        if "group" in it:
            yield ""
            yield "## " + it["group"]
            yield ""
            yield "Of: %s." % it["on"]
            yield ""
            yield "| printed | why | what is lost | what to do |"
            yield "|---|---|---|---|"
        else:
            yield row("`%s`" % it["text"], it["why"], it["lost"], it["do"])


ON = {"desk": "a refused line of `desk`", "lab": "a refused line of `lab`", "import": "a refused record of `import`", "init": "`init`", "make": "`make`", "none": "`desk`, `sync`, `upload`, `download`, `import`, `export`"}


def row(*cells):
    return "| " + " | ".join(cell.replace("|", "\\|") for cell in cells) + " |"


def made():
    """Each made file with its text."""
    files = {"docs/ANSWERS.md": "\n".join(answers_page()) + "\n"}
    files.update(manual.pages())
    files.update(completions.scripts())
    return files


def main(words):
    stale = []
    for name, text in made().items():
        path = os.path.join(TOP, name)
        old = None
        if os.path.exists(path):
            with open(path, encoding="utf-8") as file:
                old = file.read()
        if old == text:
            continue
        stale.append(name)
        if words != ["--check"]:
            os.makedirs(os.path.dirname(path), exist_ok=True)
            with open(path, "w", encoding="utf-8", newline="\n") as file:
                file.write(text)
    if words == ["--check"] and stale:
        print("stale, make them anew by tools/make_pages.py: %s" % ", ".join(stale), file=sys.stderr)
        return 1
    return 0


if __name__ == "__main__":
    if sys.argv[1:] not in ([], ["--check"]):
        print(__doc__, file=sys.stderr)
        sys.exit(2)
    sys.exit(main(sys.argv[1:]))
