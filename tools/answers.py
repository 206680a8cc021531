"""What docs/answers.json tells of each printed text and each status."""
import json
import re

from tools.pages import path_of


def read_answers():
    with open(path_of("answers.json"), encoding="utf-8") as text:
        return json.load(text)


def status_told(answers, status, on=None):
    """What is told of a status, of this kind if that is told by itself; None if nothing is."""
    found = [it for it in answers["statuses"] if it["status"] == status and it.get("on") in (None, on)]
    return max(found, key=lambda it: "on" in it, default=None)


def pattern_of(text):
    """A pattern that what is printed matches: `<status>` stands for a number or itself, any other `<..>` for anything."""
    parts = re.split(r"(<[^<>]*>)", text)
    return "".join(re.escape(part) if place % 2 == 0 else r"(\d+|<status>)" if part == "<status>" else "(.*)" for place, part in enumerate(parts))


def text_told(answers, printed):
    """What is told of a printed text; None if nothing is. Of several patterns the one with the most words of its own counts."""
    found = [it for it in answers["texts"] if "text" in it and re.fullmatch(pattern_of(it["text"]), printed, re.DOTALL)]
    return max(found, key=lambda it: len(re.sub(r"<[^<>]*>", "", it["text"])), default=None)


def texts_under(answers, *groups):
    """What is told of the texts of these groups."""
    group, found = None, []
    for it in answers["texts"]:
        group = it.get("group", group)
        if "text" in it and group in groups:
            found.append(it)
    return found


def plain(text):
    """A told text for a terminal: links as their words."""
    return re.sub(r"\[([^\]]*)\]\([^)]*\)", r"\1", text)
