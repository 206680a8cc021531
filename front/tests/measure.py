"""How long the page takes over a large collection: `python3 -m front.tests.measure` from the top.

20,000 notes of two fields and 33,333 cards in 30 decks, with 133,333 reviews, which sqlite writes into a temporary file. It prints
the milliseconds of each request from the outside: the middle and the greatest of the runs.
"""

import html
import os
import random
import re
import shutil
import sqlite3
import statistics
import tempfile
import time

from front import program as programs
from front.tests.files import has_command
from front.tests.pages import Browser

NOTES, CARDS, REVIEWS, DECKS = 20_000, 33_333, 133_333, 30
RUNS = 15


def write_collection(program, path):
    """A collection like that of a learner of some years: a third of the cards new, the others due over two months."""
    programs.make_collection(program, path)
    chance = random.Random(1)
    file = sqlite3.connect(path)
    now = int(time.time())
    began = (now // 86400 - 700) * 86400
    decks = {}
    for place in range(DECKS):
        name = "Default" if place == 0 else "Deck %d" % place if place % 3 == 0 else "Deck %d::Part %d" % (place - place % 3, place)
        decks[str(place + 1)] = '"%d":{"conf":1,"dyn":0,"id":%d,"mod":%d,"name":"%s","newToday":[0,0],"revToday":[0,0],"usn":-1}' % (place + 1, place + 1, now, name)
    file.execute("update col set crt = ?, decks = ?", (began, "{%s}" % ",".join(decks[key] for key in sorted(decks))))
    words = ["chien", "maison", "manger", "boire", "lire", "école", "日本語", "سلام", "dog", "house", "to eat", "to drink"]
    first = (began + 86400) * 1000
    notes, cards, reviews = [], [], []
    for place in range(NOTES):
        front = "%s %d %s" % (chance.choice(words), place, chance.choice(words) * 3)
        notes.append((first + place, "g%d" % place, 3, now, -1, " tag%d " % (place % 50), front + "\x1f" + chance.choice(words) * 5, front, place, 0, ""))
    for place in range(CARDS):
        note = first + place % NOTES
        kind = 2 if place % 3 else 0
        due = 700 + chance.randrange(-3, 60) if kind else place
        cards.append((first + place, note, 1 + note % DECKS, place // NOTES, now, -1, kind, kind, due, chance.randrange(1, 400) if kind else 0, 2500, 3, 0, 0, 0, 0, 0, ""))
    for place in range(REVIEWS):
        moment = (now - chance.randrange(86400 * 600)) * 1000 + place % 1000
        reviews.append((moment, first + place % CARDS, -1, chance.choice((1, 2, 3, 3, 3, 4)), 10, chance.randrange(1, 400), 2500, 5000, 1))
    file.executemany("insert into notes values (?,?,?,?,?,?,?,?,?,?,?)", notes)
    file.executemany("insert into cards values (?,?,?,?,?,?,?,?,?,?,?,?,?,?,?,?,?,?)", cards)
    file.executemany("insert or ignore into revlog values (?,?,?,?,?,?,?,?,?)", reviews)
    file.commit()
    file.close()


def timed(call):
    began = time.perf_counter()
    made = call()
    return (time.perf_counter() - began) * 1000, made


def tell(what, times):
    print("%-64s %7.0f %7.0f" % (what, statistics.median(times), max(times)), flush=True)


def measure(path, program):
    print("%-64s %7s %7s" % ("milliseconds", "middle", "most"))
    taken, browser = timed(lambda: Browser(path, program))
    tell("from the start of anki-web until its page stands, once", [taken])
    try:
        browser.enter()
        tell("the deck list, at first (the day begins), once", [timed(lambda: browser.see("/"))[0]])
        tell("the deck list", [timed(lambda: browser.see("/"))[0] for _ in range(RUNS)])
        page = browser.see("/study?deck=1")
        answers, nexts, backs = [], [], []
        for _ in range(RUNS):
            address = html.unescape(re.search(r'id="show"[^>]*href="([^"]*)"', page).group(1))
            taken, back = timed(lambda: browser.see(address))
            backs.append(taken)
            taken, (status, headers, _) = timed(lambda: browser.ask("POST", "/answer", browser.form(back, "/answer", which={"button": "3"})))
            answers.append(taken)
            taken, page = timed(lambda: browser.see(headers["Location"]))
            nexts.append(taken)
        tell("the back of a card", backs)
        tell("an answer, until it is kept", answers)
        tell("the next card, until its front stands", nexts)
        tell("both, from the key to the next front", [one + other for one, other in zip(answers, nexts)])
        for expression in ("maison", "deck:Default is:due", "tag:tag7 -is:new", "prop:ivl>100 or is:new", ""):
            tell("the search “%s”" % expression, [timed(lambda: browser.ask("GET", "/browse?q=" + expression.replace(" ", "+").replace(">", "%3E")))[0] for _ in range(5)])
        tell("the charts", [timed(lambda: browser.see("/charts"))[0] for _ in range(5)])
        if has_command(program, "export", "3") and has_command(program, "import", "3", "1"):
            measure_files(browser)
    finally:
        browser.close()


def measure_files(browser):
    """An export of all notes, and the import of the file, which changes none of them."""
    form = browser.form(browser.see("/files"), "/export", type="3")
    taken, (_, _, text) = timed(lambda: browser.ask("POST", "/export", form))
    tell("the export of %d notes as %d bytes, once" % (NOTES, len(text.encode())), [taken])
    form = browser.form(browser.see("/files"), "/import", type="3", file=text.encode())
    taken, page = timed(lambda: browser.send("/import", form))
    tell("the import of that file, once", [taken])
    if "0 notes added, 0 updated, %d as they were." % NOTES not in page:
        raise AssertionError(page)


if __name__ == "__main__":
    folder = tempfile.mkdtemp(prefix="anki-measure-")
    try:
        found = programs.find_program()
        write_collection(found, os.path.join(folder, "large.anki"))
        print("%s, %d processors, load %.1f; %d bytes" % (found, os.cpu_count(), os.getloadavg()[0], os.path.getsize(os.path.join(folder, "large.anki"))))
        measure(os.path.join(folder, "large.anki"), found)
    finally:
        shutil.rmtree(folder, ignore_errors=True)
