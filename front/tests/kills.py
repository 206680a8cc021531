"""Kills of the fronts and of the program at any moment: `python3 -m front.tests.kills [TIMES [TERMINAL]]` from the top, 100 times
at the page and 40 times in a terminal if nothing is said.

A learner adds notes and answers cards as fast as it goes, by the page or by keys. After a random time the front, or the program,
is killed. Then the file must hold every note and every answer that a screen has shown as done, be sound, and have nothing beside
it but its log at rest.
"""

import http.client
import os
import random
import re
import shutil
import signal
import subprocess
import sys
import tempfile
import threading
import time

from front import program as programs
from front.collection import Held, fields_of, open_collection
from front.session import Session
from front.tests.keys import Terminal
from front.tests.pages import Browser


# What a terminal tells where the program has ended.
TOLD = "Undo is empty from here."


class Learner:
    """What was shown as done."""

    def __init__(self):
        self.notes, self.answers, self.turn = [], 0, 0

    def go_on(self, browser):
        """Adds a note or answers a card. What fails was not shown as done."""
        self.turn += 1
        if self.turn % 3 == 0:
            self.answer(browser)
        else:
            self.add(browser)

    def add(self, browser):
        text = "note %d" % self.turn
        page = browser.do(browser.see("/add"), "/add", field0=text, field1="back")
        if "Added: 1 card." in page:
            self.notes.append(text)

    def answer(self, browser):
        page = browser.see("/study?deck=1")
        found = re.search(r'id="show"[^>]*href="([^"]*)"', page)
        if found:
            back = browser.see(found.group(1).replace("&amp;", "&"))
            page = browser.send("/answer", browser.form(back, "/answer", which={"button": "4"}))
            if "The file was closed" not in page or "The answer is in the collection." in page:
                self.answers += 1

    def press_keys(self, terminal):
        """Adds notes and answers cards in a terminal that shows its decks, and comes back to them."""
        terminal.press("a\n\n\n")
        for _ in range(3):
            self.turn += 1
            text = "note %d" % self.turn
            terminal.press("%s\nback\n\n" % text)
            terminal.wait_for("Added: 1 card.", TOLD)
            self.notes.append(text)
        terminal.press("\n")
        terminal.wait_for("\n> ", TOLD)
        terminal.press("1\n")
        terminal.wait_for("show the back", TOLD)
        for _ in range(2):
            terminal.press(" ")
            terminal.wait_for("space: Good", TOLD)
            terminal.press("4")
            terminal.wait_for("show the back", TOLD)
            self.answers += 1
        terminal.press("q")
        terminal.wait_for("\n> ", TOLD)


def child_of(process):
    with open("/proc/%d/task/%d/children" % (process, process)) as file:
        children = [int(word) for word in file.read().split()]
    for child in children:
        with open("/proc/%d/cmdline" % child) as file:
            if "desk" in file.read().split("\0"):
                return child
    return None


def one_kill(path, program, learner, kills_front, chance, at_page):
    """A sitting until the kill. Gives whether something was killed."""
    sitting = (Browser if at_page else Terminal)(path, program)
    front = sitting.process.pid
    seconds = chance.uniform(0.01, 0.8)
    killed = []

    def kill():
        target = front if kills_front else child_of(front)
        if target is not None:
            os.kill(target, signal.SIGKILL)
            killed.append(target)

    try:
        if at_page:
            sitting.enter()
        else:
            sitting.wait_for("\n> ")
        timer = threading.Timer(seconds, kill)
        timer.start()
        ends = time.monotonic() + seconds + 0.3
        while time.monotonic() < ends:
            (learner.go_on if at_page else learner.press_keys)(sitting)
        timer.join()
    except (OSError, http.client.HTTPException, AssertionError):
        timer.join()
    finally:
        sitting.close()
    return bool(killed)


def what_is_lost(path, program, learner):
    """Words for what the file lacks, or an empty text."""
    ends = time.monotonic() + 20
    while True:
        # A program whose front was killed ends by itself, since its input does.
        try:
            with open_collection(path, program) as collection:
                texts = {fields_of(note)[0] for note in collection.notes()}
                answers = collection.count("revlog")
            break
        except Held:
            if time.monotonic() > ends:
                return "the file is still held"
            time.sleep(0.05)
    lost = [text for text in learner.notes if text not in texts]
    if lost:
        return "notes are lost: %s" % lost
    if answers < learner.answers:
        return "%d answers were shown, %d are held" % (learner.answers, answers)
    run = subprocess.run(programs.words_for(program, path, "desk"), input=b"check\n", stdout=subprocess.PIPE, check=False)
    if run.stdout != b"sound\n":
        return "the collection is not sound: %r" % run.stdout
    beside = sorted(os.listdir(os.path.dirname(path)))
    if beside != [os.path.basename(path), os.path.basename(path) + "-wal"]:
        return "there is more beside the file: %s" % beside
    return ""


def main(times=100, in_terminal=40):
    folder = tempfile.mkdtemp(prefix="anki-kills-")
    path = os.path.join(folder, "my.anki")
    program, learner, chance = programs.find_program(), Learner(), random.Random(7)
    kills = dict.fromkeys([(True, True), (True, False), (False, True), (False, False)], 0)
    try:
        programs.make_collection(program, path)
        session = Session(program, path)
        session.set_option_values(1, {"new.perDay": "9999"})
        session.rest("")
        while sum(kills.values()) < times + in_terminal:
            at_page, kills_front = sum(kills.values()) < times, sum(kills.values()) % 2 == 0
            if one_kill(path, program, learner, kills_front, chance, at_page):
                kills[at_page, kills_front] += 1
            lost = what_is_lost(path, program, learner)
            if lost:
                print("after %d kills: %s" % (sum(kills.values()), lost))
                return 1
        for at_page, words in ((True, "at the page"), (False, "in a terminal")):
            print("%s %d kills of the front and %d of the program" % (words, kills[at_page, True], kills[at_page, False]))
        print("%d notes and %d answers that were shown as done are all held" % (len(learner.notes), learner.answers))
        return 0
    finally:
        shutil.rmtree(folder, ignore_errors=True)


if __name__ == "__main__":
    sys.exit(main(*map(int, sys.argv[1:])))
