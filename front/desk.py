"""The client of `anki FILE - desk`: it sends lines, and knows which part of the output answers each.

The answer of any line but `page` is one line that no note can shape. A page is many lines, and a note can hold any of them,
also one that looks like an answer or a refusal. So a line of a page is never taken for an answer: after each `page` the
client sends searches for cards by their ids, drawn at random among those held, at least 128 bits of chance. The page ends
where exactly their answers stand at the end of the output. No note was written with them in mind. If the program ends first,
its status says whether the last line of the output is a refusal.

A refused line ends the program, and with it the undo list. Callers test what they can before they send.
"""

import fcntl
import math
import os
import re
import select
import subprocess
import threading

from front import program as programs
from secrets import SystemRandom

CHANCE_BITS = 128

_chance = SystemRandom()


class DeskFault(Exception):
    """The desk has ended."""


class Refused(DeskFault):
    """The program refused a line. `text` is what it said of it."""

    def __init__(self, line, text):
        super().__init__(text)
        self.line, self.text = line, text


class Ended(DeskFault):
    """The program ended otherwise. `status` is its status, or minus a signal."""

    WORDS = {
        programs.DONE: "the program ended before its answer",
        programs.INPUT_FAILED: "the program could not read its input",
        programs.OUTPUT_FAILED: "the program could not write its output",
        programs.KEEPER_FAILED: "the file can't be opened or written, or another program has it",
        programs.NO_MEMORY: "the program ran out of memory",
    }

    def __init__(self, status, said=""):
        self.status, self.said = status, said
        words = self.WORDS.get(status)
        if words is None and status < 0:
            words = "the program was killed (signal %d)" % -status
        elif words is None:
            words = "the program ended with status %d%s" % (status, said and ": " + said)
        super().__init__(words)


class Desk:
    """One run of the program over a file. `cards` are the ids of the cards that are held."""

    def __init__(self, program, path):
        """Starts the program, and asks for the ids of all cards: then it has the file open."""
        self._turn = threading.RLock()
        self._sent = 0
        self.ended = None
        self._process = subprocess.Popen(
            programs.words_for(program, path, "desk"),
            stdin=subprocess.PIPE,
            stdout=subprocess.PIPE,
            # A Ctrl-C at the terminal is the front's: the program ends when its input does.
            start_new_session=True,
        )
        self._input = self._process.stdin.fileno()
        self._output = self._process.stdout.fileno()
        for end in (self._input, self._output):
            fcntl.fcntl(end, fcntl.F_SETFL, fcntl.fcntl(end, fcntl.F_GETFL) | os.O_NONBLOCK)
        try:
            self.learn_cards()
        except BaseException:
            self.close()
            raise

    def ask(self, line):
        """The answer of a line other than `page`."""
        return self.ask_all([line])[0]

    def ask_all(self, lines):
        """The answers of lines other than `page`, which are sent at once."""
        lines = list(lines)
        for line in lines:
            if not is_one_line(line) or line.startswith("page "):
                raise ValueError(line)
        if not lines:
            return []
        with self._turn:
            first = self._sent + 1
            said = self._exchange(lines, lambda output: output.count(b"\n") >= len(lines) or _has_refusal(output, first))
            answers = said.decode("utf-8", "replace").split("\n")[:-1]
            if answers == ["no collection"]:
                raise Ended(self._finish(), answers[0])
            for place, answer in enumerate(answers):
                if answer.startswith("line %d: " % (first + place)):
                    # The program ends now.
                    self._finish()
                    raise Refused(lines[place], answer.split(": ", 1)[1])
            return answers

    def page(self, card, side):
        """A side of a card, `front` or `back`, as the program makes it."""
        if side not in ("front", "back"):
            raise ValueError(side)
        with self._turn:
            searches, answers = self._draw()
            line = "page %d %s" % (card, side)
            try:
                said = self._exchange([line] + searches, lambda output: output.endswith(answers))
            except Refused as refused:
                raise Refused(line, refused.text) from None
            return said[: -len(answers)].decode("utf-8", "replace")

    def learn_cards(self):
        """Asks which cards are held. For use after what may take cards away."""
        self.cards = cards_found(self.ask("find "))

    def close(self):
        """Ends the program in order, and gives its status."""
        with self._turn:
            return self._finish()

    def kill(self):
        self._process.kill()

    def _draw(self):
        """Searches that are drawn now, and what the program answers to them, with a line end before it."""
        searches, answers = [], [b""]
        bits = 0.0
        cards = self.cards
        while bits < CHANCE_BITS:
            if len(cards) <= 2 * CHANCE_BITS:
                # Each card is in or out.
                drawn = [card for card in cards if _chance.getrandbits(1)]
                bits += max(len(cards), 1)
            else:
                size = _size_of_draw(len(cards))
                drawn = sorted(_chance.sample(cards, size))
                bits += CHANCE_BITS
            # There is no card 0.
            searches.append("find cid:" + ",".join(str(card) for card in drawn or [0]))
            answers.append("".join(["found %d" % len(drawn)] + [" %d" % card for card in drawn]).encode())
        return searches, b"\n".join(answers) + b"\n"

    def _exchange(self, lines, is_whole):
        """Sends lines, and gives the output when it is whole."""
        if self.ended is not None:
            raise Ended(self.ended)
        try:
            return self._send_and_read(lines, is_whole)
        except BaseException:
            # What is still to be read would be taken for the answer of a later line.
            self._finish()
            raise

    def _send_and_read(self, lines, is_whole):
        self._sent += len(lines)
        rest = memoryview("".join(line + "\n" for line in lines).encode("utf-8"))
        output = bytearray()
        while not is_whole(output):
            writing = [self._input] if rest else []
            readable, writable, _ = select.select([self._output], writing, [])
            if writable:
                try:
                    rest = rest[os.write(self._input, rest) :]
                except BrokenPipeError:
                    rest = rest[:0]
            if readable:
                piece = os.read(self._output, 1 << 20)
                if not piece:
                    self._tell_end(lines, bytes(output))
                output += piece
        return bytes(output)

    def _tell_end(self, lines, output):
        """Raises why the program ended, of the output since `lines` were sent."""
        status = self._finish()
        said = output.decode("utf-8", "replace")
        last = said[:-1].rsplit("\n", 1)[-1] if said.endswith("\n") else ""
        told = re.match(r"line (\d+): (.*)\Z", last)
        first = self._sent - len(lines) + 1
        if status == programs.REFUSED and told and first <= int(told.group(1)) <= self._sent:
            raise Refused(lines[int(told.group(1)) - first], told.group(2))
        raise Ended(status, last)

    def _finish(self):
        if self.ended is None:
            self._process.stdin.close()
            # What it still prints is thrown away.
            os.set_blocking(self._output, True)
            while os.read(self._output, 1 << 20):
                pass
            self._process.stdout.close()
            self.ended = self._process.wait()
        return self.ended


def is_one_line(text):
    """Whether a text can be a line of the desk: no line end, and letters that UTF-8 has."""
    return "\n" not in text and not any("\ud800" <= letter <= "\udfff" for letter in text)


def cards_found(answer):
    """The ids of an answer `found <n> <ids>`."""
    words = answer.split(" ")
    if words[0] != "found" or int(words[1]) != len(words) - 2:
        raise ValueError(answer)
    return [int(word) for word in words[2:]]


def _has_refusal(output, first):
    """Whether a whole line of the output refuses its line, of lines that are counted from `first` on."""
    if b"line " not in output:
        return False
    lines = bytes(output).split(b"\n")[:-1]
    return any(line.startswith(b"line %d: " % (first + place)) for place, line in enumerate(lines))


def _size_of_draw(count):
    """How many of so many cards to draw, so that the draw has the bits of chance."""
    size, bits = 0, 0.0
    while bits < CHANCE_BITS:
        bits += math.log2((count - size) / (size + 1))
        size += 1
    return size
