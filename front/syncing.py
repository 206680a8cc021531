"""Sync with a server, and the ways out where rows alone can't join the two sides: upload and download of the whole collection.

Each is one run of `anki FILE HOST:PORT sync KEY`, with `upload` or `download` in the place of `sync`, and its outcome in words.
What each outcome means, and what a learner does then, is told in docs/profile/outcomes.md; the words here are shorter.
"""

import collections
import re

from front import program as programs
from front.sitting import NoCommand, Sitting, Slip

# `said` is what the program printed, `words` what it means, `advice` what to do.
Outcome = collections.namedtuple("Outcome", "said words advice")

# A way of a whole collection: its word, what it does, and what it throws away.
Way = collections.namedtuple("Way", "word does throws")

WAYS = {
    "upload": Way(
        "upload",
        "The server takes this device's collection in the place of its own.",
        "It throws away what the server has and this device has not: what other devices have synced and this one has not fetched. "
        "Every other device of the account must download then, which throws away what it had not synced.",
    ),
    "download": Way(
        "download",
        "This device takes the server's collection in the place of its own.",
        "It throws away what this device has and the server has not: every change and every answer of this device that was not synced. "
        "If this device never synced with the account, that is all that it has.",
    ),
}

# What stands here where a run did not finish, and what to do again.
KEPT = {
    "sync": "Nothing is lost.",
    "upload": "This device holds what it held; the server may have taken the upload all the same.",
    "download": "This device holds what it held.",
}

FULL = "Choose which side wins, by an upload or a download of the whole collection: each throws away what only the other side has."

# The beginning of what is printed, what it means, and what to do. The first that fits is taken: of those of the command, and then of
# those of all three.
OUTCOMES_OF = {
    "sync": [
        ("finished", "Both sides hold the same now.", ""),
        ("no changes", "There was nothing to send or to fetch.", ""),
        ("full needed: schema", "Note types or options were changed so that the two sides can't be joined row by row, or the collections were begun apart.", FULL),
        ("full needed: sequence", "The server has come to the end of its numbers.", "Upload the whole collection from the device that has the latest state."),
        ("sanity failed", "The two sides did not come to the same. {kept}", "Mend what is named, if a fault is named. " + FULL),
        ("refused 409 usn", "The server's collection is older than this device's last sync, as after its file was put back to a copy. {kept}", FULL),
        ("refused 409", "Another device of the account synced in between. {kept}", "{again}."),
    ],
    "upload": [
        ("finished", "The server holds what this device has. Undo is empty from here.", "Download on every other device of the account, before it is used."),
        ("refused 409", "Another device of the account synced in between. {kept}", "Think again of what an upload would throw away."),
    ],
    "download": [
        ("finished", "This device holds what the server has. Undo is empty from here.", ""),
        ("refused 409", "Another device of the account synced in between. {kept}", "{again}."),
    ],
}
OUTCOMES = [
    ("clock off", "The clocks of this device and of the server are more than 5 minutes apart.", "Set this device's clock. {again}."),
    ("refused 403 key", "The server has no account of this key.", "Correct the key."),
    ("refused 503 keeper", "The server could not read or write its file. {kept}", "{again} later."),
    ("refused 500 memory", "The server ran out of memory. {kept}", "{again} later."),
    ("own check failed", "This collection has a fault, so nothing was sent.", "Delete or mend what is named. {again}."),
    ("lost", "The server did not answer. {kept}", "Look at the address and the network. {again}."),
    ("keeper failed", "The collection's file can't be read or written. {kept}", "See whether another program has it open, or the disk is full. {again}."),
    ("no collection", "There is no collection in the file.", ""),
    # Whatever else is printed.
    ("", "The server is down behind its proxy, of another make, or broken. {kept}", "{again} later. If it stays so, tell whoever runs the server."),
]


class Syncing(Sitting):
    def sync(self, server, key):
        """Syncs with a server HOST:PORT by the key of an account, and gives the Outcome. The desk ends for it."""
        try:
            return self._run_with_server("sync", server, key)
        except NoCommand:
            raise Slip("this program has no connection to a server") from None

    def send_whole(self, word, server, key):
        """Does an upload or a download as `sync` syncs. Whoever calls it has asked the learner twice."""
        return self._run_with_server(WAYS[word].word, server, key)

    def _run_with_server(self, word, server, key):
        with self.turn:
            server, key = server.strip(), key.strip()
            if not re.match(r"[^\s:/@-][^\s:/@]*:[1-9][0-9]{0,4}\Z", server):
                raise Slip("a server is a name or an address, a colon and a port, such as example.org:8765")
            if not re.match(r"[0-9a-f]{32}\Z", key):
                raise Slip("a key is 32 digits 0 to 9 and a to f")
            status, printed = self._run_closed("The file was closed for the %s" % word, word, key, server=server)
            self.last_server = server
            return outcome_of(printed.decode("utf-8", "replace").strip("\n"), status, word)


def way_of(word):
    """The Way of a word, or a Slip."""
    if word not in WAYS:
        raise Slip("a whole collection goes by upload or by download")
    return WAYS[word]


def outcome_of(said, status, word="sync"):
    """The Outcome of what a run with this word printed."""
    told = {"kept": KEPT[word], "again": "%s again" % word.title()}
    if not said:
        words = {programs.KEEPER_FAILED: "The collection's file can't be opened.", programs.NO_MEMORY: "Memory ran out. {kept}"}
        return Outcome("status %d" % status, words.get(status, "The program ended without a word.").format(**told), "")
    _, words, advice = next(row for row in OUTCOMES_OF[word] + OUTCOMES if said.startswith(row[0]))
    return Outcome(said, words.format(**told), advice.format(**told))


def needs_whole(outcome):
    """Whether an upload and a download are offered after it."""
    return outcome.said.startswith(("full needed", "sanity failed", "refused 409 usn"))
