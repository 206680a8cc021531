"""What bench/costs.py measures and prints, over stand-ins for both programs.

    python3 -m unittest discover -s bench/tests
"""
import contextlib
import io
import itertools
import os
import shutil
import sys
import tempfile
import unittest
from unittest import mock

TOP = os.path.dirname(os.path.dirname(os.path.dirname(os.path.realpath(__file__))))
sys.dont_write_bytecode = True
sys.path.insert(0, os.path.join(TOP, "bench"))

import bench  # noqa: E402
import costs  # noqa: E402

# It makes files, and knows the lines that are measured: each is refused whose entries are not those of the file.
ANKI = r'''
import json, sqlite3, sys
path, command = sys.argv[1], sys.argv[3]
link = sqlite3.connect(path if path != "-" else ":memory:", isolation_level=None)
if command == "init":
    link.execute("create table col (crt, mod, scm, usn, models, decks, dconf, tags)")
    link.execute("create table graves (usn, oid, type)")
    for name, columns in (("notes", 11), ("cards", 18), ("revlog", 9)):
        link.execute("create table %s (id, %s)" % (name, ", ".join("usn" if n == 2 else "c%d" % n for n in range(1, columns))))
    models = {str(n): {"usn": -1, "tmpls": [{"qfmt": "{{Front}}"}]} for n in (1, 2, 3)}
    link.execute("insert into col values (0, 1000, 1000, 0, ?, ?, '{}', '{}')", (json.dumps(models), json.dumps({"1": {"usn": -1}})))
elif command == "desk":
    held = {name: [str(it) for it, in link.execute("select id from " + name)] for name in ("cards", "notes")}
    models, decks = (json.loads(text) for text in link.execute("select models, decks from col").fetchone())
    for line in sys.stdin:
        verb, _, rest = line.rstrip("\n").partition(" ")
        given = rest.split()
        if verb == "flag" and given[0] == "1":
            given = given[1:]
        if verb in ("suspend", "flag", "delete"):
            print("ok" if given == held["notes" if verb == "delete" else "cards"] else "bad")
        elif verb == "tags" or verb in ("rename", "drop") and given[0] in decks and len(decks) > 1:
            print("ok")
        elif verb == "find" and rest.startswith("cid:"):
            print("found", len(rest[4:].split(",")), rest[4:].replace(",", " "))
        else:
            said = {"find": "found 0", "note": "note 1 cards 1", "counts": "new 0 learning 0 review 0", "check": "sound"}
            print(said.get(verb) or models["1"]["tmpls"][0]["qfmt"].replace("{{Front}}", "front 0"))
else:
    print("usage")
'''
# It answers each request of a session, in its order, over a file whose rows a server may hold.
ANKID = r'''
import http.server, json, sqlite3, sys, tomllib
with open("accounts.toml", "rb") as file:
    account = tomllib.load(file)["account"][0]
link = sqlite3.connect(account["file"])
assert [link.execute("select max(usn) from " + table).fetchone() for table in ("notes", "cards", "revlog")] == [(0,)] * 3
notes = [it for it, in link.execute("select id from notes")]
ORDER = {"start": "meta", "applyGraves": "start", "applyChanges": "applyGraves", "chunk": "applyChanges", "applyChunk": "chunk", "sanityCheck2": "applyChunk", "finish": "sanityCheck2",
         "upload": "meta", "download": "meta"}
class Server(http.server.BaseHTTPRequestHandler):
    protocol_version, last, step = "HTTP/1.0", "", 0
    def log_message(self, *words):
        pass
    def do_GET(self):
        self.send_error(404)
    def do_POST(self):
        method, body = self.path[len("/sync/"):], json.loads(self.rfile.read(int(self.headers["Content-Length"])))
        status, reply = 200, getattr(self, method)(body)
        step = 0 if method == "meta" else Server.step + 1
        if self.headers["X-Anki-Key"] != account["key"] or self.headers["X-Anki-Step"] != str(step) or method != "meta" and (ORDER[method] != Server.last or self.headers["X-Anki-Base"] != "1000"):
            status, reply = 409, {"seen": Server.step, "word": "step"}
        Server.last, Server.step = method, step
        sent = json.dumps(reply).encode()
        self.send_response(status)
        self.send_header("Content-Length", str(len(sent)))
        self.end_headers()
        self.wfile.write(sent)
    def meta(self, body): return {"cont": True, "mod": 1000, "usn": 1}
    def start(self, body): return {"cards": [], "decks": [], "notes": list(range(1, len(notes) + 1))}
    def applyGraves(self, body): return {}
    def applyChanges(self, body): return {"decks": [[], []], "models": [], "tags": []}
    def chunk(self, body): return {"cards": [], "done": True, "notes": [], "revlog": []}
    def applyChunk(self, body): return {}
    def sanityCheck2(self, body): return {"status": "ok"} if body["client"][1] == len(notes) else {"status": "bad", "row": None, "c": body["client"], "s": [[0, 0, 0], len(notes)] + [0] * 6}
    def finish(self, body): return {"mod": 1001}
    def download(self, body): return {"crt": 1, "graves": [], "notes": notes, "usn": 2}
    def upload(self, body): return {"mod": 1002, "scm": 1002} if body == {"crt": 1, "notes": notes} else {"wrong": body}
http.server.HTTPServer(("127.0.0.1", int(sys.argv[2].rpartition(":")[2])), Server).serve_forever()
'''


class Rooms(unittest.TestCase):
    def setUp(self):
        self.room = tempfile.mkdtemp(prefix="anki-bench-test-")
        self.addCleanup(shutil.rmtree, self.room)
        self.anki, self.ankid = self.stand_in("anki", ANKI), self.stand_in("ankid", ANKID)

    def stand_in(self, name, text):
        with open(os.path.join(self.room, name + ".py"), "w", encoding="utf-8") as file:
            file.write(text)
        path = os.path.join(self.room, name)
        with open(path, "w", encoding="utf-8") as file:
            file.write('#!/bin/sh\nexec "%s" -E -s -S "%s.py" "$@"\n' % (sys.executable, path))
        os.chmod(path, 0o755)
        return path

    def given(self, *words):
        given = costs.arguments(["--anki", self.anki, "--ankid", self.ankid, "--runs", "1", "--room", self.room, *words])
        bench.places(given)
        return given

    def run_it(self, *words):
        printed, said = io.StringIO(), io.StringIO()
        with contextlib.redirect_stdout(printed), contextlib.redirect_stderr(said):
            status = costs.main(["--anki", self.anki, "--ankid", self.ankid, "--runs", "1", "--room", self.room, *words])
        return status, printed.getvalue(), said.getvalue()


class Desk(Rooms):
    def test_each_line_has_as_many_entries_as_its_collection(self):
        found = costs.of_desk(self.room, self.given("--size", "10"), 20)
        self.assertEqual([name for name, *_ in costs.works_of(20)], list(found))
        for name, cost in found.items():
            # 20 notes with 33 cards and 132 reviews.
            self.assertGreaterEqual(cost.seconds, 0.0, name)
            self.assertGreater(cost.entries, 20 + 33 + 132, name)

    def only(self, *names):
        """Leaves these works alone."""
        works_of = costs.works_of
        patch = mock.patch.object(costs, "works_of", lambda size: [it for it in works_of(size) if it[0] in names])
        patch.start()
        self.addCleanup(patch.stop)

    def test_a_table_of_three_sizes_is_printed(self):
        self.only("`check`", "`find` of as many ids")
        status, printed, _ = self.run_it("--size", "1", "desk")
        rows = [[cell.strip() for cell in line.split("|")[1:-1]] for line in printed.splitlines() if line.startswith("| ")]
        self.assertEqual(["what", "1", "10", "100", "growth, of n log n"], rows[0])
        self.assertEqual(["`find` of as many ids", "`check`"], [row[0] for row in rows[1:]])
        self.assertIn(status, (0, 1))
        self.assertEqual(["anki", "anki.py", "ankid", "ankid.py"], sorted(os.listdir(self.room)))

    def test_another_answer_ends_it(self):
        self.stand_in("anki", ANKI.replace('"check": "sound"', '"check": "card 1 without note"'))
        self.only("`check`")
        status, printed, said = self.run_it("--size", "1", "desk")
        self.assertEqual((1, ""), (status, printed))
        self.assertIn("`check`: card 1 without note\n, and not sound", said)


class Servers(Rooms):
    def test_each_request_is_measured(self):
        # A clock that goes on by one each time it is read: what is measured is what passes between two readings.
        with mock.patch.object(costs, "spent", side_effect=itertools.count()):
            found = costs.of_server(self.room, self.given("--size", "1"), 10)
        self.assertEqual(["a meta", "a start, which gives all graves", "250 graves", "changes: as many tags and decks, both ways", "a chunk", "250 reviews", "a sanity check", "a finish",
                          "a download", "an upload", "a sanity check with long templates"], list(found))
        self.assertGreater(found["250 graves"].entries - found["a meta"].entries, 250 * 8)
        for name, cost in found.items():
            self.assertEqual(1, cost.seconds, name)

    def test_the_clock_of_a_server_never_goes_back(self):
        server = mock.Mock(process=mock.Mock(pid=os.getpid()), seconds=lambda: 0.0)
        first = costs.spent(server)
        self.assertGreaterEqual(first, 0.0)
        self.assertGreaterEqual(costs.spent(server), first)

    def test_a_refused_request_ends_it(self):
        self.stand_in("ankid", ANKID.replace('"chunk": "applyChanges"', '"chunk": "start"'))
        status, printed, said = self.run_it("--size", "1", "server")
        self.assertEqual((1, ""), (status, printed))
        self.assertIn('a chunk was answered 409 {"seen": 3, "word": "step"}', said)


class Verdicts(unittest.TestCase):
    def costs(self, *seconds):
        return [costs.Cost(it, 1000 * 10**n) for n, it in enumerate(seconds)]

    def test_n_log_n_from_ten_to_a_hundred_thousand_is_twelve_and_a_half(self):
        self.assertAlmostEqual(12.5, costs.most_of(*self.costs(0, 0, 0)[1:]))

    def test_what_grows_as_its_square_is_missed(self):
        self.assertEqual("100.0, at most 15.6: missed", costs.verdict("a meta", self.costs(0.001, 0.1, 10)))
        self.assertEqual("12.0, at most 15.6: met", costs.verdict("a meta", self.costs(0.001, 0.1, 1.2)))

    def test_what_is_known_to_grow_faster_is_named(self):
        self.assertEqual("100.0, at most 15.6: known: cards x ids", costs.verdict("`find` of as many ids", self.costs(0.001, 0.1, 10)))

    def test_a_time_too_short_tells_nothing(self):
        self.assertEqual("not told", costs.verdict("a meta", self.costs(0, 0.0009, 10)))

    def test_each_that_is_known_is_measured(self):
        desk = {name for name, *_ in costs.works_of(20)}
        self.assertEqual(set(), set(costs.KNOWN) - desk)

    def test_words_out_of_range_are_refused(self):
        for words in (["--size", "0"], ["--size", "201"], ["--runs", "0"], ["client"]):
            with contextlib.redirect_stderr(io.StringIO()), self.assertRaises(SystemExit):
                costs.arguments(words)


if __name__ == "__main__":
    unittest.main()
