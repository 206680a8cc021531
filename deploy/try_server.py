#!/usr/bin/env python3
"""Tries `anki` and `ankid` as they are, over the loopback: real processes, real files, real kills. Each trial has a folder of its own, which goes afterwards.

    deploy/try_server.py [--anki PATH] [--ankid PATH] [--nginx PATH] [--stunnel PATH] [--kills N] [--syncs N] [--seconds N] [--accounts N] [--notes N,N] [TRIAL ...]

Without a trial all are done but the last three. Each prints what it saw, and `<trial>: passed` or why not. Trials:

    days        two devices that begin by an upload and a download, a day of answers, edits and deletes on each, syncs in both orders
    routes      each route, and each refusal that a client can cause, by curl
    clients     clients that are silent, drip, reset, send too much: others are served after them
    hunger      a server that may take 200 MiB of memory, and a body of 256 MiB
    second      a second ankid on the same files, and on the same port
    begin       a learner's own collection becomes an account's
    schema      devices that each began by `init`, a changed note type and both ways out
    restore     the server's file is put back to an older copy, both ways out, and a restore that no sync shows
    kills       `kill -9` of the server or the client in the middle of syncs, again and again
    wholes      the same in the middle of uploads and downloads, a tenth as often
    full        a full disk at the server (root: it mounts a small disk of its own)
    many        many syncs in a row, and the server's memory meanwhile
    sessions    as many syncs as requests alone, each of one changed note, and the server's memory meanwhile
    speed       requests and syncs a second, the first request after start
    memory      the server's memory with 1, 10 and 50 accounts
    chunks      a push and a pull of 10,000 reviews beside 3,000 and 50,000 cards: the processor time of both sides, less that of one review
    drip        a client that sends a byte each 5 seconds until it is cut, which takes 15 minutes
    tls         a sync through nginx with a certificate made here, and what its limits answer (needs nginx and stunnel)
    servers     four ankids behind nginx, which goes by the key, beside one ankid (needs nginx)
"""
import argparse
import collections
import concurrent.futures
import hashlib
import http.client
import json
import os
import random
import resource
import secrets
import shutil
import signal
import socket
import sqlite3
import ssl
import struct
import subprocess
import sys
import tempfile
import time

HERE = os.path.dirname(os.path.realpath(__file__))
TOP = os.path.dirname(HERE)
sys.dont_write_bytecode = True
sys.path.insert(0, HERE)

import servers as parting  # noqa: E402

TRIALS = ("days", "routes", "clients", "hunger", "second", "begin", "schema", "restore", "kills", "wholes", "full", "many", "sessions", "speed", "memory")
ON_REQUEST = ("chunks", "drip", "tls", "servers")
UNKNOWN = "f" * 32


class Wrong(Exception):
    """What a trial saw and should not have."""


def expect(what, got, *wanted):
    if got not in wanted:
        raise Wrong("%s: %r, and not %s" % (what, got, " or ".join(map(repr, wanted))))
    return got


def free_port():
    with socket.socket() as it:
        it.bind(("127.0.0.1", 0))
        return it.getsockname()[1]


def wait_for_port(port, process=None, seconds=60):
    """Waits until a request is answered at a port, and answers how long that took; None if the process ended before."""
    began = time.monotonic()
    while time.monotonic() - began < seconds:
        try:
            status, _ = ask(port, "/", method="GET")
            return time.monotonic() - began
        except (OSError, http.client.HTTPException):
            if process is not None and process.poll() is not None:
                return None
            time.sleep(0.002)
    raise Wrong("nothing answers at port %d" % port)


def ask(port, path, body=b"", method="POST", headers=None, seconds=60):
    """One request: its status and its body."""
    link = http.client.HTTPConnection("127.0.0.1", port, timeout=seconds)
    try:
        link.request(method, path, body=body, headers=headers or {})
        reply = link.getresponse()
        return reply.status, reply.read()
    finally:
        link.close()


def envelope(key, session="000000000000000a", step=0, base=0):
    return {"X-Anki-Key": key, "X-Anki-Session": session, "X-Anki-Step": str(step), "X-Anki-Base": str(base)}


def meta(port, key, seconds=60):
    return ask(port, "/sync/meta", b"{}", headers=envelope(key), seconds=seconds)


class Server:
    """An ankid in a folder, with accounts a0, a1 and so on."""

    def __init__(self, tools, room, count=1, port=None):
        self.tools, self.room, self.port, self.process = tools, room, port or free_port(), None
        os.makedirs(room, exist_ok=True)
        self.accounts = [{"name": "a%d" % n, "key": secrets.token_hex(16), "file": "a%d.anki" % n} for n in range(count)]
        parting.write_secret(os.path.join(room, "accounts.toml"), parting.text_of(self.accounts))

    def key(self, n=0):
        return self.accounts[n]["key"]

    def file(self, n=0):
        return os.path.join(self.room, self.accounts[n]["file"])

    def spawn(self, bytes_of_memory=None):
        words = [self.tools.ankid, "--listen", "127.0.0.1:%d" % self.port, "--accounts", "accounts.toml"]
        limit = None if bytes_of_memory is None else lambda: resource.setrlimit(resource.RLIMIT_AS, (bytes_of_memory, bytes_of_memory))
        self.process = subprocess.Popen(words, cwd=self.room, stdin=subprocess.DEVNULL, stdout=subprocess.PIPE, stderr=subprocess.DEVNULL, preexec_fn=limit)
        self.tools.started.append(self.process)

    def start(self):
        """Starts it, and answers how long it took until the first request was answered."""
        self.spawn()
        took = wait_for_port(self.port, self.process)
        if took is None:
            raise Wrong("the server ended with %d" % self.process.wait())
        return took

    def end(self, how=signal.SIGTERM):
        self.process.send_signal(how)
        status = self.process.wait(timeout=30)
        self.process.stdout.close()
        return status

    def memory(self):
        """What it has in memory now and had at most, in KiB."""
        with open("/proc/%d/status" % self.process.pid) as file:
            told = dict(line.split(":", 1) for line in file)
        return int(told["VmRSS"].split()[0]), int(told["VmHWM"].split()[0])

    def seconds(self):
        """The processor time that it took."""
        with open("/proc/%d/stat" % self.process.pid) as file:
            fields = file.read().rsplit(")", 1)[1].split()
        return (int(fields[11]) + int(fields[12])) / os.sysconf("SC_CLK_TCK")


class Device:
    """A device's file, and what it does with it."""

    def __init__(self, tools, path, key):
        self.tools, self.path, self.key = tools, path, key

    def run(self, *words, given=""):
        return subprocess.run([self.tools.anki, self.path, *words], input=given, stdout=subprocess.PIPE, stderr=subprocess.PIPE, text=True)

    def desk(self, *lines):
        """Lines of the desk, and what each prints; all must be accepted."""
        ran = self.run("-", "desk", given="".join(line + "\n" for line in lines))
        if ran.returncode != 0:
            raise Wrong("desk of %s ended with %d: %s" % (self.path, ran.returncode, ran.stdout[-200:]))
        return ran.stdout.splitlines()

    def sync(self, port, seconds=None):
        """A sync: its status and the line that it prints."""
        ran = self.run("127.0.0.1:%d" % port, "sync", self.key)
        return ran.returncode, ran.stdout.strip()

    def begin(self):
        """A new collection in its file, as a learner begins."""
        expect("init of " + self.path, self.run("-", "init").returncode, 0)

    def upload(self, port):
        """The server takes this device's collection."""
        self.send_whole(port, "upload")

    def download(self, port):
        """This device takes the server's collection."""
        self.send_whole(port, "download")

    def send_whole(self, port, word):
        ran = self.run("127.0.0.1:%d" % port, word, self.key)
        expect("%s of %s" % (word, self.path), (ran.returncode, ran.stdout), (0, "finished\n"))

    def needs_whole(self, port):
        """A sync that can't join the two sides: what it prints."""
        status, line = self.sync(port)
        expect("a sync of %s, which says %s" % (self.path, line), (status, line.split(":")[0]), (10, "full needed"))
        return line

    def finish(self, port):
        """Syncs until a sync finishes; at once, unless another device came between."""
        for _ in range(5):
            status, line = self.sync(port)
            if line in ("finished", "no changes"):
                return line
        raise Wrong("sync of %s ended with %d: %s" % (self.path, status, line))

    def day(self, number, count):
        """A day: notes, answers, an edit, a delete."""
        told = self.desk(*('note 1 1 ["day %d front %d of %s","back"]' % (number, n, os.path.basename(self.path)) for n in range(count)))
        cards = [line.split()[3] for line in told]
        notes = [line.split()[1] for line in told]
        self.desk(*("answer %s %d 2500" % (card, 1 + (n % 4)) for n, card in enumerate(cards)))
        self.desk('fields %s ["edited on day %d","back"]' % (notes[0], number), 'tags %s ["day%d"]' % (notes[1], number), "delete %s" % notes[-1])

    def reviews(self):
        return reviews_of(self.path)

    def is_sound(self):
        expect("check of " + self.path, self.desk("check"), ["sound"])
        integrity(self.path)


def copied(path, room):
    """A copy of a collection with its log, which a program may have open."""
    target = os.path.join(tempfile.mkdtemp(dir=room), "copy.anki")
    copy_files(path, target)
    return target


def query(path, text):
    """A query over a copy, so that the file stays as it is."""
    with tempfile.TemporaryDirectory(prefix="ankid-trial-") as room:
        link = sqlite3.connect(copied(path, room))
        try:
            return link.execute(text).fetchall()
        finally:
            link.close()


def reviews_of(path):
    return {row[0] for row in query(path, "select id from revlog")}


def integrity(path):
    expect("integrity of " + path, query(path, "pragma integrity_check"), [("ok",)])


def content(path):
    """All rows that a sync makes the same on both sides."""
    tables = ("notes", "cards", "revlog")
    with tempfile.TemporaryDirectory(prefix="ankid-trial-") as room:
        link = sqlite3.connect(copied(path, room))
        try:
            found = {}
            for table in tables:
                columns = [it[1] for it in link.execute("pragma table_info(%s)" % table) if it[1] != "usn"]
                found[table] = link.execute("select %s from %s order by id" % (", ".join(columns), table)).fetchall()
            return found
        finally:
            link.close()


def devices_of(tools, server, names=("one", "two"), n=0):
    """Devices in step with an account whose collection ankid makes: each begins by init, the first uploads and the others download. An anki without these
    commands gets a copy of the account's file."""
    if server.process is None or server.process.poll() is not None:
        server.start()
    found = [Device(tools, os.path.join(os.path.dirname(server.room), name + ".anki"), server.key(n)) for name in names]
    if not tools.has_transfers():
        server.end()
        for device in found:
            copy_files(server.file(n), device.path)
        server.start()
        print("this anki has no upload: each device began with a copy of the account's file")
        return found
    for device in found:
        device.begin()
        said = device.needs_whole(server.port)
        if device is found[0]:
            device.upload(server.port)
        else:
            device.download(server.port)
    print("each device began by init, and its first sync said %s; %s uploaded, and the others downloaded" % (said, names[0]))
    return found


def try_days(tools, room):
    server = Server(tools, os.path.join(room, "server"))
    one, two = devices_of(tools, server)
    print("the first sync then says", expect("first sync", one.sync(server.port)[1], "no changes"), "and", expect("first sync", two.sync(server.port)[1], "no changes"))
    for number, (first, second) in enumerate(((one, two), (two, one), (one, two), (two, one)), 1):
        one.day(number, 8)
        two.day(number, 5)
        for device in (first, second, first):
            expect("sync on day %d" % number, device.sync(server.port), (0, "finished"))
        held = [content(path) for path in (one.path, two.path, server.file())]
        expect("contents after day %d" % number, held[0] == held[1] == held[2], True)
        # An edit of one note on both devices, mostly with one stamp, and a delete against an edit.
        notes = [row[0] for row in query(one.path, "select id from notes order by id")]
        one.desk('fields %d ["by one","x"]' % notes[0], "delete %d" % notes[1])
        two.desk('fields %d ["by two","x"]' % notes[0], 'fields %d ["kept?","x"]' % notes[1])
    for device in (one, two, one):
        expect("last sync", device.finish(server.port), "finished", "no changes")
    expect("contents at the end", content(one.path) == content(two.path) == content(server.file()), True)
    one.is_sound()
    two.is_sound()
    print("four days on two devices, syncs in both orders: both devices and the server hold the same %d notes and %d reviews"
          % (len(content(one.path)["notes"]), len(one.reviews())))
    server.end()


def curl(port, path, *words):
    """The status and the body of a request by curl."""
    url = "http://127.0.0.1:%d%s" % (port, path)
    ran = subprocess.run(["curl", "-sS", "-m", "60", "-w", "\n%{http_code}", url, *words], stdout=subprocess.PIPE, stderr=subprocess.STDOUT, text=True)
    body, _, status = ran.stdout.rpartition("\n")
    return status + " " + body


def try_routes(tools, room):
    server = Server(tools, os.path.join(room, "server"))
    server.start()
    port = server.port

    def asked(path, *words, key=server.key(), session="000000000000000a", step=0, base=0, body="{}"):
        heads = ["%s: %s" % it for it in envelope(key, session, step, base).items()]
        return curl(port, "/sync/" + path, *(word for head in heads for word in ("-H", head)), "--data-binary", body, *words)

    def refused(what, got, status, word, seen=0):
        print("%s: %s" % (what, expect(what, got, '%d {"seen":%d,"word":"%s"}' % (status, seen, word))))

    refused("GET /", curl(port, "/"), 404, "route")
    refused("another path", curl(port, "/sync/none", "--data-binary", "{}"), 404, "route")
    refused("a query", asked("meta?x=1"), 404, "route")
    refused("a slash behind", asked("meta/"), 404, "route")
    for it in ("meta", "start", "applyGraves", "applyChanges", "chunk", "applyChunk", "sanityCheck2", "finish", "upload", "download"):
        refused("GET /sync/" + it, curl(port, "/sync/" + it), 405, "method")
    refused("chunked", asked("meta", "-H", "Transfer-Encoding: chunked"), 411, "length")
    refused("no length", curl(port, "/sync/meta", "-X", "POST"), 411, "length")
    refused("a length over 256 MiB", asked("meta", "-H", "Content-Length: 268435457"), 413, "large")
    refused("gzip", asked("meta", "-H", "Content-Encoding: gzip"), 415, "compressed")
    refused("no key", curl(port, "/sync/meta", "--data-binary", "{}"), 400, "headers")
    refused("a key of another form", asked("meta", key="A" * 32), 400, "headers")
    refused("two keys", asked("meta", "-H", "X-Anki-Key: " + UNKNOWN), 400, "headers")
    refused("an unknown key", asked("meta", key=UNKNOWN), 403, "key")
    refused("a body that is no JSON", asked("meta", body="x"), 400, "body")
    refused("a base that is not the committed moment", asked("start", body='{"lmod":0,"minUsn":0}', step=1), 409, "base", json.loads(asked("meta")[4:])["mod"])
    told = json.loads(asked("meta")[4:])
    print("meta: 200", json.dumps(told))
    base = told["mod"]
    refused("another session", asked("start", body='{"lmod":0,"minUsn":0}', step=1, base=base, session="b" * 16), 409, "no session")
    refused("a step too far", asked("start", body='{"lmod":0,"minUsn":0}', step=2, base=base), 409, "step")
    refused("a method that may not come", asked("finish", step=1, base=base), 409, "step")
    refused("a number that is not there yet", asked("start", body='{"lmod":0,"minUsn":9}', step=1, base=base), 409, "usn", told["usn"])
    refused("the last moment", asked("start", body='{"lmod":9223372036854775807,"minUsn":0}', step=1, base=base), 409, "sequence", told["usn"])
    print("start:", expect("start", asked("start", body='{"lmod":0,"minUsn":0}', step=1, base=base), '200 {"cards":[],"decks":[],"notes":[]}'))
    print("start again:", expect("start again", asked("start", body='{"lmod":0,"minUsn":0}', step=1, base=base), '200 {"cards":[],"decks":[],"notes":[]}'))
    graves = {"chunk": {"cards": list(range(1, 252)), "decks": [], "notes": []}}
    got = asked("applyGraves", body=json.dumps(graves), step=2, base=base)
    refused("251 graves", got, *((400, "body") if "body" in got else (400, "rows")))
    refused("a head of 17,000 bytes", asked("meta", "-H", "X-Long: " + "x" * 17000), 400, "head")
    refused("65 headers", asked("meta", *(word for n in range(65) for word in ("-H", "X-H%d: 1" % n))), 400, "head")
    print("a body that is cut:", expect("cut", cut_body(port, server.key()), 400))
    expect("a meta", asked("meta")[:3], "200")
    told = json.loads(asked("download", step=1, base=base)[4:])
    print("download: 200, with", ", ".join(sorted(told)))
    server.end()


def cut_body(port, key):
    """The status that answers a body which ends before its length."""
    with socket.create_connection(("127.0.0.1", port), timeout=60) as link:
        link.sendall(head_of(key, 100) + b"{}")
        link.shutdown(socket.SHUT_WR)
        return int(link.makefile("rb").readline().split()[1])


def head_of(key, length):
    heads = "".join("%s: %s\r\n" % it for it in envelope(key).items())
    return ("POST /sync/meta HTTP/1.1\r\n%sContent-Length: %d\r\n\r\n" % (heads, length)).encode()


def served_after(server, began):
    """How long another client waits until it is served."""
    expect("the next request", meta(server.port, server.key(), seconds=600)[0], 200)
    return time.monotonic() - began


def try_clients(tools, room):
    server = Server(tools, os.path.join(room, "server"))
    server.start()
    port = server.port

    def connect():
        return socket.create_connection(("127.0.0.1", port), timeout=120)

    for what, data in (("closes at once", b""), ("closes in its head", b"POST /sync/me"), ("closes in its body", head_of(server.key(), 1000) + b"{")):
        link = connect()
        link.sendall(data)
        link.close()
        print("a client that %s: the next is served after %.2f s" % (what, served_after(server, time.monotonic())))
    for what, data in (("its head", b"POST /sync/meta HTTP/1.1\r\n"), ("its body", head_of(server.key(), 1 << 20) + b"x" * 4096)):
        link = connect()
        link.sendall(data)
        time.sleep(0.05)
        link.setsockopt(socket.SOL_SOCKET, socket.SO_LINGER, struct.pack("ii", 1, 0))
        link.close()
        print("a client that resets in the middle of %s: the next is served after %.2f s" % (what, served_after(server, time.monotonic())))
    # 300 MB: refused by its length, while the client still sends.
    sent, reply = send_much(port, server.key(), 314_572_800)
    print("a client that sends 300 MB is answered %s after %d bytes went out; the next is served after %.2f s" % (reply, sent, served_after(server, time.monotonic())))
    expect("the answer to 300 MB", reply, "413 ")
    # The most that is read: 256 MiB of no JSON.
    began = time.monotonic()
    sent, reply = send_much(port, server.key(), 268_435_456)
    took, memory = time.monotonic() - began, [it >> 10 for it in server.memory()]
    print("a client that sends 256 MiB of no JSON is answered %s after %.1f s; memory now and at most %s MiB" % (reply, took, memory))
    served_after(server, time.monotonic())
    # A drip: a byte each second, for half a minute, and then it goes. The whole limit of a connection is 15 minutes.
    drip = connect()
    began = time.monotonic()
    for byte in b"POST /sync/meta HTTP/1.1\r\nX-Anki-K"[:30]:
        drip.sendall(bytes([byte]))
        time.sleep(1)
    drip.close()
    print("a client that drips for 30 s and goes: the next is served %.1f s after it came" % served_after(server, began))
    silent = connect()
    print("a silent client: the next is served after %.1f s" % served_after(server, time.monotonic()))
    silent.close()
    server.end()


def try_drip(tools, room):
    server = Server(tools, os.path.join(room, "server"))
    server.start()
    began = time.monotonic()
    with socket.create_connection(("127.0.0.1", server.port), timeout=5) as link:
        link.sendall(head_of(server.key(), 100_000))
        while time.monotonic() - began < 1200:
            try:
                link.sendall(b"x")
                time.sleep(5)
            except OSError:
                break
    print("a client that drips is cut after %.0f s; the next is served after %.1f s" % (time.monotonic() - began, served_after(server, began)))
    expect("cut at all", time.monotonic() - began < 1200, True)
    server.end()


def send_much(port, key, length):
    """Sends a body of this length; how many bytes went out, and the status of the answer."""
    piece, sent = b"x" * (1 << 20), 0
    with socket.create_connection(("127.0.0.1", port), timeout=600) as link:
        link.sendall(head_of(key, length))
        try:
            while sent < length:
                sent += link.send(piece[: length - sent])
        except OSError:
            pass
        try:
            return sent, link.recv(4096).split(b" ")[1].decode() + " "
        except (OSError, IndexError) as fault:
            return sent, "nothing (%s)" % fault


def try_hunger(tools, room):
    server = Server(tools, os.path.join(room, "server"))
    server.spawn(200 << 20)
    wait_for_port(server.port, server.process)
    one = meta(server.port, server.key())[0]
    _, reply = send_much(server.port, server.key(), 268_435_456)
    print("a server that may take 200 MiB answers 256 MiB with %s" % expect("the answer", reply, "500 "))
    print("and serves the next: %d" % expect("the next", meta(server.port, server.key())[0], one))
    server.end()


def try_second(tools, room):
    server = Server(tools, os.path.join(room, "server"))
    server.start()
    second = Server(tools, os.path.join(room, "server"))
    second.accounts = server.accounts
    parting.write_secret(os.path.join(room, "server", "accounts.toml"), parting.text_of(server.accounts))
    second.spawn()
    print("a second ankid on the same files ends with", expect("a second ankid", second.process.wait(timeout=60), 6))
    other = Server(tools, os.path.join(room, "other"), port=server.port)
    other.spawn()
    print("a second ankid at the same port ends with", expect("the same port", other.process.wait(timeout=60), 9))
    print("meanwhile the first serves:", expect("the first", meta(server.port, server.key())[0], 200))
    print("a desk on a file that ankid has open ends with", expect("a desk", Device(tools, server.file(), server.key()).run("-", "desk", given="check\n").returncode, 6))
    twins = Server(tools, os.path.join(room, "twins"), 2)
    twins.accounts[1]["file"] = twins.accounts[0]["file"]
    parting.write_secret(os.path.join(room, "twins", "accounts.toml"), parting.text_of(twins.accounts))
    twins.spawn()
    print("two accounts with one file: it ends with", expect("two accounts with one file", twins.process.wait(timeout=60), 6))
    for what, text, status in (("an unknown key of a table", '[[account]]\nname="a"\nkey="%s"\nfile="a"\nx=1\n' % UNKNOWN, 3), ("no accounts' file", None, 4)):
        path = os.path.join(room, "other", "accounts.toml")
        if text is None:
            os.remove(path)
        else:
            parting.write_secret(path, text)
        other.spawn()
        print("%s: it ends with" % what, expect(what, other.process.wait(timeout=60), status))
    words = subprocess.run([tools.ankid], stdout=subprocess.PIPE, text=True)
    print("without words it ends with", expect("no words", (words.returncode, words.stdout), (2, "usage\n")))
    print("SIGTERM ends it with", expect("SIGTERM", server.end(), -15))


def try_begin(tools, room):
    server = Server(tools, os.path.join(room, "server"))
    one, two, three = (Device(tools, os.path.join(room, name + ".anki"), server.key()) for name in ("one", "two", "three"))
    one.begin()
    one.day(1, 8)
    if tools.has_transfers():
        server.start()
        print("a device with a collection of its own: its first sync says", one.needs_whole(server.port))
        one.upload(server.port)
        two.begin()
        two.download(server.port)
    else:
        copy_files(one.path, server.file())
        copy_files(one.path, two.path)
        server.start()
    for device in (one, two):
        print("%s, by %s: the next sync says %s" % (os.path.basename(device.path), ways(tools), expect("first sync", device.sync(server.port)[1], *in_step(tools))))
    for first, second in ((one, two), (two, one)):
        first.day(2, 5)
        for device in (first, second):
            expect("a sync", device.sync(server.port), (0, "finished"))
    if tools.has_transfers():
        three.begin()
    server_wins(tools, server, three)
    three.day(3, 4)
    for device in (three, one, two):
        expect("a sync", device.sync(server.port), (0, "finished"))
    expect("contents", content(one.path) == content(two.path) == content(three.path) == content(server.file()), True)
    print("three devices and the server then hold the same %d notes and %d reviews" % (len(content(one.path)["notes"]), len(one.reviews())))
    server.end()


def try_schema(tools, room):
    server = Server(tools, os.path.join(room, "server"))
    one, two = devices_of(tools, server)
    begun = Device(tools, os.path.join(room, "begun.anki"), server.key())
    begun.begin()
    print("a device that began by init:", begun.needs_whole(server.port))
    one.desk('note 1 1 ["a","b"]')
    one.finish(server.port)
    two.finish(server.port)
    [[text]] = query(one.path, "select models from col")
    one.desk("allow untype %d" % max(map(int, json.loads(text))), 'note 1 1 ["not synced","b"]')
    print("a device that deleted a note type:", one.needs_whole(server.port))
    kept = copied(one.path, room)
    # The server wins: the device gives up its change and its note.
    server_wins(tools, server, one)
    print("the server wins, by %s: the device syncs with %s" % (ways(tools), expect("the first device", one.finish(server.port), "no changes")))
    two.desk('note 1 1 ["c","d"]')
    expect("the other device", two.finish(server.port), "finished")
    expect("the first device", one.finish(server.port), "finished")
    expect("contents", content(one.path) == content(two.path) == content(server.file()), True)
    expect("the note that was not synced", fronts(one.path).count("not synced"), 0)
    # The device wins: the account gives up the other's note.
    copy_files(kept, one.path)
    print("the device with the change again:", one.needs_whole(server.port))
    device_wins(tools, server, one)
    said = expect("the device", one.sync(server.port)[1], *in_step(tools)), two.needs_whole(server.port)
    print("the device wins, by %s: it syncs with %s, the other with %s" % (ways(tools), *said))
    server_wins(tools, server, two)
    expect("the notes", sorted(fronts(two.path)), ["a", "not synced"])
    expect("the note types", query(two.path, "select models from col") == query(one.path, "select models from col"), True)
    two.desk('note 1 1 ["e","f"]')
    expect("the other device", two.finish(server.port), "finished")
    expect("the first device", one.finish(server.port), "finished")
    expect("contents", content(one.path) == content(two.path) == content(server.file()), True)
    server.end()


def fronts(path):
    """The first field of each note."""
    return [row[0].split("\x1f")[0] for row in query(path, "select flds from notes order by id")]


def try_restore(tools, room):
    server = Server(tools, os.path.join(room, "server"))
    one, two = devices_of(tools, server)
    one.day(1, 4)
    one.finish(server.port)
    two.finish(server.port)
    backup = backup_of(server, room)
    one.day(2, 4)
    one.finish(server.port)
    told = one.reviews()
    put_back(server, backup)
    for name, device in (("that synced after the backup", one), ("that did not", two)):
        device.desk('note 1 1 ["after the restore","%s"]' % name)
        status, line = device.sync(server.port)
        print("after a restore, a device %s: %d %s" % (name, status, line))
    print("of %d reviews that the first device synced before the restore, the server lacks %d after these syncs" % (len(told), lacks(server, told)))
    for turn in (1, 2):
        two.desk('note 1 1 ["after the restore, again","%d"]' % turn)
        print("then the device that did not: %d %s" % two.sync(server.port))
        print("and the one that synced after the backup: %d %s" % one.sync(server.port))
    same = "the same" if content(one.path) == content(server.file()) else "different rows"
    print("after these syncs the first device and the server hold %s, and the server lacks %d of the reviews" % (same, lacks(server, told)))
    kept = copied(server.file(), room), copied(two.path, room), copied(one.path, room)
    # The device wins that has all that was synced.
    device_wins(tools, server, one)
    print("the device that synced after the backup wins, by %s: the server lacks %d of the reviews" % (ways(tools), expect("lost reviews", lacks(server, told), 0)))
    print("the other device's sync then:", two.needs_whole(server.port) if tools.has_transfers() else "not tried")
    server_wins(tools, server, two)
    two.desk('note 1 1 ["after the way out","y"]')
    expect("the other device", two.finish(server.port), "finished")
    expect("the device", one.finish(server.port), "finished")
    expect("contents", content(one.path) == content(two.path) == content(server.file()), True)
    # The restored file wins: each device that synced after the backup takes it.
    server.end()
    for copy, path in zip(kept, (server.file(), two.path, one.path)):
        copy_files(copy, path)
    server.start()
    server_wins(tools, server, one)
    one.desk('note 1 1 ["after the way out","x"]')
    print("the restored file wins, by %s: the device syncs with %s" % (ways(tools), expect("after the way out", one.finish(server.port), "finished")))
    two.finish(server.port)
    expect("contents", content(one.path) == content(two.path) == content(server.file()), True)
    server.end()
    restore_unseen(tools, os.path.join(room, "unseen"))


def backup_of(server, room):
    """A copy of an account's file, made while ankid is down."""
    server.end()
    made = copied(server.file(), room)
    server.start()
    return made


def put_back(server, backup):
    """Puts a copy back in the place of an account's file, while ankid is down."""
    server.end()
    copy_files(backup, server.file())
    server.start()


def lacks(server, told):
    """How many of these reviews the server has not."""
    return len(told - reviews_of(server.file()))


def restore_unseen(tools, room):
    """Both sides gain as many rows after a backup: no count differs, and every sync says `finished`, though each side lacks a review of the other. The ways out
    end that too."""
    server = Server(tools, os.path.join(room, "server"))
    one, two = devices_of(tools, server, ("unseen-one", "unseen-two"))
    cards = [line.split()[3] for line in one.desk(*('note 1 1 ["%d","x"]' % n for n in range(4)))]
    for device in (one, two, one):
        device.finish(server.port)
    backup = backup_of(server, room)
    one.desk("answer %s 3 1000" % cards[0])
    one.finish(server.port)
    told = one.reviews()
    put_back(server, backup)
    said = []
    for device, card in ((two, cards[1]), (one, cards[2])):
        device.desk("answer %s 3 1000" % card)
        said.append(device.sync(server.port)[1])
    apart = len(one.reviews() - reviews_of(server.file())), len(reviews_of(server.file()) - one.reviews())
    print("a restore that no sync shows: the syncs said %s; the server lacks %d reviews of the device, the device %d of the server" % (" and ".join(said), *apart))
    device_wins(tools, server, one)
    server_wins(tools, server, two)
    expect("lost reviews", lacks(server, told), 0)
    for device in (one, two, one):
        device.desk("answer %s 3 1000" % cards[3])
        device.finish(server.port)
    two.finish(server.port)
    expect("contents", content(one.path) == content(two.path) == content(server.file()), True)
    print("the device that synced after the backup wins, by %s: both devices and the server hold the same %d reviews" % (ways(tools), len(one.reviews())))
    server.end()


def ways(tools):
    """In which way whole collections go between devices and server in these trials."""
    return "upload and download" if tools.has_transfers() else "copies of files"


def in_step(tools):
    """What the next sync of a device says. After a copy of its file it has its rows still to send, which the server has too."""
    return ("no changes",) if tools.has_transfers() else ("no changes", "finished")


def device_wins(tools, server, device):
    """The account takes a device's collection."""
    if tools.has_transfers():
        device.upload(server.port)
    else:
        copy_from(server, device)


def server_wins(tools, server, device):
    """A device takes the account's collection."""
    if tools.has_transfers():
        device.download(server.port)
    else:
        copy_to(server, device)


def copy_from(server, device, n=0):
    """Stops the server, gives the account a copy of a device's file in the place of its own, and starts it."""
    server.end()
    copy_files(device.path, server.file(n))
    server.start()


def copy_to(server, device, n=0):
    """Stops the server, gives a device a copy of the account's file in the place of its own, and starts it."""
    server.end()
    copy_files(server.file(n), device.path)
    server.start()


def copy_files(path, target):
    """Copies a collection's file, with its log if there is one, over another's."""
    for end in ("", "-wal"):
        if os.path.exists(path + end):
            shutil.copyfile(path + end, target + end)
        elif os.path.exists(target + end):
            os.remove(target + end)


def try_kills(tools, room):
    server = Server(tools, os.path.join(room, "server"))
    devices = devices_of(tools, server)
    chance = random.Random(7)
    for device in devices:
        device.cards = [line.split()[3] for line in device.desk(*('note 1 1 ["%s %d","x"]' % (device.path[-8:], n) for n in range(10)))]
        device.finish(server.port)
    for device in devices:
        device.finish(server.port)
    devices[0].desk("answer %s 3 1000" % devices[0].cards[0])
    began = time.monotonic()
    devices[0].finish(server.port)
    whole = time.monotonic() - began
    told, counts = set(), {"server": 0, "client": 0, "after the end": 0}
    number = whole_syncs = 0
    while counts["server"] + counts["client"] < tools.words.kills:
        device = devices[number % 2]
        number += 1
        device.desk(*("answer %s %d 1000" % (chance.choice(device.cards), chance.randint(2, 4)) for _ in range(3)))
        made = device.reviews()
        words = [tools.anki, device.path, "127.0.0.1:%d" % server.port, "sync", device.key]
        client = subprocess.Popen(words, stdout=subprocess.PIPE, stderr=subprocess.DEVNULL, text=True)
        tools.started.append(client)
        time.sleep(chance.uniform(0, whole * 1.3))
        who = "server" if number % 4 < 2 else "client"
        if client.poll() is not None:
            counts["after the end"] += 1
        elif who == "client":
            client.kill()
            counts[who] += 1
        if who == "server":
            was_over = client.poll() is not None
            server.end(signal.SIGKILL)
            counts[who] += 0 if was_over else 1
            # What the server holds was told as synced by its answer to the finish, even if the client is gone.
            told |= look_at_killed(tools, server, told, room) if number % 8 < 2 else set()
            server.start()
        said = client.communicate(timeout=120)[0].strip()
        if said == "finished":
            told |= made
        look_at_device(device, made)
        if number % 3 == 0:
            device.finish(server.port)
            told |= device.reviews()
            whole_syncs += 1
    for device in (*devices, *devices):
        expect("the sync at the end", device.finish(server.port), "finished", "no changes")
    server.end()
    for path in (devices[0].path, devices[1].path, server.file()):
        expect("told reviews that %s lacks" % path, len(told - reviews_of(path)), 0)
        integrity(path)
    for device in devices:
        device.is_sound()
    Device(tools, server.file(), "").is_sound()
    expect("contents", content(devices[0].path) == content(devices[1].path) == content(server.file()), True)
    print("%d kills of the server and %d of the client while a sync ran (a whole sync took %.2f s), %d syncs that had ended before the kill, %d whole syncs between: both files opened "
          "and were sound each time; at the end all three files have the %d reviews that were told as synced, of %d"
          % (counts["server"], counts["client"], whole, counts["after the end"], whole_syncs, len(told), len(devices[0].reviews())))


def try_wholes(tools, room):
    if not tools.has_transfers():
        print("not tried: this anki has no upload and no download")
        return
    server = Server(tools, os.path.join(room, "server"))
    devices = devices_of(tools, server)
    began = time.monotonic()
    devices[0].upload(server.port)
    whole, chance = time.monotonic() - began, random.Random(7)
    counts, ends, number = {"server": 0, "client": 0, "after the end": 0}, {}, 0
    while counts["server"] + counts["client"] < tools.words.kills / 10:
        device, word = devices[number % 2], ("upload", "download")[number // 2 % 2]
        number += 1
        device.desk('note 1 1 ["before the %s %d","x"]' % (word, number))
        before = content(device.path), content(server.file())
        client = subprocess.Popen([tools.anki, device.path, "127.0.0.1:%d" % server.port, word, device.key], stdout=subprocess.PIPE, stderr=subprocess.DEVNULL, text=True)
        tools.started.append(client)
        time.sleep(chance.uniform(0, whole * 1.3))
        who = "after the end" if client.poll() is not None else ("server", "client")[number // 4 % 2]
        counts[who] += 1
        if who == "client":
            client.kill()
        elif who == "server":
            server.end(signal.SIGKILL)
            server.start()
        said = client.communicate(timeout=120)[0].strip() or "nothing"
        ends[said] = ends.get(said, 0) + 1
        look_at_whole(device, server, before, word if said == "finished" else "")
    devices[0].upload(server.port)
    devices[1].download(server.port)
    expect("contents", content(devices[0].path) == content(devices[1].path) == content(server.file()), True)
    server.end()
    integrity(server.file())
    print("%d kills of the server and %d of the client in the middle of an upload or a download (a whole upload took %.2f s), %d that had ended before the kill; these printed %s: "
          "each time the device's file was sound, and either side held one of the two collections whole"
          % (counts["server"], counts["client"], whole, counts["after the end"], ", ".join("%s %d times" % it for it in sorted(ends.items()))))


def look_at_whole(device, server, before, finished):
    """After a kill the device and the server each hold what one of the two held before. What finished replaced the one side by the other."""
    device.is_sound()
    held, committed = content(device.path), content(server.file())
    expect("the device holds one of the two", held in before, True)
    expect("the server holds one of the two", committed in before, True)
    if finished:
        expect("what the %s brought" % finished, held == committed == before[0 if finished == "upload" else 1], True)


def look_at_killed(tools, server, told, room):
    """After a kill the server's file is sound, and has each review that was told as synced."""
    with tempfile.TemporaryDirectory(dir=room) as folder:
        copy = copied(server.file(), folder)
        held = reviews_of(copy)
        expect("told reviews that the killed server lacks", len(told - held), 0)
        Device(tools, copy, "").is_sound()
        return held


def look_at_device(device, made):
    expect("check after a kill", device.desk("check"), ["sound"])
    expect("reviews that the device lost", len(made - device.reviews()), 0)


def try_full(tools, room):
    disk = os.path.join(room, "disk")
    os.mkdir(disk)
    if subprocess.run(["mount", "-t", "tmpfs", "-o", "size=3m", "tmpfs", disk], stderr=subprocess.DEVNULL).returncode != 0:
        print("not tried: no disk can be mounted here")
        return
    try:
        server = Server(tools, os.path.join(disk, "server"))
        server.start()
        server.end()
        path = os.path.join(room, "one.anki")
        copy_files(server.file(), path)
        one = Device(tools, path, server.key())
        server.start()
        one.desk(*('note 1 1 ["%d %s","x"]' % (n, "f" * 100) for n in range(20)))
        expect("a sync with room", one.sync(server.port), (0, "finished"))
        filler = os.path.join(disk, "filler")
        with open(filler, "wb", buffering=0) as file:
            try:
                while file.write(b"x" * 4096):
                    pass
            except OSError:
                pass
        one.desk(*('note 1 1 ["%d %s","x"]' % (n, "g" * 1000) for n in range(200)))
        for turn in (1, 2):
            print("sync %d with a full disk: %s" % (turn, one.sync(server.port)))
        status, body = meta(server.port, server.key())
        print("a meta with a full disk: %d %s" % (status, body.decode()[:80]))
        os.remove(filler)
        got = one.sync(server.port)
        print("after space was freed, without a start anew: %s" % (got,))
        if got[0] != 0:
            server.end()
            server.start()
            print("after a start anew: %s" % (expect("after a start anew", one.sync(server.port), (0, "finished")),))
        one.is_sound()
        expect("contents", content(one.path)["notes"] == content(server.file())["notes"], True)
        print("the server ended with", server.end())
    finally:
        if server.process.poll() is None:
            server.end(signal.SIGKILL)
        subprocess.run(["umount", disk])


def try_many(tools, room):
    server = Server(tools, os.path.join(room, "server"))
    one, two = devices_of(tools, server)
    cards = [line.split()[3] for line in one.desk(*('note 1 1 ["%d","x"]' % n for n in range(20)))]
    one.finish(server.port)
    began, seen = time.monotonic(), []
    count = tools.words.syncs
    for number in range(count):
        if time.monotonic() - began > tools.words.seconds:
            count = number
            break
        one.desk("flag %d %s" % (number // 20 % 2 + 1, cards[number % 20]))
        expect("sync %d" % number, one.sync(server.port), (0, "finished"))
        if number % max(1, tools.words.syncs // 10) == 0:
            seen.append(server.memory()[0])
    took = time.monotonic() - began
    print("%d syncs in a row, each of one changed card, in %.0f s (with a desk before each); the server's memory in KiB meanwhile: %s, at the end %d, most %d"
          % (count, took, seen, *server.memory()))
    print("its open files: %d; the log beside its file: %d bytes" % (len(os.listdir("/proc/%d/fd" % server.process.pid)), os.path.getsize(server.file() + "-wal")))
    expect("growth over a tenth", server.memory()[0] <= 1.1 * seen[1] + 1024, True)
    server.end()


class Session:
    """The requests of one sync, without a device: what it is given is thrown away."""

    def __init__(self, port, key):
        self.port, self.key, self.step, self.name = port, key, 0, secrets.token_hex(8)
        self.base = 0
        self.told = self.asked("meta", {})
        self.base = self.told["mod"]

    def asked(self, method, body):
        status, reply = ask(self.port, "/sync/" + method, json.dumps(body).encode(), headers=envelope(self.key, self.name, self.step, self.base))
        expect(method, (status, reply[:60] if status != 200 else b""), (200, b""))
        self.step += 1
        return json.loads(reply)

    def sync(self, note, counts):
        """Sends one note, as a device that is not the newer side and has all else; how many requests that were."""
        self.asked("start", {"lmod": 0, "minUsn": self.told["usn"]})
        self.asked("applyChanges", {"changes": {"decks": [[], []], "models": [], "tags": []}})
        expect("a chunk", self.asked("chunk", {})["done"], True)
        self.asked("applyChunk", {"chunk": {"cards": [], "done": True, "notes": [note], "revlog": []}})
        expect("the sanity check", self.asked("sanityCheck2", {"client": counts})["status"], "ok")
        self.asked("finish", {})
        return self.step


def try_sessions(tools, room):
    server = Server(tools, os.path.join(room, "server"))
    [one] = devices_of(tools, server, ("one",))
    one.desk(*('note 1 1 ["%d","x"]' % n for n in range(20)))
    one.finish(server.port)
    session = Session(server.port, server.key())
    held = session.asked("download", {})
    counts = [[0, 0, 0], *(len(held[it]) for it in ("cards", "notes", "revlog", "graves", "models", "decks", "options"))]
    note, requests, seen = held["notes"][0], 0, []
    began, cost = time.monotonic(), server.seconds()
    for number in range(tools.words.syncs):
        note[3] += 1
        requests += Session(server.port, server.key()).sync(note, counts)
        if number % max(1, tools.words.syncs // 10) == 0:
            seen.append(server.memory()[0])
    took, cost = time.monotonic() - began, server.seconds() - cost
    print("%d syncs in a row as %d requests, each of one changed note, in %.0f s: %.0f syncs and %.0f requests a second, %.2f ms of the server's processor for each sync"
          % (tools.words.syncs, requests, took, tools.words.syncs / took, requests / took, 1000 * cost / tools.words.syncs))
    print("the server's memory in KiB meanwhile: %s, at the end %d, most %d; its open files: %d; the log beside its file: %d bytes"
          % (seen, *server.memory(), len(os.listdir("/proc/%d/fd" % server.process.pid)), os.path.getsize(server.file() + "-wal")))
    expect("growth over a tenth", server.memory()[0] <= 1.1 * seen[1] + 1024, True)
    expect("a device's sync", one.sync(server.port), (0, "finished"))
    expect("contents", content(one.path)["notes"] == content(server.file())["notes"], True)
    server.end()


def fill(tools, server, notes, n=0):
    """A device whose notes the server has too."""
    path = os.path.join(os.path.dirname(server.room), "%d-%d.anki" % (notes, n))
    server.end()
    copy_files(server.file(n), path)
    device = Device(tools, path, server.key(n))
    device.desk(*('note 1 1 ["the front of note %d, some words long","its back, some words long too"]' % it for it in range(notes)))
    server.start()
    began = time.monotonic()
    expect("the sync of %d notes" % notes, device.sync(server.port), (0, "finished"))
    return device, time.monotonic() - began


def try_speed(tools, room):
    for notes in tools.words.notes:
        server = Server(tools, os.path.join(room, "server%d" % notes))
        server.start()
        device, took = fill(tools, server, notes)
        print("%d notes: the sync that brings them to the server takes %.2f s" % (notes, took))
        server.end()
        starts = []
        for _ in range(5):
            starts.append(server.start())
            server.end()
        server.start()
        print("%d notes: from start to the first answer %s s" % (notes, " ".join("%.3f" % it for it in starts)))
        for what, path, key in (("GET /", "/", None), ("meta of an unknown key", "/sync/meta", UNKNOWN), ("meta", "/sync/meta", server.key())):
            took, cost = requests_timed(server, path, key, 500)
            print("%d notes: %s: %.0f requests a second, one after another; %.2f ms of the server's processor each" % (notes, what, 500 / took, 1000 * cost / 500))
        cards = [str(row[0]) for row in query(device.path, "select id from cards order by id limit 20")]
        count, took, cost = 20, 0, server.seconds()
        for number in range(count):
            device.desk("flag %d %s" % (number % 2 + 1, cards[number]))
            began = time.monotonic()
            expect("a sync", device.sync(server.port), (0, "finished"))
            took += time.monotonic() - began
        cost = server.seconds() - cost
        print("%d notes: a whole sync of one changed card takes %.3f s, of that %.3f s of the server's processor; memory now and at most %s MiB"
              % (notes, took / count, cost / count, [it >> 10 for it in server.memory()]))
        push_day(device, server, notes)
        print("the same push by plain Python with sqlite3 takes %.3f s, the start of its processes not counted" % plain_push(tools, room, device))
        server.end()


def push_day(device, server, notes):
    """12 new notes and 192 reviews, and the sync that brings them."""
    told = device.desk(*('note 1 1 ["new %d","x"]' % n for n in range(12)))
    cards = [line.split()[3] for line in told]
    device.desk(*("answer %s %d 2000" % (cards[n % 12], 3) for n in range(192)))
    cost, began = server.seconds(), time.monotonic()
    expect("the push", device.sync(server.port), (0, "finished"))
    took, cost = time.monotonic() - began, server.seconds() - cost
    print("%d notes: a push of 12 notes and 192 reviews takes %.3f s, of that %.3f s of the server's processor" % (notes, took, cost))


# A server as one would write it in an afternoon: rows as JSON, a file of SQLite, one commit at the end, no check and no session.
PLAIN_SERVER = """
import http.server, json, sqlite3, sys
link = sqlite3.connect(sys.argv[2])
link.execute("pragma journal_mode = wal")
link.execute("pragma synchronous = full")
link.execute("create table if not exists notes (id integer primary key, row text)")
link.execute("create table if not exists revlog (id integer primary key, row text)")

class Plain(http.server.BaseHTTPRequestHandler):
    def do_POST(self):
        told = json.loads(self.rfile.read(int(self.headers["Content-Length"])))
        for table in ("notes", "revlog"):
            link.executemany("insert or replace into %s values (?, ?)" % table, ((row[0], json.dumps(row)) for row in told.get(table, [])))
        if told.get("finish"):
            link.commit()
        reply = b"{}"
        self.send_response(200)
        self.send_header("Content-Length", str(len(reply)))
        self.end_headers()
        self.wfile.write(reply)
    def do_GET(self):
        self.send_error(404)
    def log_message(self, *words):
        pass

http.server.HTTPServer(("127.0.0.1", int(sys.argv[1])), Plain).serve_forever()
"""


def plain_push(tools, room, device):
    """The same push by plain Python: eight requests, the rows of 12 notes and 192 reviews, one commit; what the two processes are started with is not in it."""
    port = free_port()
    process = subprocess.Popen([sys.executable, "-c", PLAIN_SERVER, str(port), os.path.join(room, "plain.db")])
    tools.started.append(process)
    wait_for_port(port, process)
    began = time.monotonic()
    link = sqlite3.connect(device.path)
    notes = link.execute("select * from notes order by id desc limit 12").fetchall()
    reviews = link.execute("select * from revlog order by id desc limit 192").fetchall()
    for body in ({}, {}, {}, {}, {"notes": notes}, {"revlog": reviews}, {}, {"finish": True}):
        expect("the plain server", ask(port, "/", json.dumps(body).encode())[0], 200)
    link.close()
    took = time.monotonic() - began
    process.kill()
    process.wait()
    return took


def requests_timed(server, path, key, count):
    cost, began = server.seconds(), time.monotonic()
    for _ in range(count):
        if key is None:
            ask(server.port, path, method="GET")
        else:
            meta(server.port, key)
    return time.monotonic() - began, server.seconds() - cost


def try_memory(tools, room):
    notes = tools.words.notes[0]
    for count in (1, 10, 50):
        server = Server(tools, os.path.join(room, "empty%d" % count), count)
        server.start()
        print("%d accounts as they are made: %d KiB" % (count, server.memory()[0]))
        server.end()
    server = Server(tools, os.path.join(room, "full"), 50)
    server.start()
    device, _ = fill(tools, server, notes)
    server.end()
    sizes = os.path.getsize(server.file(0)), os.path.getsize(server.file(0) + "-wal") if os.path.exists(server.file(0) + "-wal") else 0
    for n in range(1, 50):
        copy_files(server.file(0), server.file(n))
    every = server.accounts
    for count in (1, 10, 50):
        server.accounts = every[:count]
        parting.write_secret(os.path.join(server.room, "accounts.toml"), parting.text_of(server.accounts))
        took = server.start()
        print("%d accounts of %d notes each (a file of %d bytes and a log of %d): %.1f MiB, %.2f s from start to the first answer"
              % (count, notes, *sizes, server.memory()[0] / 1024, took))
        server.end()


def certificate(room):
    """A certificate made here, for localhost."""
    words = ["openssl", "req", "-x509", "-newkey", "rsa:2048", "-nodes", "-days", "2", "-subj", "/CN=localhost", "-addext", "subjectAltName=DNS:localhost,IP:127.0.0.1"]
    subprocess.run([*words, "-keyout", os.path.join(room, "key.pem"), "-out", os.path.join(room, "fullchain.pem")], check=True, stderr=subprocess.DEVNULL)


class Nginx:
    """nginx with one of the sites of this folder, its ports and paths changed to those of a trial."""

    def __init__(self, tools, room, site, port, changes, rate=None):
        self.room, self.port = room, port
        with open(os.path.join(HERE, site), encoding="utf-8") as file:
            text = file.read()
        for old, new in (("listen 443 ssl", "listen 127.0.0.1:%d ssl" % port), ("/etc/ssl/ankid", room), ("/var/log/nginx", room), *changes):
            if old not in text:
                raise Wrong("%s has no %s" % (site, old))
            text = text.replace(old, new)
        paths = "".join("%s_temp_path %s/%s;\n" % (it, room, it) for it in ("client_body", "proxy", "fastcgi", "uwsgi", "scgi"))
        with open(os.path.join(room, "nginx.conf"), "w", encoding="utf-8") as file:
            file.write("daemon off;\nuser root;\nworker_processes 1;\npid %s/nginx.pid;\nerror_log %s/error.log;\n" % (room, room))
            file.write("events { worker_connections 1024; }\nhttp {\n%s%s}\n" % (paths, text))
        self.process = subprocess.Popen([tools.words.nginx, "-c", os.path.join(room, "nginx.conf"), "-e", os.path.join(room, "error.log")])
        tools.started.append(self.process)
        for _ in range(500):
            with socket.socket() as link:
                if link.connect_ex(("127.0.0.1", port)) == 0:
                    return
            if self.process.poll() is not None:
                raise Wrong("nginx ended with %d" % self.process.returncode)
            time.sleep(0.01)
        raise Wrong("nginx does not listen")

    def end(self):
        self.process.terminate()
        self.process.wait(timeout=30)

    def log(self):
        with open(os.path.join(self.room, "ankid.log"), encoding="utf-8") as file:
            return file.read()


class Tunnel:
    """stunnel, as a device has it: takes plain connections at a port, and hands them on over TLS."""

    def __init__(self, tools, room, port):
        self.port = free_port()
        path = os.path.join(room, "stunnel.conf")
        lines = ["foreground = yes", "pid =", "syslog = no", "debug = err", "output = %s/stunnel.log" % room,
                 "[anki]", "client = yes", "accept = 127.0.0.1:%d" % self.port, "connect = 127.0.0.1:%d" % port,
                 "verifyChain = yes", "checkHost = localhost", "CAfile = %s/fullchain.pem" % room]
        with open(path, "w", encoding="utf-8") as file:
            file.write("\n".join(lines) + "\n")
        self.process = subprocess.Popen([tools.words.stunnel, path])
        tools.started.append(self.process)
        wait_for_port(self.port, self.process)


def try_tls(tools, room):
    certificate(room)
    server = Server(tools, os.path.join(room, "server"))
    one, two = devices_of(tools, server)
    nginx = Nginx(tools, room, "nginx-one.conf", free_port(), [("127.0.0.1:27701", "127.0.0.1:%d" % server.port)])
    tunnel = Tunnel(tools, room, nginx.port)
    one.day(1, 6)
    print("a sync through nginx over TLS:", expect("a sync", one.sync(tunnel.port), (0, "finished")))
    print("the other device:", expect("a sync", two.sync(tunnel.port), (0, "finished")))
    expect("contents", content(one.path) == content(two.path) == content(server.file()), True)
    base = ["curl", "-sS", "-m", "60", "--cacert", os.path.join(room, "fullchain.pem"), "-o", os.path.join(room, "body"), "-w", "%{http_code}"]
    url = "https://localhost:%d" % nginx.port

    def code(*words):
        return subprocess.run([*base, *words], stdout=subprocess.PIPE, text=True).stdout

    heads = [word for it in envelope(UNKNOWN).items() for word in ("-H", "%s: %s" % it)]
    print("GET /:", expect("GET /", code(url + "/"), "404"))
    print("a meta of an unknown key:", expect("403", code(url + "/sync/meta", *heads, "--data-binary", "{}"), "403"))
    with open(os.path.join(room, "large"), "wb") as file:
        file.truncate(65 << 20)
    print("a body of 65 MiB, from nginx:", expect("413", code(url + "/sync/meta", *heads, "--data-binary", "@" + os.path.join(room, "large")), "413"))
    chunked = code(url + "/sync/meta", *heads, "-H", "Transfer-Encoding: chunked", "--data-binary", "{}")
    print("a chunked body, which nginx gives a length:", expect("chunked", chunked, "403"))
    context = ssl.create_default_context(cafile=os.path.join(room, "fullchain.pem"))
    silent = context.wrap_socket(socket.create_connection(("127.0.0.1", nginx.port)), server_hostname="localhost")
    silent.sendall(head_of(UNKNOWN, 1000) + b"{")
    began = time.monotonic()
    code(url + "/")
    print("while a client is silent in its body, another is served after %.2f s" % (time.monotonic() - began))
    silent.close()
    server.end()
    print("while ankid is down:", expect("502", code(url + "/"), "502"))
    one.desk('note 1 1 ["while ankid is down","x"]')
    status, line = one.sync(tunnel.port)
    print("a device's sync meanwhile: %d %s" % (status, line))
    server.start()
    expect("a sync afterwards", one.finish(tunnel.port), "finished")
    text = nginx.log()
    expect("keys in the log", any(it["key"] in text for it in server.accounts), False)
    print("a line of the log:", text.splitlines()[0])
    server.end()
    nginx.end()


def try_servers(tools, room):
    """Whole syncs a second of many accounts, at one ankid and at four, both behind nginx."""
    count = tools.words.accounts
    single = Server(tools, os.path.join(room, "single"), count)
    single.start()
    single.end()
    devices = []
    os.mkdir(os.path.join(room, "devices"))
    for n in range(count):
        path = os.path.join(room, "devices", "%d.anki" % n)
        copy_files(single.file(n), path)
        devices.append(Device(tools, path, single.key(n)))
    with concurrent.futures.ThreadPoolExecutor(8) as pool:
        list(pool.map(lambda it: it.desk(*('note 1 1 ["%d","x"]' % n for n in range(100))), devices))
    single.start()
    plain = ("listen 127.0.0.1:%d ssl", "listen 127.0.0.1:%d")
    rates = [("rate=200r/s", "rate=100000r/s"), ("burst=2000 nodelay", "burst=100000 nodelay"), ("limit_conn ankid_links 200", "limit_conn ankid_links 1000")]
    off_room = os.path.join(room, "one")
    os.mkdir(off_room)
    certificate(off_room)
    port = free_port()
    nginx = Nginx(tools, off_room, "nginx-one.conf", port, [("127.0.0.1:27701", "127.0.0.1:%d" % single.port), (plain[0] % port, plain[1] % port), *rates])
    rate_at(devices, nginx.port, "1 ankid, %d accounts" % count, [single])
    nginx.end()
    single.end()
    # The same accounts, parted among four.
    folder = os.path.join(room, "servers")
    parting.split(os.path.join(single.room, "accounts.toml"), folder, 4)
    print("parted:", parting.check(folder), "accounts")
    four = []
    for number in (1, 2, 3, 4):
        it = Server.__new__(Server)
        it.tools, it.room, it.port, it.process = tools, os.path.join(folder, str(number)), free_port(), None
        it.accounts = parting.read_accounts(os.path.join(it.room, "accounts.toml"))
        it.start()
        four.append(it)
    routes = os.path.join(folder, "routes.map")

    def with_ports():
        with open(routes, encoding="utf-8") as file:
            text = file.read()
        for number, it in enumerate(four, 1):
            text = text.replace("127.0.0.1:%d;" % (parting.FIRST_PORT + number), "127.0.0.1:%d;" % it.port)
        parting.write_secret(os.path.join(off_room, "routes.map"), text)

    with_ports()
    port = free_port()
    # The keys stand in the log of this trial alone: they tell which server was asked for each account.
    changes = [("/var/lib/ankid/servers/routes.map", os.path.join(off_room, "routes.map")), ("default 127.0.0.1:27711", "default 127.0.0.1:%d" % four[0].port),
               (plain[0] % port, plain[1] % port), *rates, ("$upstream_addr'", "$upstream_addr $http_x_anki_key'")]
    os.remove(os.path.join(off_room, "ankid.log"))
    nginx = Nginx(tools, off_room, "nginx-many.conf", port, changes)
    rate_at(devices, nginx.port, "4 ankids, %d accounts" % count, four)
    print("an unknown key goes to server 1:", expect("an unknown key", meta(nginx.port, UNKNOWN)[0], 403))
    places = {}
    for line in nginx.log().splitlines():
        *_, address, key = line.split()
        places.setdefault(key, set()).add(address)
    places.pop(UNKNOWN, None)
    expect("keys that were asked", len(places), count)
    expect("accounts that two servers were asked for", sum(len(it) > 1 for it in places.values()), 0)
    for it in four:
        other = {account["key"] for account in it.accounts}
        expect("the server of each", all(places[key] == {"127.0.0.1:%d" % it.port} for key in other), True)
    # One account moves from server 1 to server 4.
    name, device = four[0].accounts[0]["name"], next(it for it in devices if it.key == four[0].key(0))
    four[0].end()
    four[3].end()
    parting.move(folder, name, 4)
    for it in (four[0], four[3]):
        it.accounts = parting.read_accounts(os.path.join(it.room, "accounts.toml"))
        it.start()
    with_ports()
    nginx.process.send_signal(signal.SIGHUP)
    time.sleep(1)
    device.desk('note 1 1 ["after the move","x"]')
    print("%s moved to server 4, and syncs: %s" % (name, expect("after the move", device.sync(nginx.port), (0, "finished"))))
    expect("where it went", nginx.log().splitlines()[-1].split()[-2:], ["127.0.0.1:%d" % four[3].port, device.key])
    expect("contents", content(device.path) == content(os.path.join(four[3].room, name + ".anki")), True)
    nginx.end()
    for it in four:
        it.end()


def rate_at(devices, port, what, some):
    """Each device makes an edit and syncs, 8 at a time; then again with the edits made before, so that only syncs are timed."""
    def edited(device):
        device.desk('note 1 1 ["%s","x"]' % secrets.token_hex(4))

    def synced(device):
        return device.finish(port)

    with concurrent.futures.ThreadPoolExecutor(8) as pool:
        list(pool.map(synced, devices))
        list(pool.map(edited, devices))
        cost, began = sum(it.seconds() for it in some), time.monotonic()
        said = list(pool.map(synced, devices))
        took = time.monotonic() - began
        cost = sum(it.seconds() for it in some) - cost
    print("%s: %d whole syncs in %.2f s by 8 devices at a time, %.1f a second; %.1f ms of the servers' processors each"
          % (what, len(said), took, len(said) / took, 1000 * cost / len(said)))
    expect("syncs that finished", said.count("finished"), len(devices))


class Tools:
    """The programs, the words, and what was started."""

    def __init__(self, words):
        self.words, self.started = words, []
        self.anki = os.path.abspath(words.anki) if words.anki else found("anki")
        self.ankid = os.path.abspath(words.ankid) if words.ankid else found("ankid")
        self.transfers = None

    def has_transfers(self):
        """Whether this anki has the commands upload and download."""
        if self.transfers is None:
            with tempfile.TemporaryDirectory(prefix="ankid-trial-") as room:
                one = Device(self, os.path.join(room, "one.anki"), UNKNOWN)
                one.begin()
                self.transfers = all(one.run("-", word, UNKNOWN).stdout != "usage\n" for word in ("upload", "download"))
        return self.transfers

    def end_all(self):
        """Ends what a trial left running: processes that it started, by their handles."""
        for process in self.started:
            if process.poll() is None:
                process.kill()
                process.wait()
        self.started.clear()


def found(name):
    return subprocess.run([os.path.join(TOP, "bin", name), "--program"], stdout=subprocess.PIPE, text=True, check=True).stdout.strip()


def fill(path, cards):
    """Notes of one field of the first type, with a card each, put into a collection's file that no program has open."""
    link = sqlite3.connect(path)
    note_type = next(iter(json.loads(link.execute("select models from col").fetchone()[0])))
    ids = range(1_600_000_000_000, 1_600_000_000_000 + cards)
    link.executemany("insert into notes values (?, ?, ?, 1600000000, -1, '', ?, ?, ?, 0, '')",
                     ((it, "g%d" % it, int(note_type), "front %d\x1fback" % it, "front %d" % it, checksum("front %d" % it)) for it in ids))
    link.executemany("insert into cards values (?, ?, 1, 0, 1600000000, -1, 0, 0, 1, 0, 0, 0, 0, 0, 0, 0, 0, '')", ((it, it) for it in ids))
    link.commit()
    link.close()


def checksum(front):
    return int(hashlib.sha1(front.encode()).hexdigest()[:8], 16)


def add_reviews(path, first, count):
    """Reviews that were not sent yet, put into a collection's file, whose moment rises."""
    link = sqlite3.connect(path)
    link.executemany("insert into revlog values (?, 1600000000000, -1, 3, 10, 5, 2500, 1500, 1)", ((it,) for it in range(first, first + count)))
    link.execute("update col set mod = mod + 1")
    link.commit()
    link.close()


def sync_cost(device, server, wanted):
    """The processor time of the device and of the server in one sync that ends as wanted."""
    at_server, at_device = server.seconds(), resource.getrusage(resource.RUSAGE_CHILDREN)
    expect("sync of " + device.path, device.sync(server.port), (0, wanted))
    ended = resource.getrusage(resource.RUSAGE_CHILDREN)
    return ended.ru_utime + ended.ru_stime - at_device.ru_utime - at_device.ru_stime, server.seconds() - at_server


def chunk_costs(tools, room, cards):
    """Of a push and a pull of one review and of 10,000 beside so many cards: the least of three of each side, by what was done and how many."""
    server = Server(tools, os.path.join(room, "server%d" % cards))
    server.start()
    one, two = (Device(tools, os.path.join(room, "%s%d.anki" % (name, cards)), server.key()) for name in ("one", "two"))
    for device in (one, two):
        device.begin()
        device.needs_whole(server.port)
        if device is one:
            fill(device.path, cards)
            device.upload(server.port)
        else:
            device.download(server.port)
    costs = collections.defaultdict(list)
    for turn in range(6):
        count = (1, 10_000)[turn % 2]
        add_reviews(one.path, 1_650_000_000_000 + 20_000 * turn, count)
        costs["push", count].append(sync_cost(one, server, "finished"))
        costs["pull", count].append(sync_cost(two, server, "finished"))
    expect("contents", content(one.path) == content(two.path) == content(server.file()), True)
    server.end()
    return {what: [min(it[side] for it in found) for side in (0, 1)] for what, found in costs.items()}


def try_chunks(tools, room):
    found = {cards: chunk_costs(tools, room, cards) for cards in (3_000, 50_000)}
    for what in ("push", "pull"):
        for side, name in enumerate(("device", "server")):
            costs = [[found[cards][what, count][side] for count in (1, 10_000)] for cards in found]
            few, many = (whole - least for least, whole in costs)
            print("%s, %s: of one review %.2f s and %.2f s, of 10,000 %.2f s and %.2f s; the difference is %.2f s and %.2f s, %.2f times"
                  % (what, name, costs[0][0], costs[1][0], costs[0][1], costs[1][1], few, many, many / max(few, 0.01)))


def main():
    reader = argparse.ArgumentParser(description=__doc__, formatter_class=argparse.RawDescriptionHelpFormatter)
    reader.add_argument("--anki")
    reader.add_argument("--ankid")
    reader.add_argument("--nginx", default=shutil.which("nginx") or "/usr/sbin/nginx")
    reader.add_argument("--stunnel", default=shutil.which("stunnel4") or "/usr/bin/stunnel4")
    reader.add_argument("--kills", type=int, default=300)
    reader.add_argument("--syncs", type=int, default=10_000)
    reader.add_argument("--seconds", type=float, default=3600, help="after which the trial of many syncs ends")
    reader.add_argument("--accounts", type=int, default=200)
    reader.add_argument("--notes", type=lambda text: [int(it) for it in text.split(",")], default=[3_000, 20_000])
    reader.add_argument("trials", nargs="*", metavar="TRIAL")
    words = reader.parse_args()
    tools, failed = Tools(words), 0
    for name in words.trials or TRIALS:
        if name not in TRIALS + ON_REQUEST:
            reader.error("no trial %s" % name)
        print("== %s" % name, flush=True)
        room = tempfile.mkdtemp(prefix="ankid-trial-")
        began = time.monotonic()
        try:
            globals()["try_" + name](tools, room)
            print("%s: passed, %.0f s" % (name, time.monotonic() - began), flush=True)
        except (Wrong, OSError, subprocess.SubprocessError, sqlite3.Error, http.client.HTTPException, parting.Refused) as fault:
            failed += 1
            print("%s: FAILED: %s %s" % (name, type(fault).__name__, fault), flush=True)
        finally:
            tools.end_all()
            shutil.rmtree(room, ignore_errors=True)
    return 1 if failed else 0


if __name__ == "__main__":
    sys.exit(main())
