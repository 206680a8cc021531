"""Labs by the rules of docs/profile: lab.md, requests.md, sync.md and outcomes.md. It shares nothing with the program.

Sessions, calls, losses and breaks are those of any lab. The collections here hold nothing of their own but reviews; deploy/try_labs.py has collections that hold all. So `Lab` knows `clock`,
`device`, `shift`, `review`, `sync`, `upload`, `download`, `lose`, `repeat`, `cross`, `replay`, `resend`, `break`, `count`, `requests` and `show <side> reviews`; any other line is `Unknown`, and
so is a sync whose check is bad.
"""
import copy
import re

OPENING = 1_700_000_000_000
LAST_CLOCK = 4_294_967_294_999
LAST_NUMBER = 2**63 - 1
# Rows and ids that one request brings at most.
CHUNK = 250
# What may come after what was accepted last; None is the meta.
NEXT = {None: ("start", "upload", "download"), "start": ("applyGraves", "applyChanges"), "applyGraves": ("applyGraves", "applyChanges"), "applyChanges": ("chunk",),
        "sanityCheck2": ("finish",), "download": ()}


class Unknown(Exception):
    """A line of which these rules say nothing."""


class Refused(Exception):
    """The text by which a line is refused."""


class Ended(Exception):
    """How a sync ended that did not finish."""


class Reply:
    def __init__(self, status, word="ok", **given):
        self.status, self.word, self.given = status, word, given


class Collection:
    """Reviews by id, each with its card, its button and its number, -1 if it was not sent yet; and the moments and the number of the head."""

    def __init__(self, reviews=(), moment=OPENING, schema=OPENING, usn=1):
        self.reviews, self.moment, self.schema, self.usn = dict(reviews), moment, schema, usn

    def copy(self):
        return Collection(self.reviews, self.moment, self.schema, self.usn)

    def lines(self):
        return ["[%d,%d,0,%d,0,0,0,0,0]" % (number, row[0], row[1]) for number, row in sorted(self.reviews.items())]

    # What a session asks of a collection.

    def chosen(self, what, is_wanted):
        """Of `graves`, `changes` or `rows` what has a number that is wanted, in the order in which it is sent."""
        return [(number, row) for number, row in sorted(self.reviews.items()) if is_wanted(row[2])] if what == "rows" else []

    def take(self, given, usn, as_server):
        """Takes what the other side gave, with this number. The server keeps a review whose id is held."""
        for number, row in given:
            if not (as_server and number in self.reviews):
                self.reviews[number] = (row[0], row[1], usn)

    def settings(self):
        return ()

    def set(self, settings):
        pass

    def fault(self):
        """The first fault of the basic check."""
        return None

    def counts(self):
        return len(self.reviews)

    def finished(self, moment, usn):
        """The collection after a finish: what was not sent yet has this number now."""
        return Collection({number: (row[0], row[1], usn if row[2] < 0 else row[2]) for number, row in self.reviews.items()}, moment, self.schema, usn + 1)

    def uploaded(self, moment, schema):
        return Collection({number: (row[0], row[1], 0) for number, row in self.reviews.items()}, moment, schema, 1)

    def check_failed(self, now):
        raise Unknown("a bad check")


def is_pending(usn):
    return usn < 0


class Session:
    """A live session of a server: its key, the steps that it accepted, what may come next, and what it holds."""

    def __init__(self, key, committed):
        self.key, self.held, self.step, self.may, self.asked, self.ahead = key, committed.copy(), 0, NEXT[None], 0, None

    def copy(self):
        made = copy.copy(self)
        made.held = self.held.copy()
        return made

    def is_asked(self, usn):
        return usn >= self.asked


class Server:
    """What it committed, before that, and how often; the live session; the kept reply; and whether the first call of the keeper is to fail."""

    def __init__(self, committed):
        self.committed, self.before, self.commits, self.session, self.kept, self.log, self.fails = committed, None, 0, None, None, [], False

    def copy(self):
        made = copy.copy(self)
        made.session, made.log = self.session and self.session.copy(), list(self.log)
        return made

    def serve(self, request, now):
        self.log.append(request)
        if self.fails and self.asks_keeper(request):
            return self.setback(request)
        reply = self.answer(request, now)
        if reply.status == 200 and request["method"] != "meta":
            self.kept = (request["key"], request["step"], request["method"], reply)
        return reply

    def is_repeat(self, request):
        return self.kept is not None and self.kept[:3] == (request["key"], request["step"], request["method"])

    def asks_keeper(self, request):
        """Whether the keeper is asked: a repeat of what was accepted last is answered without it, but a download is read again."""
        return request["method"] in ("meta", "download") or not self.is_repeat(request)

    def setback(self, request):
        """The keeper's first call fails, and no later one."""
        self.fails, self.session = False, None
        if request["method"] == "meta":
            self.kept = None
        return Reply(503, "keeper")

    def answer(self, request, now):
        held = self.committed
        if request["method"] == "meta":
            self.session, self.kept = Session(request["key"], held), None
            return Reply(200, moment=held.moment, schema=held.schema, usn=held.usn, second=now // 1000)
        if self.is_repeat(request):
            return self.kept[3]
        if request["base"] != held.moment:
            return Reply(409, "base")
        if self.session is None or self.session.key != request["key"]:
            return Reply(409, "no session")
        if request["step"] != self.session.step + 1 or request["method"] not in self.session.may:
            return Reply(409, "step")
        if request["method"] == "start" and not 0 <= request["from"] <= held.usn:
            return Reply(409, "usn")
        return getattr(self, "take_" + request["method"])(self.session, request, now)

    def accept(self, session, may):
        session.step, session.may = session.step + 1, may

    def commit(self, made):
        self.before, self.committed, self.commits, self.session = self.committed, made, self.commits + 1, None

    def take_start(self, session, request, now):
        session.asked, session.device_moment = request["from"], request["moment"]
        self.accept(session, NEXT["start"])
        return Reply(200, given=session.held.chosen("graves", session.is_asked))

    def take_applyGraves(self, session, request, now):
        session.held.take(request["given"], session.held.usn, True)
        self.accept(session, NEXT["applyGraves"])
        return Reply(200)

    def take_applyChanges(self, session, request, now):
        held = session.held
        given, settings = held.chosen("changes", session.is_asked), held.settings() if session.device_moment <= self.committed.moment else None
        held.take(request["given"], held.usn, True)
        if request["settings"] is not None:
            held.set(request["settings"])
        session.ahead = held.chosen("rows", session.is_asked)
        self.accept(session, NEXT["applyChanges"])
        return Reply(200, given=given, settings=settings)

    def take_chunk(self, session, request, now):
        rows, session.ahead = session.ahead[:CHUNK], session.ahead[CHUNK:]
        self.accept(session, ("chunk",) if len(rows) == CHUNK else ("applyChunk",))
        return Reply(200, given=rows)

    def take_applyChunk(self, session, request, now):
        session.held.take(request["given"], session.held.usn, True)
        self.accept(session, ("applyChunk",) if len(request["given"]) == CHUNK else ("sanityCheck2",))
        return Reply(200)

    def take_sanityCheck2(self, session, request, now):
        bad = session.held.fault() or (None if request["counts"] == session.held.counts() else "counts")
        if bad:
            self.session = None
        else:
            self.accept(session, NEXT["sanityCheck2"])
        return Reply(200, bad=bad)

    def take_finish(self, session, request, now):
        moment = max(now, self.committed.moment + 1, session.device_moment + 1)
        self.commit(session.held.finished(moment, session.held.usn))
        return Reply(200, moment=moment)

    def take_upload(self, session, request, now):
        came, held = request["whole"], self.committed
        self.commit(came.uploaded(*(max(now, mine + 1, theirs + 1) for mine, theirs in ((held.moment, came.moment), (held.schema, came.schema)))))
        return Reply(200, whole=self.committed)

    def take_download(self, session, request, now):
        self.accept(session, NEXT["download"])
        return Reply(200, whole=self.committed)


class Device:
    """A device: its clock, its collection, the requests of its last sync, and what lines planned for its next one."""

    def __init__(self, committed):
        self.collection, self.shift, self.requests = committed.copy(), 0, 0
        self.lost, self.repeated, self.planned, self.fails = set(), set(), [], False

    def copy(self):
        made = copy.copy(self)
        made.lost, made.repeated, made.planned = set(self.lost), set(self.repeated), list(self.planned)
        return made

    def plan(self, crossed):
        """Takes what is planned, but for the crossings of one that crosses another."""
        taken = self.copy()
        self.lost, self.repeated, self.planned, self.fails = set(), set(), [it for it in self.planned if crossed and it[1] == "cross"], False
        return taken

    def ended(self, word, calls):
        """A session is over."""
        if word == "sync":
            self.requests = calls


class Wire:
    """The calls of one sync: what comes before each, and how it fares; and whether the first call of its device's keeper fails."""

    def __init__(self, lab, key, lost=(), repeated=(), before=lambda call: None, fails=False):
        self.lab, self.key, self.lost, self.repeated, self.before, self.fails, self.calls = lab, key, lost, repeated, before, fails, 0

    def call(self, request):
        """The reply, None if none came."""
        call, self.calls = self.calls, self.calls + 1
        self.before(call)
        if (call, "request") in self.lost:
            return None
        for _ in range(2 if call in self.repeated else 1):
            reply = self.lab.server.serve(request, self.lab.clock)
        return None if (call, "reply") in self.lost else reply

    def ask(self, method, step, base, **more):
        request = dict(more, method=method, key=self.key, step=step, base=base)
        for _ in range(3):
            reply = self.call(request)
            if reply is not None:
                if reply.status != 200:
                    raise Ended("refused %d %s" % (reply.status, reply.word))
                return reply.given
        raise Ended("lost")


def greet(wire, device, clock):
    """Asks the meta, and tests the clocks."""
    told = wire.ask("meta", 0, 0)
    now = clock + device.shift
    if abs(now // 1000 - told["second"]) > 300:
        raise Ended("clock off: %d %d" % (now // 1000, told["second"]))
    return told


def sync_over(wire, device, clock):
    """Syncs a device, and gives what it holds then. It holds what it held if this ends otherwise, but for its moments after a bad check."""
    told, made = greet(wire, device, clock), device.collection.copy()
    if wire.fails:
        raise Ended("keeper failed")
    if (made.moment, made.schema, made.usn) == (told["moment"], told["schema"], told["usn"]) and not any(made.chosen(it, is_pending) for it in ("graves", "changes", "rows")):
        raise Ended("no changes")
    if made.schema != told["schema"]:
        raise Ended("full needed: schema %d %d" % (made.schema, told["schema"]))
    if made.fault():
        raise Ended("own check failed: " + made.fault())
    steps = iter(range(1, 10**6))

    def ask(method, **more):
        given = wire.ask(method, next(steps), told["moment"], **more)
        made.take(given.get("given", ()), told["usn"], False)
        return given

    ask("start", **{"from": made.usn, "moment": made.moment})
    graves = made.chosen("graves", is_pending)
    for first in range(0, len(graves), CHUNK):
        ask("applyGraves", given=graves[first:first + CHUNK])
    theirs = ask("applyChanges", given=made.chosen("changes", is_pending), settings=made.settings() if made.moment > told["moment"] else None)["settings"]
    if theirs is not None:
        made.set(theirs)
    while len(ask("chunk")["given"]) == CHUNK:
        pass
    ahead, sent = made.chosen("rows", is_pending), None
    while sent is None or len(sent) == CHUNK:
        sent, ahead = ahead[:CHUNK], ahead[CHUNK:]
        ask("applyChunk", given=sent)
    bad = ask("sanityCheck2", counts=made.counts())["bad"]
    if bad:
        device.collection = device.collection.check_failed(clock + device.shift)
        raise Ended("sanity failed: " + bad)
    return made.finished(ask("finish")["moment"], told["usn"])


def upload_over(wire, device, clock):
    told = greet(wire, device, clock)
    if device.collection.fault():
        raise Ended("own check failed: " + device.collection.fault())
    return wire.ask("upload", 1, told["moment"], whole=device.collection.copy())["whole"].copy()


def download_over(wire, device, clock):
    told = greet(wire, device, clock)
    return wire.ask("download", 1, told["moment"])["whole"].copy()


OVER = {"sync": sync_over, "upload": upload_over, "download": download_over}


def number_of(text, least=0, most=LAST_NUMBER):
    if not re.fullmatch("0|[1-9][0-9]*", text) or not least <= int(text) <= most:
        raise Refused("bad line")
    return int(text)


class Lab:
    """A lab whose server began with this collection, and whose devices are of this class. `fails` is that a line broke the server's keeper."""

    def __init__(self, committed=None, make_device=Device):
        self.server, self.make_device = Server(committed or Collection()), make_device
        self.clock, self.devices, self.sessions, self.printed, self.fails = OPENING, {}, 0, [], False

    def copy(self):
        made = copy.copy(self)
        made.server, made.devices, made.printed = self.server.copy(), {name: it.copy() for name, it in self.devices.items()}, list(self.printed)
        return made

    def device(self, name):
        if name not in self.devices:
            raise Refused("no device " + name)
        return self.devices[name]

    def run(self, word, name, wire_of):
        """A session of a device: what it comes to is printed."""
        device = self.devices[name]
        self.sessions += 1
        wire = wire_of(self.sessions)
        try:
            device.collection, end = OVER[word](wire, device, self.clock), "finished"
        except Ended as ended:
            end = str(ended)
        device.ended(word, wire.calls)
        self.printed.append("%s %s: %s" % (word, name, end))

    def sync(self, name, crossed=False):
        """A whole sync of a device, with what is planned for it. One that crosses another leaves its own crossings."""
        taken = self.devices[name].plan(crossed)

        def before(call):
            for at, what, *more in taken.planned:
                if at == call and what == "replay":
                    for request in self.server.log[more[0]:more[0] + more[1]]:
                        self.server.serve(request, self.clock)
                elif at == call and not crossed:
                    self.sync(more[0], crossed=True)

        self.run("sync", name, lambda key: Wire(self, key, taken.lost, taken.repeated, before, taken.fails))

    def need(self, first, count):
        if count and first + count > len(self.server.log):
            raise Refused("no request %d" % max(first, len(self.server.log)))

    def held(self, side):
        """What a side holds. A look at the server ends its session."""
        if side != "server":
            return self.device(side).collection
        self.server.session = None
        return self.server.committed

    def obey(self, line):
        verb, *words = line.split(" ")
        form = getattr(self, "do_" + verb, None)
        if verb == "do":
            raise Unknown(line)
        if form is None or "" in words or len(words) not in form.__defaults__[0]:
            raise Refused("bad line")
        form(*words)

    # Each line by its first word. The last parameter is no word: how many words it may have.

    def do_clock(self, text, _=(1,)):
        clock = number_of(text)
        if any(not 0 <= clock + shift <= LAST_CLOCK for shift in [0, *(it.shift for it in self.devices.values())]):
            raise Refused("bad line")
        self.clock = clock

    def do_device(self, name, _=(1,)):
        if not re.fullmatch("[A-Za-z0-9]{1,16}", name) or name == "server":
            raise Refused("bad line")
        if name in self.devices or len(self.devices) == 16:
            raise Refused("device held" if name in self.devices else "too many devices")
        self.devices[name] = self.make_device(self.held("server"))

    def do_shift(self, name, text, _=(2,)):
        by = number_of(text.lstrip("-")) * (-1 if text.startswith("-") else 1)
        device = self.device(name)
        if not 0 <= self.clock + by <= LAST_CLOCK:
            raise Refused("bad line")
        device.shift = by

    def do_review(self, name, card, ease, count, _=(4,)):
        card, ease, count = number_of(card, 1, 2**53 - 1), number_of(ease, 1, 4), number_of(count, 1, 100_000)
        device = self.device(name)
        now, held = self.clock + device.shift, device.collection
        number = max(now, 1)
        for _ in range(count):
            while number in held.reviews:
                number += 1
            held.reviews[number] = (card, ease, -1)
        held.moment = max(now, held.moment + 1)

    def do_sync(self, name, _=(1,)):
        self.device(name)
        self.server.fails, self.fails = self.fails, False
        self.sync(name)
        self.server.fails = False

    def do_upload(self, name, _=(1,)):
        self.device(name)
        self.run("upload", name, lambda key: Wire(self, key))

    def do_download(self, name, _=(1,)):
        self.device(name)
        self.run("download", name, lambda key: Wire(self, key))

    def do_lose(self, name, call, what, _=(3,)):
        call = number_of(call)
        if what not in ("request", "reply"):
            raise Refused("bad line")
        self.device(name).lost.add((call, what))

    def do_repeat(self, name, call, _=(2,)):
        call = number_of(call)
        self.device(name).repeated.add(call)

    def do_cross(self, name, call, other, _=(3,)):
        call = number_of(call)
        if name == other:
            raise Refused("bad line")
        device = self.device(name)
        self.device(other)
        device.planned.append((call, "cross", other))

    def do_replay(self, name, call, first, count, _=(4,)):
        call, first, count = map(number_of, (call, first, count))
        device = self.device(name)
        self.need(first, count)
        device.planned.append((call, "replay", first, count))

    def do_resend(self, first, count, _=(2,)):
        first, count = map(number_of, (first, count))
        self.need(first, count)
        for request in self.server.log[first:first + count]:
            reply = self.server.serve(request, self.clock)
            self.printed.append("%d %s" % (reply.status, reply.word))

    def do_break(self, side, _=(1,)):
        (self if side == "server" else self.device(side)).fails = True

    def do_count(self, side, _=(1,)):
        self.printed.append("notes 0 cards 0 reviews %d graves 0 types 3 decks 1 options 1" % len(self.held(side).reviews))

    def do_requests(self, name, _=(1,)):
        self.printed.append("requests %s: %d" % (name, self.device(name).requests))

    def do_show(self, side, table, _=(2,)):
        if table != "reviews":
            raise Unknown("show " + table)
        self.printed += self.held(side).lines()


def run(script):
    """What a script prints, a list of lines, and its status."""
    lab = Lab()
    for number, line in enumerate(script.split("\n"), 1):
        if line == "" or line.startswith("#"):
            continue
        try:
            lab.obey(line)
        except Refused as why:
            return [*lab.printed, "line %d: %s" % (number, why)], 3
    return lab.printed, 0
