"""The page in the browser: `bin/anki-web FILE`. It is for the learner's own browser on this machine alone.

A random key of 128 bits is in the address to which a local file leads the browser. The first request with it gets a cookie
for it, and the key is worth nothing after that. GET changes nothing (but that a look at the day's cards begins the day, as any look at
the desk does). A POST carries a token, and the number of its screen: the number of changes so far. A second POST with a number is
shown what came of the first, and changes nothing.
"""

import collections
import hashlib
import hmac
import http.server
import os
import secrets
import shutil
import signal
import socket
import sys
import tempfile
import threading
import time
import urllib.parse
import webbrowser

from front import program as programs
from front import static, views
from front.collection import ReadFault, file_named
from front.forms import fields_of_form, fields_of_parts
from front.importing import LONGEST_FILE, too_long, told_of_import
from front.session import Lost, Session, Slip, number_of
from front.syncing import way_of
from front.terminal import ensure_collection
from front.text import clean
from front.views import address

# Seconds without a request after which the file is closed.
IDLE = 60

# The longest body of a POST, in bytes, but for one with a file.
LONGEST_BODY = 4 << 20

# How much of a file that is too long is taken and thrown away, so that the browser shows why it was not taken.
MOST_THROWN_AWAY = 1 << 30

# How many results of POSTs are kept.
MOST_RESULTS = 500

POLICY = (
    "default-src 'none'; script-src 'self'; style-src 'self' 'unsafe-inline'; img-src 'self' data:; form-action 'self'; "
    "base-uri 'none'; frame-ancestors 'none'"
)
HEADERS = [
    ("Referrer-Policy", "no-referrer"),
    ("X-Frame-Options", "DENY"),
    ("Cache-Control", "no-store"),
    ("X-Content-Type-Options", "nosniff"),
    # A card's document inherits this policy, so it allows the styles that a card may have. Nothing else here is inline.
    ("Content-Security-Policy", POLICY),
    ("Cross-Origin-Opener-Policy", "same-origin"),
    ("Cross-Origin-Resource-Policy", "same-origin"),
    ("X-DNS-Prefetch-Control", "off"),
]

USAGE = """usage: anki-web [--no-browser] [--port N] FILE

Study, add and browse the collection in FILE in the browser on this machine. Ctrl-C ends it.
"""

Result = collections.namedtuple("Result", "asked location told")
Reply = collections.namedtuple("Reply", "status body kind headers")


def page_reply(body, status=200):
    return Reply(status, body.encode("utf-8", "replace"), "text/html; charset=utf-8", [])


def redirect(location):
    return Reply(303, b"", "text/html; charset=utf-8", [("Location", location)])


class Site:
    """What the requests share. All of it is under `turn`."""

    def __init__(self, session):
        self.session = session
        self.turn = threading.RLock()
        self.key = secrets.token_hex(16)
        self.cookie = secrets.token_hex(16)
        self.token = secrets.token_hex(16)
        # How many changes there were: the number of each screen until the next one.
        self.number = 1
        self.results = collections.OrderedDict()
        # When the front of a card was shown first, by the screen's number and the card.
        self.shown = {}

    # Coming in.

    def exchange(self, key):
        """Whether the key is the one that was given. It is so once."""
        with self.turn:
            is_right = self.key is not None and hmac.compare_digest(self.key.encode(), key.encode("utf-8", "replace"))
            if is_right:
                self.key = None
            return is_right

    def is_known(self, cookie):
        return hmac.compare_digest(self.cookie.encode(), cookie.encode("utf-8", "replace"))

    # Looking.

    def get(self, path, values):
        with self.turn:
            screens = {
                "/": self.see_decks, "/study": self.see_study, "/add": self.see_add, "/browse": self.see_browse,
                "/card": self.see_card, "/edit": self.see_edit, "/deck": self.see_deck, "/options": self.see_options,
                "/types": self.see_types, "/charts": self.see_charts, "/sure": self.see_sure, "/sync": self.see_sync,
                "/whole": self.see_whole, "/files": self.see_files,
            }  # fmt: skip
            if path not in screens:
                return page_reply(views.message(self.screen(), "Not found", "There is no such page."), 404)
            try:
                return screens[path](values)
            except Slip as told:
                return page_reply(views.message(self.screen(), "This can't be shown", str(told)), 404)
            except Lost as told:
                return page_reply(views.message(self.screen(), "The program has ended", str(told)), 503)
            except ReadFault as told:
                return page_reply(views.message(self.screen(), "The file can't be read", str(told)), 503)

    def screen(self, values=None, told="", is_bad=False):
        result = self.results.get(whole(values, "told")) if values else None
        if result is not None and not told:
            told = result.told
            if values.get("late"):
                told = "This was asked on an older screen, so nothing was changed now. What came first: %s" % (told or "a change.")
                is_bad = True
        return views.Screen(self.number, self.token, self.session.what_undo_takes(), self.session.take_notice(), told, is_bad)

    def shown_screen(self, values, view, *words, **named):
        """A reply with a view. The session is opened first, so that what it has to tell is on this screen."""
        self.session.open()
        return page_reply(view(self.screen(values), self.session, *words, **named))

    def see_decks(self, values):
        return self.shown_screen(values, views.decks)

    def see_study(self, values):
        deck, card = whole(values, "deck"), whole(values, "card")
        # A card is shown again on the screen that it was shown on, or not at all.
        if card is not None and whole(values, "at") != self.number:
            return redirect(address("/study", deck=deck))
        if card is None:
            card = self.session.next_card(deck)
        if card is None:
            return self.shown_screen(values, views.study_end, deck)
        reply = self.shown_screen(values, views.study, deck, card, bool(values.get("back")), bool(values.get("hints")))
        if self.number not in [number for number, _ in self.shown]:
            self.shown = {}
        self.shown.setdefault((self.number, card), time.monotonic())
        return reply

    def see_add(self, values):
        return self.shown_screen(values, views.add, whole(values, "type"), whole(values, "deck"))

    def see_browse(self, values):
        expression = values.get("q")
        try:
            return self.shown_screen(values, views.browse, expression, whole(values, "first") or 0)
        except Slip as told:
            return page_reply(views.search_refused(self.screen(values, str(told), True), expression), 422)

    def see_card(self, values):
        return self.shown_screen(values, views.card, whole(values, "card"), local(values.get("back")))

    def see_edit(self, values):
        return self.shown_screen(values, views.edit, whole(values, "note"), local(values.get("back")))

    def see_deck(self, values):
        return self.shown_screen(values, views.deck, whole(values, "deck"))

    def see_options(self, values):
        return self.shown_screen(values, views.options, whole(values, "options"))

    def see_types(self, values):
        return self.shown_screen(values, views.types)

    def see_charts(self, values):
        return self.shown_screen(values, views.chart_page)

    def see_sure(self, values):
        question, name = (views.sure_name, [values["name"]]) if "name" in values else (views.sure, [])
        return self.shown_screen(values, question, values.get("what"), whole(values, "id"), *name)

    def see_sync(self, values):
        return self.shown_screen(values, views.sync)

    def see_whole(self, values):
        question = views.way_sure if values.get("sure") else views.way_question
        return self.shown_screen(values, question, way_of(values.get("way")))

    def see_files(self, values):
        return self.shown_screen(values, views.files)

    # Changing.

    def post(self, path, form):
        with self.turn:
            actions = {
                "/answer": self.do_answer, "/bury": self.do_bury, "/suspend": self.do_suspend,
                "/unsuspend": self.do_unsuspend, "/flag": self.do_flag, "/undo": self.do_undo, "/edit": self.do_edit,
                "/add": self.do_add, "/note-delete": self.do_delete_note, "/deck-new": self.do_new_deck,
                "/deck-rename": self.do_rename_deck, "/deck-delete": self.do_delete_deck,
                "/deck-options": self.do_use_options, "/options-new": self.do_new_options,
                "/options-set": self.do_set_options, "/options-rename": self.do_rename_options, "/options-delete": self.do_delete_options,
                "/type-new": self.do_new_type, "/type-rename": self.do_rename_type,
                "/type-delete": self.do_delete_type, "/spread": self.do_spread, "/sync": self.do_sync,
                "/upload": self.do_upload, "/download": self.do_download, "/import": self.do_import,
            }  # fmt: skip
            if path == "/export":
                return self.export(form)
            if path not in actions:
                return page_reply(views.message(self.screen(), "Not found", "There is no such page."), 404)
            number = whole(form, "number")
            asked = digest_of(path, form)
            if number != self.number:
                return self.again(path, form, number, asked)
            return self.first_time(actions[path], path, form, number, asked)

    def again(self, path, form, number, asked):
        """The reply to a POST of an older screen. It changes nothing."""
        first = self.results.get(number)
        if first is not None and first.asked == asked:
            return redirect(with_told(first.location, number))
        if path in self.FORMS:
            told = "Another screen has changed the collection since: nothing was saved now. What came first: %s"
            return self.form_again(path, form, told % (first.told if first else "a change."))
        return redirect(with_told(first.location, number, late=1) if first else "/")

    def first_time(self, action, path, form, number, asked):
        try:
            location, told = action(form)
        except Slip as slip:
            return self.form_again(path, form, str(slip))
        except ReadFault as fault:
            return page_reply(views.message(self.screen(), "The file can't be read", str(fault)), 503)
        except Lost as lost:
            # What was asked may have been done: it is not asked again by a reload.
            location, told = "/", str(lost)
        self.results[number] = Result(asked, location, told)
        while len(self.results) > MOST_RESULTS:
            self.results.popitem(last=False)
        self.number += 1
        return redirect(with_told(location, number))

    # Screens whose texts the learner typed: they are shown again with these texts where nothing was changed.
    FORMS = ("/edit", "/add", "/deck-new", "/deck-rename", "/options-rename", "/options-set", "/type-new", "/sync", "/upload", "/download", "/import")

    def form_again(self, path, form, told):
        screen = self.screen(None, told, True)
        session = self.session
        try:
            session.open()
            if path == "/edit":
                back = local(form.get("back"))
                body = views.edit(screen, session, whole(form, "note"), back, fields_in(form), form.get("tags", ""))
            elif path == "/add":
                body = views.add(screen, session, whole(form, "type"), whole(form, "deck"), fields_in(form), form.get("tags", ""))
            elif path == "/deck-new":
                body = views.decks(screen, session, form.get("name", ""))
            elif path == "/deck-rename":
                body = views.deck(screen, session, whole(form, "id"), form.get("name", ""))
            elif path in ("/options-set", "/options-rename"):
                body = views.options(screen, session, whole(form, "id"), form)
            elif path == "/type-new":
                body = views.types(screen, session, form)
            elif path == "/sync":
                body = views.sync(screen, session, form.get("server", ""))
            elif path in ("/upload", "/download"):
                body = views.way_sure(screen, session, way_of(path[1:]), form.get("server", ""))
            elif path in ("/import", "/export"):
                body = views.files(screen, session, whole(form, "type"), whole(form, "deck"))
            else:
                body = views.message(screen, "Nothing was changed", told)
        except (Slip, Lost, ReadFault) as fault:
            body = views.message(screen, "Nothing was changed", str(fault))
        return page_reply(body, 422)

    def do_answer(self, form):
        deck, card = whole(form, "deck"), whole(form, "card")
        began = self.shown.get((self.number, card))
        if began is None:
            raise Slip("this card was not shown on this screen")
        self.session.answer(card, whole(form, "button"), int((time.monotonic() - began) * 1000))
        return address("/study", deck=deck), ""

    def do_bury(self, form):
        self.session.bury(whole(form, "card"))
        return local(form.get("back")), "The card is buried until tomorrow."

    def do_suspend(self, form):
        self.session.suspend(whole(form, "card"))
        return local(form.get("back")), "The card is suspended."

    def do_unsuspend(self, form):
        self.session.unsuspend(whole(form, "card"))
        return local(form.get("back")), "The card is back."

    def do_flag(self, form):
        self.session.flag(whole(form, "card"), whole(form, "flag"))
        return local(form.get("back")), "Flag %d." % whole(form, "flag")

    def do_undo(self, form):
        return local(form.get("back")), "Undone: %s." % self.session.undo()

    def do_edit(self, form):
        note = whole(form, "note")
        _, held, _ = self.session.note_form(note)
        changed = self.session.edit_note(note, kept_line_ends(fields_in(form), held), form.get("tags", "").split())
        return local(form.get("back")), "The note is changed." if changed else "Nothing was changed."

    def do_add(self, form):
        fields, tags = kept_line_ends(fields_in(form), []), form.get("tags", "").split()
        _, cards = self.session.add_note(whole(form, "type"), whole(form, "deck"), fields, tags)
        return "/add", "Added: %s." % number_of(cards, "card")

    def do_delete_note(self, form):
        self.session.delete_note(whole(form, "id"))
        return "/browse", "The note is deleted."

    def do_new_deck(self, form):
        self.session.add_deck(form.get("name", ""))
        return "/", "The deck is added."

    def do_rename_deck(self, form):
        self.session.rename_deck(whole(form, "id"), form.get("name", ""))
        return "/", "The deck is renamed."

    def do_delete_deck(self, form):
        self.session.drop_deck(whole(form, "id"))
        return "/", "The deck is deleted."

    def do_use_options(self, form):
        self.session.use_options(whole(form, "deck"), whole(form, "options"))
        return address("/deck", deck=whole(form, "deck")), "The deck has these options now."

    def do_new_options(self, form):
        self.session.deck_name(whole(form, "deck"))
        made = self.session.add_options(form.get("name", ""))
        self.session.use_options(whole(form, "deck"), made)
        return address("/options", options=made), "The options are added, and the deck has them."

    def do_set_options(self, form):
        self.session.set_option_values(whole(form, "id"), form)
        return "/", "The options are kept."

    def do_rename_options(self, form):
        self.session.set_option_values(whole(form, "id"), {"name": form.get("name", "")})
        return "/", "The options are renamed."

    def do_delete_options(self, form):
        self.session.drop_options(whole(form, "id"))
        return "/", "The options are deleted."

    def do_new_type(self, form):
        templates = [("Card 1", unix(form.get("front", "")), unix(form.get("back", "")))]
        if form.get("front2", "").strip():
            templates.append(("Card 2", unix(form["front2"]), unix(form.get("back2", ""))))
        names = [name.strip() for name in form.get("fields", "").split(",")]
        self.session.add_type(form.get("name", ""), names, templates, form.get("kind") == "cloze")
        return "/types", "The note type is added."

    def do_rename_type(self, form):
        self.session.rename_type(whole(form, "id"), form.get("name", ""))
        return "/types", "The note type is renamed."

    def do_delete_type(self, form):
        self.session.drop_type(whole(form, "id"))
        return "/types", "The note type is deleted."

    def do_spread(self, form):
        self.session.set_spread(whole(form, "spread"))
        return "/", "Kept."

    def do_sync(self, form):
        return "/sync", told_of(self.session.sync(form.get("server", ""), form.get("key", "")))

    def do_upload(self, form):
        return self.send_whole("upload", form)

    def do_download(self, form):
        return self.send_whole("download", form)

    def send_whole(self, word, form):
        if form.get("word", "").strip() != word:
            raise Slip("nothing was sent: the word %s was not typed" % word)
        return "/sync", told_of(self.session.send_whole(word, form.get("server", ""), form.get("key", "")))

    def do_import(self, form):
        if not isinstance(form.get("file"), bytes):
            raise Slip("no file was chosen")
        return "/files", told_of_import(self.session.import_notes(whole(form, "type"), whole(form, "deck"), form["file"]))

    def export(self, form):
        """The notes of a type as a file. It changes nothing of the collection, so the number of the screen stays."""
        try:
            note_type = whole(form, "type")
            content = self.session.export_notes(note_type)
            return file_reply(" ".join(self.session.copy.types[note_type].name.split()) + ".csv", content)
        except (Slip, Lost, ReadFault) as fault:
            return self.form_again("/export", form, str(fault))


def told_of(outcome):
    """An outcome in one line."""
    return " ".join(part for part in ("%s." % outcome.said, outcome.words, outcome.advice) if part)


def file_reply(name, content):
    """A file that the browser keeps under a name."""
    quoted = urllib.parse.quote(name.encode("utf-8", "replace"), safe="")
    kept = [("Content-Disposition", "attachment; filename=\"notes.csv\"; filename*=UTF-8''%s" % quoted)]
    return Reply(200, content, "text/csv; charset=utf-8", kept)


def digest_of(path, form):
    """What was asked, so that it is known again. Neither a key nor a file is kept for that."""
    made = hashlib.sha256(path.encode("utf-8", "surrogatepass"))
    for name, value in sorted(form.items()):
        for part in (name, value):
            part = part if isinstance(part, bytes) else part.encode("utf-8", "surrogatepass")
            made.update(b"%d " % len(part) + part)
    return made.digest()


def whole(values, name):
    """A whole number of a form or a query, or None."""
    text = values.get(name, "")
    return int(text) if text.isascii() and text.isdigit() and len(text) < 19 else None


def local(path):
    """A path of this page, whatever a form says."""
    is_local = path and path.startswith("/") and not path.startswith("//") and "\\" not in path
    return path if is_local and path.isascii() and path.isprintable() else "/"


def with_told(location, number, **more):
    parts = urllib.parse.urlsplit(location)
    query = [(name, value) for name, value in urllib.parse.parse_qsl(parts.query) if name not in ("told", "late")]
    return address(parts.path, **dict(query, told=number, **more))


def fields_in(form):
    fields = []
    while "field%d" % len(fields) in form:
        fields.append(form["field%d" % len(fields)])
    return fields


def unix(text):
    return text.replace("\r\n", "\n").replace("\r", "\n")


def kept_line_ends(fields, held):
    """Fields as a browser sends them, with LF for its line ends. One that was not edited stays as it is held."""
    made = [unix(text) for text in fields]
    for place, text in enumerate(held[: len(made)]):
        if unix(text) == made[place]:
            made[place] = text
    return made


class Handler(http.server.BaseHTTPRequestHandler):
    protocol_version = "HTTP/1.1"
    timeout = 30
    server_version, sys_version = "anki-web", ""

    def do_GET(self):
        self.reply(self.answer_get())

    def do_HEAD(self):
        self.reply(self.answer_get())

    def do_POST(self):
        self.reply(self.answer_post())

    def answer_get(self):
        refused = self.refusal_of_host()
        if refused:
            return refused
        parts = urllib.parse.urlsplit(self.path)
        values = dict(urllib.parse.parse_qsl(parts.query, keep_blank_values=True, errors="replace"))
        if parts.path == "/enter":
            return self.enter(values.get("key", ""))
        if not self.has_cookie():
            return self.refused("This page is for the browser that anki-web opened. End anki-web and start it again for another.")
        files = {"/style.css": (static.STYLE, "text/css"), "/front.js": (static.SCRIPT, "text/javascript")}
        if parts.path in files:
            text, kind = files[parts.path]
            return Reply(200, text.encode("utf-8"), kind + "; charset=utf-8", [])
        return self.server.site.get(parts.path, values)

    def enter(self, key):
        """Gives the cookie for the key. The page goes on by itself: a browser sends no strict cookie where another site led it."""
        if not self.server.site.exchange(key):
            return self.refused("This address was used before. End anki-web and start it again for another.")
        self.server.on_enter()
        body = (
            '<!DOCTYPE html><html lang="en"><head><meta charset="utf-8"><meta http-equiv="refresh" content="0; url=/">'
            '<title>Anki</title></head><body><a href="/">Go on</a></body></html>'
        )
        cookie = "%s=%s; HttpOnly; SameSite=Strict; Path=/" % (self.cookie_name(), self.server.site.cookie)
        return page_reply(body)._replace(headers=[("Set-Cookie", cookie)])

    def answer_post(self):
        refused = self.refusal_of_host()
        path = urllib.parse.urlsplit(self.path).path
        takes_file = path == "/import" and not refused and self.has_cookie()
        form = self.read_form(takes_file)
        if refused:
            return refused
        if not self.has_cookie():
            return self.refused("This page is for the browser that anki-web opened.")
        if self.headers.get_all("Origin", []) != ["http://" + self.headers["Host"]]:
            return self.refused("This was not asked from this page.")
        if form is None and takes_file and self.throw_body_away():
            return page_reply(views.plain("The file is too long", "Nothing was imported: %s." % too_long()), 413)
        if form is None:
            return page_reply(views.plain("Bad request", "This is no form, or too long."), 400)
        if not hmac.compare_digest(form.pop("token", "").encode("utf-8", "replace"), self.server.site.token.encode()):
            return self.refused("This was not asked from this page.")
        return self.server.site.post(path, form)

    def read_form(self, takes_file):
        """The body's form, or None. A file in it has the name `file`."""
        length = self.length_of_body()
        if length is None or length > (LONGEST_FILE if takes_file else 0) + LONGEST_BODY:
            self.close_connection = True
            return None
        body, kind = self.rfile.read(length), self.headers.get_content_type()
        if kind == "multipart/form-data" and takes_file:
            return fields_of_parts(body, self.headers.get_boundary(), "file")
        return fields_of_form(body) if kind == "application/x-www-form-urlencoded" else None

    def length_of_body(self):
        length = self.headers.get("Content-Length", "")
        is_told = length.isascii() and length.isdigit() and len(length) < 19 and not self.headers.get("Transfer-Encoding")
        return int(length) if is_told else None

    def throw_body_away(self):
        """Reads a body that is too long, and gives whether it did."""
        left = self.length_of_body()
        if left is None or not LONGEST_FILE + LONGEST_BODY < left <= MOST_THROWN_AWAY:
            return False
        while left:
            piece = self.rfile.read(min(left, 1 << 20))
            if not piece:
                return False
            left -= len(piece)
        return True

    def refusal_of_host(self):
        port = self.server.server_address[1]
        if self.headers.get_all("Host", []) not in (["127.0.0.1:%d" % port], ["localhost:%d" % port]):
            self.close_connection = True
            return self.refused("This is not the address of this page.")
        return None

    def has_cookie(self):
        for line in self.headers.get_all("Cookie", []):
            for pair in line.split(";"):
                name, _, value = pair.strip().partition("=")
                if name == self.cookie_name() and self.server.site.is_known(value):
                    return True
        return False

    def cookie_name(self):
        # Cookies are of a host, whatever the port: two pages on one machine have two names.
        return "anki_%d" % self.server.server_address[1]

    def refused(self, words):
        return page_reply(views.plain("Not allowed", words), 403)

    def reply(self, reply):
        self.send_response(reply.status)
        self.send_header("Content-Type", reply.kind)
        self.send_header("Content-Length", str(len(reply.body)))
        for name, value in HEADERS + reply.headers:
            self.send_header(name, value)
        self.end_headers()
        if self.command != "HEAD":
            self.wfile.write(reply.body)

    def send_error(self, code, message=None, explain=None):
        self.close_connection = True
        try:
            self.reply(page_reply(views.plain("Error %d" % code, message or "This can't be done."), code))
        except AttributeError:
            # The request was too broken for an answer.
            pass

    def log_message(self, form, *words):
        pass


class Server(http.server.ThreadingHTTPServer):
    daemon_threads = True
    address_family = socket.AF_INET

    def __init__(self, site, port, on_enter):
        super().__init__(("127.0.0.1", port), Handler)
        self.site, self.on_enter = site, on_enter

    def handle_error(self, request, client_address):
        # A browser that closed its connection is no fault; others are told in the terminal.
        if not isinstance(sys.exc_info()[1], (ConnectionError, TimeoutError)):
            super().handle_error(request, client_address)


class Entrance:
    """The local file that leads the browser to the page, for this user alone. It goes when it was used."""

    def __init__(self, port, key):
        self.folder = tempfile.mkdtemp(prefix="anki-web-")
        self.path = os.path.join(self.folder, "open.html")
        file = os.open(self.path, os.O_WRONLY | os.O_CREAT | os.O_EXCL, 0o600)
        target = "http://127.0.0.1:%d/enter?key=%s" % (port, key)
        with os.fdopen(file, "w") as out:
            out.write(
                '<!DOCTYPE html><meta charset="utf-8"><meta name="referrer" content="no-referrer">'
                '<meta http-equiv="refresh" content="0; url=%s"><title>Anki</title><a href="%s">Go on</a>\n' % (target, target)
            )

    def address(self):
        return "file://" + urllib.parse.quote(self.path)

    def remove(self):
        shutil.rmtree(self.folder, ignore_errors=True)


def close_when_idle(session, ended):
    while not ended.wait(1):
        # Whoever is in the middle of something is not idle.
        session.rest_if_idle(IDLE)


def read_words(words):
    """The file, whether to open a browser, and the port; or None."""
    opens, port, rest = True, 0, []
    words = list(words)
    while words:
        word = words.pop(0)
        if word == "--no-browser":
            opens = False
        elif word == "--port" and words and words[0].isdigit() and int(words[0]) < 65536:
            port = int(words.pop(0))
        elif word.startswith("--") or word == "-h":
            return None
        else:
            rest.append(word)
    return (rest[0], opens, port) if len(rest) == 1 else None


def main(words):
    read = read_words(words)
    if read is None:
        sys.stderr.write(USAGE)
        return 0 if words in (["-h"], ["--help"]) else 2
    opens, port = read[1], read[2]
    for number in (signal.SIGTERM, signal.SIGHUP):
        signal.signal(number, ends_with(128 + number))
    session, entrance, ended = None, None, threading.Event()
    try:
        path = file_named(read[0])
        program = programs.find_program()
        if not ensure_collection(program, path, ask):
            return 1
        session = Session(program, path)
        session.open()
        site = Site(session)
        server = Server(site, port, lambda: entrance.remove())
        entrance = Entrance(server.server_address[1], site.key)
        threading.Thread(target=close_when_idle, args=(session, ended), daemon=True).start()
        print("The page is at 127.0.0.1, port %d. If no browser opens, open this file in one:" % server.server_address[1])
        print("%s\nCtrl-C ends it." % entrance.address(), flush=True)
        if opens:
            threading.Thread(target=webbrowser.open, args=(entrance.address(),), daemon=True).start()
        server.serve_forever()
    except KeyboardInterrupt:
        sys.stderr.write("\n")
        return 130
    except (ReadFault, Lost, programs.NoProgram, OSError) as fault:
        sys.stderr.write("anki-web: %s\n" % clean(str(fault)))
        return 1
    finally:
        signal.setitimer(signal.ITIMER_REAL, 0)
        ended.set()
        if entrance is not None:
            entrance.remove()
        if session is not None:
            session.rest("")
    return 0


def ends_with(status):
    """What ends the program at a signal. Python drops what is raised while it frees a thread, so it comes again until the end has begun."""

    def end(*_):
        signal.signal(signal.SIGALRM, end)
        signal.setitimer(signal.ITIMER_REAL, 0.2)
        sys.exit(status)

    return end


def ask(question):
    sys.stdout.write(question)
    sys.stdout.flush()
    return sys.stdin.readline().strip().lower() == "y"
