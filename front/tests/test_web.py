import html
import os
import re
import signal
import sqlite3
import stat
import subprocess
import sys
import threading
import time

from front.program import ROOT
from front.forms import fields_of_parts
from front.importing import LONGEST_FILE
from front.tests.files import FileCase
from front.tests.kills import child_of
from front.tests.pages import Browser, Forms, parts_of
from front.tests.standin import StandIn
from front.web import HEADERS, LONGEST_BODY, POLICY, kept_line_ends, local, with_told

KEY = "0123456789abcdef0123456789abcdef"

TOLD = re.compile(r'<p class="told[^"]*" role="status">([^<]*)</p>')
COUNTS = re.compile(r"<small>(new \d+, learning \d+, review \d+)</small>")


class WebCase(FileCase):
    LINES = ('note 1 1 ["a","A"]', 'note 1 1 ["b","B"]', 'note 1 1 ["c","C"]')

    def setUp(self):
        super().setUp()
        self.make(*self.LINES)
        self.browser = Browser(self.path, self.program)
        self.addCleanup(self.browser.close)
        self.entered = self.browser.enter()

    def told(self, page):
        return [html.unescape(text) for text in TOLD.findall(page)]

    def counts(self, page):
        return COUNTS.search(page).group(1)

    def show_back(self, page):
        return self.browser.see(html.unescape(re.search(r'id="show"[^>]*href="([^"]*)"', page).group(1)))

    def reviews(self):
        """The buttons of the reviews, once the front has ended."""
        self.browser.close()
        file = sqlite3.connect(self.path)
        rows = file.execute("select ease from revlog order by id").fetchall()
        file.close()
        return [row[0] for row in rows]


class Studying(WebCase):
    def test_study_and_a_second_request_with_a_number(self):
        browser = self.browser
        front = browser.see("/study?deck=1")
        self.assertEqual(self.counts(front), "new 3, learning 0, review 0")
        self.assertNotIn("/answer", front)
        back = self.show_back(front)
        form = browser.form(back, "/answer", which={"button": "4"})
        page = browser.send("/answer", form)
        self.assertEqual(self.counts(page), "new 2, learning 0, review 0")
        # A double key, a reload, the back button, a lost reply: the same request again.
        for _ in range(3):
            self.assertEqual(browser.send("/answer", form), page)
        # Another tab, that shows the same screen, and another button there.
        late = browser.send("/answer", dict(form, button="1"))
        self.assertEqual(self.counts(late), "new 2, learning 0, review 0")
        self.assertIn("nothing was changed now", self.told(late)[0])
        # A screen of a card that was answered is not shown again.
        status, headers, _ = browser.ask("GET", "/study?deck=1&back=1&card=%s&at=1" % form["card"])
        self.assertEqual((status, headers["Location"]), (303, "/study?deck=1"))
        page = browser.do(page, "/undo")
        self.assertEqual(self.told(page), ["Undone: the answer."])
        self.assertEqual(self.counts(page), "new 3, learning 0, review 0")
        page = browser.send("/answer", browser.form(self.show_back(page), "/answer", which={"button": "1"}))
        self.assertEqual(self.reviews(), [1])

    def test_many_requests_at_once_with_one_number(self):
        browser = self.browser
        form = browser.form(self.show_back(browser.see("/study?deck=1")), "/answer", which={"button": "3"})
        pages = []
        threads = [threading.Thread(target=lambda: pages.append(browser.ask("POST", "/answer", form)[0])) for _ in range(8)]
        for thread in threads:
            thread.start()
        for thread in threads:
            thread.join()
        self.assertEqual(pages, [303] * 8)
        self.assertEqual(self.reviews(), [3])

    def test_a_card_that_was_not_shown_is_not_answered(self):
        browser = self.browser
        form = browser.form(self.show_back(browser.see("/study?deck=1")), "/answer", which={"button": "3"})
        self.assertIn("not shown on this screen", browser.send("/answer", dict(form, card="17")))
        self.assertIn("a button is 1 to 4", browser.send("/answer", dict(form, button="5")))
        self.assertEqual(self.reviews(), [])

    def test_bury_suspend_flag_and_the_end_of_the_day(self):
        browser = self.browser
        page = browser.do(browser.see("/study?deck=1"), "/bury")
        self.assertEqual(self.counts(page), "new 2, learning 0, review 0")
        page = browser.do(page, "/flag", flag="3")
        self.assertEqual(self.told(page), ["Flag 3."])
        page = browser.do(page, "/suspend")
        page = browser.do(page, "/suspend")
        self.assertIn("All done for now.", page)
        self.assertIn("Tomorrow: 0 cards to review, 1 card back from burying. New ones left: 0.", page)
        found = browser.see("/browse?q=flag%3A3")
        self.assertIn("new (suspended)", found)
        card = browser.see(html.unescape(re.search(r'href="(/card[^"]*)"', found).group(1)))
        self.assertEqual(card.count("<iframe"), 2)
        self.assertEqual(self.told(browser.do(card, "/unsuspend")), ["The card is back."])


class Sharing(WebCase):
    def test_a_program_that_is_killed(self):
        browser = self.browser
        page = browser.do(browser.see("/study?deck=1"), "/flag", flag="1")
        form = browser.form(self.show_back(page), "/answer", which={"button": "3"})
        os.kill(child_of(browser.process.pid), signal.SIGKILL)
        page = browser.send("/answer", form)
        self.assertIn("The file was closed; what was shown as done stays. Undo is empty from here.", self.told(page)[0])
        self.assertIn("The answer is not in the collection.", self.told(page)[0])
        # The same request again is shown the same, and a new one is done.
        self.assertEqual(browser.send("/answer", form), page)
        page = browser.see("/study?deck=1")
        self.assertIn("Nothing to undo", page)
        browser.send("/answer", browser.form(self.show_back(page), "/answer", which={"button": "3"}))
        self.assertEqual(self.reviews(), [3])

    def test_a_second_front_says_who_has_the_file(self):
        run = subprocess.run([sys.executable, os.path.join(ROOT, "bin", "anki-web"), "--no-browser", self.path], stdout=subprocess.PIPE, stderr=subprocess.PIPE,
                             env=dict(os.environ, ANKI_PROGRAM=self.program), check=False)
        self.assertEqual(run.returncode, 1)
        self.assertIn("is open in another program (anki-web, process %d)" % self.browser.process.pid, run.stderr.decode())

    def test_the_file_is_closed_without_requests(self):
        self.browser.close()
        idle = "import sys; sys.path.insert(0, %r); from front import web; web.IDLE = 0.5; sys.exit(web.main(sys.argv[1:]))" % ROOT
        browser = Browser(self.path, self.program, [sys.executable, "-c", idle])
        self.addCleanup(browser.close)
        browser.enter()
        form = browser.form(self.browser_back(browser), "/answer", which={"button": "3"})
        browser.do(browser.see("/study?deck=1"), "/flag", flag="2")
        self.wait_until_closed()
        page = browser.see("/study?deck=1")
        self.assertIn("undo is empty from here", self.told(page)[0])
        self.assertIn("Nothing to undo", page)
        # A card that was shown before is answered after.
        form = browser.form(self.browser_back(browser), "/answer", which={"button": "3"})
        self.wait_until_closed()
        self.assertEqual(self.counts(browser.send("/answer", form)), "new 2, learning 1, review 0")

    def browser_back(self, browser):
        return browser.see(html.unescape(re.search(r'id="show"[^>]*href="([^"]*)"', browser.see("/study?deck=1")).group(1)))

    def wait_until_closed(self):
        ends = time.monotonic() + 30
        while self.do("check") != ["sound"]:
            self.assertLess(time.monotonic(), ends)
            time.sleep(0.1)


class Changing(WebCase):
    def test_notes(self):
        browser = self.browser
        page = browser.do(browser.see("/add"), "/add", field0="日本語 <b>x</b>", field1="a\r\nb", tags="t2 t1")
        self.assertEqual(self.told(page), ["Added: 1 card."])
        page = browser.see("/add?type=2&deck=1")
        page = browser.do(page, "/add", field0="{{c1::x}} {{c2::y}}")
        self.assertEqual(self.told(page), ["Added: 2 cards."])
        # The type and the deck of the last one are chosen.
        self.assertEqual(browser.form(page, "/add")["type"], "2")
        # A refused one is shown again with what was typed.
        page = browser.do(page, "/add", field0="x" * 70000)
        self.assertIn("too long", self.told(page)[0])
        self.assertEqual(browser.form(page, "/add")["field0"], "x" * 70000)
        found = browser.see("/browse?q=tag%3At1")
        self.assertIn("日本語 x", found)
        note = browser.see(html.unescape(re.search(r'href="(/card[^"]*)"', found).group(1)))
        edit = browser.see(html.unescape(re.search(r'href="(/edit[^"]*)"', note).group(1)))
        form = browser.form(edit, "/edit")
        self.assertEqual((form["field0"], form["field1"], form["tags"]), ("日本語 <b>x</b>", "a\nb", "t1 t2"))
        # Another screen changes the collection first: what was typed is shown again, and is saved with the new number.
        browser.do(browser.see("/"), "/deck-new", name="D")
        page = browser.send("/edit", dict(form, field0="new text"))
        self.assertIn("nothing was saved now", self.told(page)[0])
        form = browser.form(page, "/edit")
        self.assertEqual(form["field0"], "new text")
        page = browser.send("/edit", form)
        self.assertEqual(self.told(page), ["The note is changed."])
        self.assertEqual(browser.send("/edit", form), page)
        sure = browser.see("/sure?what=note&id=%s" % form["note"])
        self.assertIn("Delete this note with its 1 card.", sure)
        self.assertEqual(self.told(browser.do(sure, "/note-delete")), ["The note is deleted."])
        self.assertIn("0 cards", browser.see("/browse?q=tag%3At1"))

    def test_decks_options_and_types(self):
        browser = self.browser
        page = browser.do(browser.see("/"), "/deck-new", name="French::Food")
        deck = re.search(r'href="/deck\?deck=(\d+)" aria-label="Change the deck French"', page).group(1)
        page = browser.do(page, "/deck-new", name="French")
        self.assertEqual(self.told(page), ["there is a deck French already"])
        # A rename asks first, with both names, and changes nothing before.
        sure = browser.rename(browser.see("/deck?deck=" + deck), "Latin <b>")
        self.assertIn("Rename the deck <bdi>French</bdi> to <bdi>Latin &lt;b&gt;</bdi>?", sure)
        self.assertNotIn("Latin", browser.see("/"))
        page = browser.do(sure, "/deck-rename")
        self.assertEqual(self.told(page), ["The deck is renamed."])
        self.assertIn("Change the deck Latin &lt;b&gt;::Food", page)
        # The question is of its screen: asked twice it is done once, and on an older one not at all.
        sure = browser.rename(browser.see("/deck?deck=" + deck), "Latin")
        page = browser.do(sure, "/deck-rename")
        self.assertEqual(browser.do(sure, "/deck-rename"), page)
        self.assertIn("Undo: the name of the deck Latin", page)
        page = browser.send("/deck-rename", dict(browser.form(sure, "/deck-rename"), name="Greek"))
        self.assertIn("nothing was saved now", self.told(page)[0])
        self.assertIn('value="Greek"', page)
        page = browser.do(browser.rename(page, "Default"), "/deck-rename")
        self.assertEqual(self.told(page), ["there is a deck Default already"])
        self.assertIn('value="Default"', page)
        self.assertNotIn("Greek", browser.see("/"))
        page = browser.do(browser.see("/deck?deck=" + deck), "/options-new", name="mine")
        page = browser.do(page, "/options-set", **{"new.perDay": "5"})
        self.assertEqual(self.told(page), ["The options are kept."])
        mine = re.search(r'href="/options\?options=(\d+)"', browser.see("/deck?deck=" + deck)).group(1)
        sure = browser.rename(browser.see("/options?options=" + mine), "ours")
        self.assertIn("Rename the options <bdi>mine</bdi> to <bdi>ours</bdi>?", sure)
        self.assertEqual(self.told(browser.do(sure, "/options-rename")), ["The options are renamed."])
        page = browser.see("/options?options=" + mine)
        self.assertIn('value="ours"', page)
        self.assertEqual(browser.form(page, "/options-set")["new.perDay"], "5")
        page = browser.do(browser.see("/options?options=1"), "/options-set", **{"new.perDay": "many"})
        self.assertIn("whole numbers", self.told(page)[0])
        self.assertEqual(browser.form(page, "/options-set")["new.perDay"], "many")
        page = browser.do(browser.see("/types"), "/type-new", name="Pair", fields="One, Two", front="{{One}}", back="{{Three}}")
        self.assertEqual(self.told(page), ["no field Three"])
        page = browser.do(page, "/type-new", back="{{Two}}")
        self.assertEqual(self.told(page), ["The note type is added."])
        made = [values["id"] for action, _, values in Forms(page).forms if action == "/sure"][-1]
        sure = browser.rename(page, "Twins", id=made)
        self.assertIn("Rename the note type <bdi>Pair</bdi> to <bdi>Twins</bdi>?", sure)
        self.assertNotIn("Twins", browser.see("/types"))
        self.assertIn("Twins", browser.do(sure, "/type-rename"))
        page = browser.do(browser.see("/sure?what=type&id=" + made), "/type-delete")
        self.assertIn("undo is empty from here", self.told(page)[0])
        self.assertEqual(self.told(browser.do(browser.see("/"), "/spread", spread="2")), ["Kept."])
        sure = browser.see("/sure?what=deck&id=" + deck)
        self.assertIn("2 decks, 0 cards and 0 notes go", sure)
        page = browser.do(sure, "/deck-delete")
        self.assertNotIn("Change the deck Latin", page)
        self.assertIn("Change the deck Latin", browser.do(page, "/undo"))
        self.assertIn("Charts", browser.see("/charts"))

    def test_searches(self):
        found = self.browser.see("/browse?q=a+or+b")
        self.assertIn("2 cards", found)
        page = self.browser.see("/browse?q=%28a", 422)
        self.assertIn("a group is never closed", self.told(page)[0])
        self.assertIn('value="(a"', page)
        self.assertEqual(self.browser.see("/browse?q=%22%3E%3Cscript%3E", 422).count("<script"), 1)


class FilesByTheProgram(WebCase):
    """Import and export at the page, by the program itself."""

    def setUp(self):
        self.needs("import", "1", "1")
        self.needs("export", "1")
        super().setUp()

    def test_a_file_goes_in_and_comes_out(self):
        browser = self.browser
        for said in ("Imported: 1 note added, 0 updated, 0 as they were.", "Imported: 0 notes added, 0 updated, 1 as they were."):
            page = browser.do(browser.see("/files"), "/import", file=b'g1,t,"d, e",D\n')
            self.assertEqual(self.told(page), [said])
        self.assertIn("d, e", browser.see("/browse?q=tag:t"))
        page = browser.do(page, "/import", file=b"g2,,f,F\ng3,,g\n")
        self.assertIn("Nothing was imported: record 2, counted without empty lines: it has not the 4 columns", self.told(page)[0])
        status, headers, text = browser.ask("POST", "/export", browser.form(browser.see("/files"), "/export"))
        self.assertEqual((status, headers["Content-Type"]), (200, "text/csv; charset=utf-8"))
        lines = text.split("\n")
        self.assertEqual([line.split(",", 1)[1] for line in lines[:-1]], [",a,A", ",b,B", ",c,C", 't,"d, e",D'])
        # What came out goes in again as it was.
        page = browser.do(browser.see("/files"), "/import", file=text.encode())
        self.assertEqual(self.told(page), ["Imported: 0 notes added, 0 updated, 4 as they were."])


class Files(WebCase):
    """Sync, upload, download, import and export at the page, over a stand-in for the program."""

    def setUp(self):
        self.tool = None
        super().setUp()

    def make(self, *lines):
        super().make(*lines)
        self.tool = StandIn(self.folder, self.program, "sync", "upload", "download", "import", "export")
        self.program = self.tool.path

    def test_the_ways_out_of_a_sync_are_asked_for_twice(self):
        browser, tool = self.browser, self.tool
        browser.do(browser.see("/study?deck=1"), "/flag", flag="2")
        tool.answer("full needed: schema 1 2\n", 10)
        page = browser.do(browser.see("/sync"), "/sync", server="example.org:8765", key=KEY)
        self.assertIn("full needed: schema 1 2. Note types or options were changed", self.told(page)[-1])
        self.assertIn("undo is empty from here", self.told(page)[0])
        tool.answer("finished\n", 0)
        for word, throws in (("upload", "what the server has and this device has not"), ("download", "what this device has and the server has not")):
            self.assertIn(throws, page)
            ways = re.findall(r'href="(/whole[^"]*)"', page)
            first = browser.see(html.unescape(next(way for way in ways if word in way)))
            self.assertIn(throws, first)
            self.assertNotIn('method="post" action="/%s"' % word, first)
            second = browser.see(html.unescape(re.search(r'href="(/whole[^"]*sure=1)"', first).group(1)))
            self.assertIn(throws, second)
            form = browser.form(second, "/" + word, key=KEY)
            self.assertEqual(form["server"], "example.org:8765")
            # Without the word nothing is sent, and the key is not given back.
            refused = browser.send("/" + word, dict(form, word="yes"))
            self.assertIn("nothing was sent: the word %s was not typed" % word, self.told(refused)[0])
            self.assertNotIn(KEY, refused)
            self.assertEqual(tool.asked().split()[2], "sync" if word == "upload" else "upload")
            form = browser.form(refused, "/" + word, key=KEY, word=word)
            page = browser.send("/" + word, form)
            self.assertEqual(tool.asked(), "%s example.org:8765 %s %s\n" % (self.path, word, KEY))
            self.assertIn("Undo is empty from here.", self.told(page)[-1])
            self.assertNotIn(KEY, page)
            # The same request again is shown the same, and nothing is run.
            tool.answer("lost\n", 7)
            self.assertEqual(browser.send("/" + word, form), page)
            tool.answer("finished\n", 0)

    def test_no_key_in_an_address(self):
        browser = self.browser
        self.tool.answer("finished\n", 0)
        form = browser.form(browser.see("/sync"), "/sync", server="a:1", key=KEY)
        _, headers, _ = browser.ask("POST", "/sync", form)
        self.assertNotIn(KEY, str(headers))
        second = browser.form(browser.see("/whole?way=upload&sure=1"), "/upload", server="a:1", key=KEY, word="upload")
        _, headers, _ = browser.ask("POST", "/upload", second)
        self.assertNotIn(KEY, str(headers))
        for path in ("/sync", "/upload", "/download"):
            self.assertEqual(browser.ask("GET", path + "?server=a:1&word=upload&key=" + KEY)[0], 200 if path == "/sync" else 404)
        self.assertEqual(self.tool.asked().split()[2], "upload")
        self.assertEqual(browser.ask("GET", "/whole?way=other")[0], 404)

    def test_import(self):
        browser, tool = self.browser, self.tool
        tool.answer("added 1 updated 0 same 2\n", 0)
        page = browser.see("/files")
        self.assertIn("<bdi>guid, tags, Front, Back</bdi>", page)
        content = b"g1,,\"a\r\nb\",\xff\x00\r\n--\r\n\r\n"
        form = browser.form(page, "/import", file=content)
        page = browser.send("/import", form)
        self.assertEqual(self.told(page), ["Imported: 1 note added, 0 updated, 2 as they were."])
        self.assertEqual((tool.asked(), tool.given()), ("%s - import 1 1\n" % self.path, content))
        # Once, whatever a second request says; another file on an old screen is not taken.
        tool.answer("added 9 updated 9 same 9\n", 0)
        self.assertEqual(browser.send("/import", form), page)
        self.assertIn("nothing was saved now", self.told(browser.send("/import", dict(form, file=b"other")))[0])
        self.assertEqual(tool.given(), content)
        tool.answer("line 4: csv fault 2 at 4\n", 3)
        page = browser.do(browser.see("/files"), "/import", file=b"x", type="2")
        self.assertIn("Nothing was imported: record 4, counted without empty lines: its guid", self.told(page)[0])
        self.assertEqual(browser.form(page, "/import")["type"], "2")
        tool.answer("usage\n", 2)
        self.assertIn("older than the command import", self.told(browser.send("/import", browser.form(page, "/import", file=b"x")))[0])
        self.assertIn("no file was chosen", self.told(browser.send("/import", browser.form(page, "/import", file="")))[0])

    def test_a_file_that_is_too_long_is_told(self):
        self.assertEqual(LONGEST_FILE, 64 << 20)
        self.browser.close()
        shorter = "import sys; sys.path.insert(0, %r); from front import importing; importing.LONGEST_FILE = 1 << 20; from front import web; sys.exit(web.main(sys.argv[1:]))"
        browser = Browser(self.path, self.program, [sys.executable, "-c", shorter % ROOT])
        self.addCleanup(browser.close)
        browser.enter()
        form = browser.form(browser.see("/files"), "/import", file=bytes((1 << 20) + LONGEST_BODY))
        status, _, page = browser.ask("POST", "/import", form)
        self.assertEqual(status, 413)
        self.assertIn("Nothing was imported: the file is over 1 MiB.", page)
        form["file"] = bytes((1 << 20) + 1)
        self.assertIn("the file is over 1 MiB", self.told(browser.send("/import", form))[0])
        # Elsewhere, and for whoever has not come in, a body is short.
        form["file"], long = b"x", str(LONGEST_BODY + 1)
        self.assertEqual(browser.ask("POST", "/add", form, Content_Length=long)[0], 400)
        self.assertEqual(browser.ask("POST", "/import", form, Content_Length=long, Cookie="a=b")[0], 403)
        for length in (str(2 << 30), "9" * 5000, "-1", "x"):
            self.assertEqual(browser.ask("POST", "/import", form, Content_Length=length)[0], 400)
        self.assertIsNone(self.tool.asked())

    def test_export(self):
        browser, tool = self.browser, self.tool
        browser.do(browser.see("/types"), "/type-new", name='Zwei "\r\nX: é', fields="One", front="{{One}}", back="x")
        tool.answer("g1,,a,\n", 0)
        page = browser.see("/files")
        form = browser.form(page, "/export")
        for _ in range(2):
            status, headers, text = browser.ask("POST", "/export", form)
            self.assertEqual((status, text, headers["Content-Type"]), (200, "g1,,a,\n", "text/csv; charset=utf-8"))
            self.assertEqual(headers["Content-Disposition"], "attachment; filename=\"notes.csv\"; filename*=UTF-8''Basic.csv")
            self.assertEqual(tool.asked(), "%s - export 1\n" % self.path)
        # It is no change: what stands on the screen can be sent still.
        self.assertEqual(self.told(browser.do(page, "/export", type="9"))[-1], "this is not in the collection any more")
        named = [note_type for note_type in re.findall(r'<option value="(\d+)"', page) if len(note_type) > 3][0]
        _, headers, _ = browser.ask("POST", "/export", dict(form, type=named))
        self.assertEqual(headers["Content-Disposition"].split("''")[1], "Zwei%20%22%20X%3A%20%C3%A9.csv")
        tool.answer("", 6)
        self.assertIn("The notes were not exported: the file can't be opened", self.told(browser.send("/export", form))[0])
        for change in ({"token": "0" * 32}, {"token": ""}):
            self.assertEqual(browser.ask("POST", "/export", dict(form, **change))[0], 403)
        self.assertEqual(browser.ask("POST", "/export", form, Origin="null")[0], 403)
        self.assertEqual(browser.ask("GET", "/export?type=1")[0], 404)

    def test_forms_that_are_none(self):
        browser = self.browser
        form = browser.form(browser.see("/files"), "/import", file=b"x")
        body, kind = parts_of(form)
        line = body.split(b"\r\n")[0]
        for broken in (b"", b"x", body[:-20], body.replace(b"form-data; name", b"form-data; nom"), b"x" + body, body.replace(line, line + b"x", 1), body.replace(b"\r\n\r\n", b"\r\n")):
            self.assertIsNone(fields_of_parts(broken, kind.split("=")[1], "file"), broken)
        self.assertEqual(fields_of_parts(body, kind.split("=")[1], "file"), form)
        self.assertIsNone(fields_of_parts(body, kind.split("=")[1], "other"))
        for boundary in (None, "", "é", "x" * 71):
            self.assertIsNone(fields_of_parts(body, boundary, "file"))
        self.assertEqual(browser.ask("POST", "/import", form, Content_Type="multipart/form-data")[0], 400)
        # A file under another name, or elsewhere.
        self.assertEqual(browser.ask("POST", "/import", dict(form, token=b"x"))[0], 400)
        self.assertEqual(browser.ask("POST", "/deck-new", dict(form, name="D"))[0], 400)
        self.assertEqual(browser.ask("POST", "/import", dict(form, token="x"))[0], 403)
        self.assertEqual(browser.ask("POST", "/import", form, Origin="http://evil.example")[0], 403)
        self.assertIsNone(self.tool.asked())


class Safety(WebCase):
    LINES = ('note 1 1 ["<script>parent.x</script>\\"><img src=http://evil/x onerror=1>","A"]',)

    def test_the_entrance(self):
        browser = self.browser
        status, headers, page = self.entered
        self.assertEqual(status, 200)
        cookie = headers["Set-Cookie"]
        self.assertRegex(cookie, r"\Aanki_%d=[0-9a-f]{32}; HttpOnly; SameSite=Strict; Path=/\Z" % browser.port)
        self.assertNotIn(browser.key, page)
        self.assertRegex(browser.key, r"\A[0-9a-f]{32}\Z")
        self.assertNotIn(browser.key, cookie)
        # The key is given once, and the local file goes.
        self.assertEqual(browser.ask("GET", "/enter?key=" + browser.key)[0], 403)
        self.assertFalse(os.path.exists(os.path.dirname(browser.entrance)))
        for key in ("", "0" * 32, "é"):
            self.assertEqual(browser.ask("GET", "/enter?key=" + html.escape(key.encode("ascii", "ignore").decode()))[0], 403)

    def test_the_local_file_is_the_users_alone(self):
        other = os.path.join(self.folder, "other.anki")
        self.path = other
        self.make()
        browser = Browser(other, self.program)
        self.addCleanup(browser.close)
        self.assertEqual(stat.S_IMODE(os.stat(browser.entrance).st_mode), 0o600)
        self.assertEqual(stat.S_IMODE(os.stat(os.path.dirname(browser.entrance)).st_mode), 0o700)
        self.assertEqual(browser.process.poll(), None)
        browser.process.send_signal(signal.SIGINT)
        self.assertEqual(browser.process.wait(), 130)
        self.assertFalse(os.path.exists(os.path.dirname(browser.entrance)))
        self.assertEqual(self.do("check"), ["sound"])

    def test_it_listens_on_this_machine_alone(self):
        with open("/proc/net/tcp") as file:
            ends = [line.split()[1] for line in file if line.split()[3] == "0A"]
        self.assertIn("0100007F:%04X" % self.browser.port, ends)
        self.assertNotIn("00000000:%04X" % self.browser.port, ends)

    def test_every_request_has_the_right_host(self):
        browser, port = self.browser, self.browser.port
        self.assertEqual(browser.ask("GET", "/", Host="localhost:%d" % port)[0], 200)
        for host in ("evil.example", "evil.example:%d" % port, "127.0.0.1", "localhost", "127.0.0.1:%d" % (port + 1), "127.0.0.1.evil:%d" % port,
                     "LOCALHOST:%d" % port, "[::1]:%d" % port, "0.0.0.0:%d" % port, "", None):
            for path in ("/", "/style.css", "/enter?key=" + browser.key, "/nothing"):
                self.assertEqual(browser.ask("GET", path, Host=host)[0], 403, host)

    def test_every_request_has_the_cookie(self):
        browser = self.browser
        held, browser.cookie = browser.cookie, None
        for cookie in (None, "anki_%d=%s" % (browser.port, "0" * 32), "other=%s" % held.split("=")[1], held[:-1]):
            for path in ("/", "/study?deck=1", "/style.css", "/nothing"):
                self.assertEqual(browser.ask("GET", path, Cookie=cookie)[0], 403)
            self.assertEqual(browser.ask("POST", "/undo", {"number": "1", "token": "x"}, Cookie=cookie)[0], 403)
        browser.cookie = held
        self.assertEqual(browser.ask("GET", "/", Cookie="a=b; %s; c=d" % held)[0], 200)

    def test_every_post_has_an_origin_and_a_token(self):
        browser = self.browser
        form = browser.form(browser.see("/"), "/deck-new", name="D")
        for origin in (None, "null", "http://evil.example", "https://" + browser.host(), "http://localhost:%d" % browser.port, "http://127.0.0.1"):
            self.assertEqual(browser.ask("POST", "/deck-new", form, Origin=origin)[0], 403)
        for token in ("", "0" * 32, browser.cookie.split("=")[1]):
            self.assertEqual(browser.ask("POST", "/deck-new", dict(form, token=token))[0], 403)
        self.assertEqual(browser.ask("POST", "/deck-new", form, Content_Type="text/plain")[0], 400)
        self.assertEqual(browser.ask("PUT", "/deck-new", form)[0], 501)
        self.assertNotIn("/deck?deck=1&amp;", browser.see("/"))
        self.assertEqual(len(re.findall("Change the deck", browser.see("/"))), 1)
        self.assertEqual(len(re.findall("Change the deck", browser.send("/deck-new", form))), 2)

    def test_get_changes_nothing(self):
        browser = self.browser
        form = browser.form(browser.see("/"), "/deck-new", name="D")
        query = "&".join("%s=%s" % pair for pair in form.items())
        for path in ("/deck-new", "/answer", "/undo", "/deck-delete", "/edit", "/import", "/export", "/upload", "/download"):
            for method in ("GET", "HEAD"):
                self.assertIn(browser.ask(method, "%s?%s" % (path, query))[0], (404,))
        self.assertEqual(len(re.findall("Change the deck", browser.see("/"))), 1)

    def test_every_answer_has_its_headers(self):
        browser = self.browser
        answers = [self.entered[:2]]
        for path in ("/", "/study?deck=1", "/style.css", "/front.js", "/browse?q=%28", "/nothing", "/enter?key=0", "/add", "/charts", "/files", "/whole?way=upload"):
            answers.append(browser.ask("GET", path)[:2])
        answers.append(browser.ask("GET", "/", Host="evil")[:2])
        answers.append(browser.ask("POST", "/undo", {"token": "x"})[:2])
        answers.append(browser.ask("PUT", "/")[:2])
        form = browser.form(browser.see("/"), "/deck-new", name="D")
        answers.append(browser.ask("POST", "/deck-new", form)[:2])
        for status, headers in answers:
            for name, value in HEADERS:
                self.assertEqual(headers.get_all(name), [value], status)
        self.assertEqual(
            [value for name, value in HEADERS][:5], ["no-referrer", "DENY", "no-store", "nosniff", POLICY],
        )
        self.assertTrue(POLICY.startswith("default-src 'none'; script-src 'self';"))
        self.assertNotIn("http", POLICY)

    def test_a_page_of_a_card_stands_in_its_frame_alone(self):
        page = self.browser.see("/study?deck=1")
        outside = re.sub(r'<iframe class="card" sandbox="" referrerpolicy="no-referrer" title="[^"<>]*" srcdoc="[^"<>]*"></iframe>', "", page)
        self.assertNotIn("evil", outside)
        self.assertNotIn("iframe", outside)
        self.assertEqual(outside.count("<script"), 1)
        self.assertNotIn("evil", re.sub(r"&quot;|<[^>]*>", "", self.browser.see("/")))

    def test_broken_requests(self):
        browser = self.browser
        for path in ("//", "/study", "/study?deck=x", "/study?deck=99", "/card?card=1", "/edit?note=1", "/deck?deck=99999999999999999999", "/options?options=7",
                     "/sure?what=x&id=5", "/sure?what=x&id=5&name=a", "/sure?what=deck&id=9&name=a", "/sure?what=type&name=", "/sure?what=deck&id=9", "/study?deck=1&card=1&at=1", "/add?type=77", "/whole", "/whole?way=x&sure=1"):
            self.assertIn(browser.ask("GET", path)[0], (200, 404), path)
        form = browser.form(browser.see("/"), "/deck-new", name="D")
        for action in ("/answer", "/bury", "/flag", "/edit", "/add", "/note-delete", "/deck-rename", "/deck-delete", "/deck-options", "/options-new",
                       "/options-set", "/options-rename", "/options-delete", "/type-rename", "/type-delete", "/spread", "/sync", "/upload", "/download", "/import",
                       "/export", "/nothing"):
            self.assertIn(browser.ask("POST", action, {"number": form["number"], "token": form["token"]})[0], (404, 422), action)
        self.assertEqual(browser.see("/").count("Nothing to undo"), 1)


# The signal comes while a callback of a weak reference runs, as when a thread is freed: Python drops what is raised there.
DROPPED = """
import os, signal, time, weakref
from front.web import ends_with
signal.signal(signal.SIGTERM, ends_with(143))
class Thing:
    pass
thing = Thing()
seen = weakref.ref(thing, lambda _: (os.kill(os.getpid(), signal.SIGTERM), time.sleep(0.01)))
del thing
time.sleep(20)
"""


class Words(FileCase):
    @classmethod
    def setUpClass(cls):
        pass

    def test_a_signal_ends_it_also_where_what_is_raised_is_dropped(self):
        ran = subprocess.run([sys.executable, "-B", "-c", DROPPED], cwd=ROOT, stderr=subprocess.PIPE, text=True, timeout=15)
        self.assertIn("Exception ignored in", ran.stderr)
        self.assertEqual(ran.returncode, 143, ran.stderr)

    def test_a_way_back_stays_here(self):
        for path in ("//evil", "http://evil", "/\\evil", "", None, "evil", "/a\nb", "/é"):
            self.assertEqual(local(path), "/")
        self.assertEqual(local("/browse?q=a&first=0"), "/browse?q=a&first=0")
        self.assertEqual(with_told("/study?deck=1&told=3", 5), "/study?deck=1&told=5")

    def test_line_ends_of_a_browser(self):
        self.assertEqual(kept_line_ends(["a\r\nb", "c\r\nd", "e"], ["a\rb", "c"]), ["a\rb", "c\nd", "e"])
