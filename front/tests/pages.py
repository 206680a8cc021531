"""A learner's browser for tests: it keeps a cookie, and fills in the forms of a page."""

import html.parser
import http.client
import os
import re
import secrets
import subprocess
import sys
import urllib.parse

from front.program import ROOT


class Forms(html.parser.HTMLParser):
    """The forms of a page: (action, method, values)."""

    def __init__(self, page):
        super().__init__()
        self.forms, self.text_of = [], None
        self.feed(page)

    def handle_starttag(self, tag, attributes):
        values = dict(attributes)
        if tag == "form":
            self.forms.append((values.get("action"), values.get("method", "get"), {}))
        elif tag == "input" and self.forms and values.get("name"):
            self.forms[-1][2][values["name"]] = values.get("value", "")
        elif tag == "textarea" and self.forms:
            self.text_of = values["name"]
            self.forms[-1][2][self.text_of] = ""
        elif tag == "select" and self.forms:
            self.select = values["name"]
        elif tag == "option" and self.forms and ("selected" in values or self.select not in self.forms[-1][2]):
            self.forms[-1][2][self.select] = values.get("value")

    def handle_endtag(self, tag):
        if tag == "textarea":
            self.text_of = None

    def handle_data(self, data):
        if self.text_of is not None:
            # A textarea's first line end is no part of its text.
            held = self.forms[-1][2]
            held[self.text_of] += data if held[self.text_of] else data[1:] if data.startswith("\n") else data


def parts_of(values):
    """A form with files, which are bytes here, as a browser sends it: the body and its Content-Type."""
    line, body = "----part%s" % secrets.token_hex(8), b""
    for name, value in values.items():
        more = '; filename="a \\"b\\".csv"\r\nContent-Type: text/csv' if isinstance(value, bytes) else ""
        body += ('--%s\r\nContent-Disposition: form-data; name="%s"%s\r\n\r\n' % (line, name, more)).encode()
        body += (value if isinstance(value, bytes) else value.encode()) + b"\r\n"
    return body + ("--%s--\r\n" % line).encode(), "multipart/form-data; boundary=" + line


class Browser:
    """A browser at a page of `bin/anki-web`."""

    def __init__(self, path, program, words=(sys.executable, os.path.join(ROOT, "bin", "anki-web"))):
        self.process = subprocess.Popen(
            list(words) + ["--no-browser", path],
            stdout=subprocess.PIPE,
            stderr=subprocess.PIPE,
            env=dict(os.environ, ANKI_PROGRAM=program),
        )
        said = self.process.stdout.readline().decode() + self.process.stdout.readline().decode()
        if "port" not in said:
            raise AssertionError(said + self.process.stderr.read().decode())
        self.port = int(re.search(r"port (\d+)", said).group(1))
        self.entrance = urllib.parse.unquote(re.search(r"file://(\S+)", said).group(1))
        with open(self.entrance) as file:
            self.key = re.search(r"key=([0-9a-f]{32})", file.read()).group(1)
        self.cookie = None

    def host(self):
        return "127.0.0.1:%d" % self.port

    def ask(self, method, path, body=None, **headers):
        """The status, the headers and the text of a reply. A header that is None is not sent."""
        named = {"Host": self.host()}
        if self.cookie:
            named["Cookie"] = self.cookie
        if body is not None:
            named["Origin"] = "http://" + self.host()
            if any(isinstance(value, bytes) for value in body.values()):
                body, named["Content-Type"] = parts_of(body)
            else:
                body, named["Content-Type"] = urllib.parse.urlencode(body).encode(), "application/x-www-form-urlencoded"
            named["Content-Length"] = str(len(body))
        named.update({name.replace("_", "-"): value for name, value in headers.items()})
        connection = http.client.HTTPConnection("127.0.0.1", self.port, timeout=60)
        connection.putrequest(method, path, skip_host=True, skip_accept_encoding=True)
        for name, value in named.items():
            if value is not None:
                connection.putheader(name, value)
        connection.endheaders(body)
        reply = connection.getresponse()
        text = reply.read().decode()
        connection.close()
        return reply.status, reply.headers, text

    def enter(self):
        status, headers, text = self.ask("GET", "/enter?key=" + self.key)
        self.cookie = headers["Set-Cookie"].split(";")[0]
        return status, headers, text

    def see(self, path, status=200):
        got = self.ask("GET", path)
        if got[0] != status:
            raise AssertionError("%s: %d\n%s" % (path, got[0], got[2]))
        return got[2]

    def form(self, page, action, **values):
        """The values of a page's form that has the values `which`, some of them changed."""
        which = values.pop("which", {})
        for where, method, held in Forms(page).forms:
            if (where, method) == (action, "post") and all(held.get(name) == value for name, value in which.items()):
                return dict(held, **values)
        raise AssertionError("no form %s in\n%s" % (action, page))

    def send(self, action, form):
        """The page to which a POST leads, or its own reply."""
        status, headers, text = self.ask("POST", action, form)
        if status == 303:
            return self.see(headers["Location"])
        return text

    def rename(self, page, name, **which):
        """The question to which a page's form for another name leads, of the row `which`."""
        for action, _, held in Forms(page).forms:
            if action == "/sure" and all(held[key] == value for key, value in which.items()):
                return self.see("/sure?" + urllib.parse.urlencode(dict(held, name=name)))
        raise AssertionError("no form for a name in\n%s" % page)

    def do(self, page, action, **values):
        return self.send(action, self.form(page, action, **values))

    def close(self):
        self.process.terminate()
        self.process.wait()
        self.process.stdout.close()
        self.process.stderr.close()
