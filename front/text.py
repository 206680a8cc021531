"""Pages and fields as text for a terminal.

A page is made by templates and fields that others may have written. No tag works here, and no control character reaches the
terminal: each is shown as a name in ‹›.
"""

import html.parser
import re
import unicodedata

# What has a name of its own; others are shown by their number.
NAMES = {
    0x00: "NUL", 0x07: "BEL", 0x08: "BS", 0x09: "TAB", 0x0B: "VT", 0x0C: "FF", 0x0D: "CR", 0x0E: "SO", 0x0F: "SI",
    0x1B: "ESC", 0x7F: "DEL", 0x84: "IND", 0x85: "NEL", 0x90: "DCS", 0x98: "SOS", 0x9B: "CSI", 0x9C: "ST", 0x9D: "OSC",
    0x9E: "PM", 0x9F: "APC",
    0x061C: "ALM", 0x200E: "LRM", 0x200F: "RLM", 0x202A: "LRE", 0x202B: "RLE", 0x202C: "PDF", 0x202D: "LRO", 0x202E: "RLO",
    0x2066: "LRI", 0x2067: "RLI", 0x2068: "FSI", 0x2069: "PDI", 0x2028: "LS", 0x2029: "PS", 0xFEFF: "BOM",
}  # fmt: skip

# Letters that join others: a script or a picture may need them, and no terminal acts on them.
_HARMLESS = {0x00AD, 0x0600, 0x0601, 0x0602, 0x0603, 0x0604, 0x0605, 0x06DD, 0x070F, 0x200B, 0x200C, 0x200D, 0x2060}

_BLOCKS = {
    "p", "div", "section", "article", "blockquote", "pre", "h1", "h2", "h3", "h4", "h5", "h6", "ul", "ol", "table", "tr", "form",
    "header", "footer", "figure", "dl", "dt", "dd", "center", "details", "summary",
}  # fmt: skip
_UNSHOWN = {"script", "style", "template", "title"}
_MEDIA = {"img": "image", "audio": "sound", "video": "video", "embed": "object", "object": "object", "iframe": "frame"}

RULE = "─" * 40


def clean(text):
    """A text of which a terminal acts on nothing but line ends."""
    return "".join(letter if _is_harmless(letter) else _name_of(letter) for letter in text)


def clean_line(text):
    """The same in one line."""
    return clean(text).replace("\n", " ")


def _is_harmless(letter):
    if letter == "\n" or ord(letter) in _HARMLESS:
        return True
    return unicodedata.category(letter) not in ("Cc", "Cf", "Cs", "Co", "Zl", "Zp")


def _name_of(letter):
    number = ord(letter)
    return "‹%s›" % NAMES.get(number, "U+%04X" % number)


def page_text(page):
    """A page as text for a terminal."""
    reader = _Page()
    reader.feed(page)
    reader.close()
    text = "".join(reader.pieces)
    text = re.sub(r" *\n *", "\n", text)
    text = re.sub(r"\n{3,}", "\n\n", text)
    return clean(text.strip("\n "))


def width_of(text):
    """How many columns of a terminal a line takes."""
    wide = sum(unicodedata.east_asian_width(letter) in "WF" for letter in text)
    return len(text) + wide - sum(unicodedata.combining(letter) > 0 for letter in text)


def fitted(text, width):
    """A line cut or filled to so many columns."""
    if width_of(text) > width:
        kept = ""
        for letter in text:
            if width_of(kept + letter) > width - 1:
                break
            kept += letter
        text = kept + "…"
    return text + " " * (width - width_of(text))


def field_text(field):
    """A field as one line: for tables and lists."""
    return re.sub(r"\s+", " ", page_text(field).replace("\n", " "))


class _Page(html.parser.HTMLParser):
    def __init__(self):
        super().__init__(convert_charrefs=True)
        self.pieces = []
        self.unshown = 0
        self.in_parenthesis = False
        self.closing = []

    def handle_starttag(self, tag, attributes):
        values = {name: value or "" for name, value in attributes}
        self.in_parenthesis = tag == "rp"
        if tag in _UNSHOWN:
            self.unshown += 1
        elif self.unshown:
            return
        elif tag == "br":
            self.add("\n")
        elif tag == "hr":
            self.add("\n%s\n" % RULE)
        elif tag in _MEDIA:
            name = values.get("alt") or values.get("src") or values.get("data") or "?"
            self.add("[%s: %s]" % (_MEDIA[tag], name))
        elif tag == "li":
            self.add("\n• ")
        elif tag in ("td", "th"):
            self.add(" ")
        elif tag == "rt":
            self.add("(")
        elif tag == "a" and "hint" in values.get("class", "").split():
            self.add("[hint: ")
            self.closing.append("]")
        elif tag == "a":
            self.closing.append("")
        elif tag == "input":
            self.add("[input]")
        elif tag in _BLOCKS:
            self.add("\n")

    def handle_endtag(self, tag):
        self.in_parenthesis = False
        if tag in _UNSHOWN:
            self.unshown = max(0, self.unshown - 1)
        elif self.unshown:
            return
        elif tag == "a" and self.closing:
            self.add(self.closing.pop())
        elif tag == "rt":
            self.add(")")
        elif tag in _BLOCKS:
            self.add("\n")

    def handle_startendtag(self, tag, attributes):
        if tag not in _UNSHOWN:
            self.handle_starttag(tag, attributes)

    def handle_data(self, data):
        # The parentheses of ruby are made here.
        if not self.unshown and not self.in_parenthesis:
            self.pieces.append(re.sub(r"\[sound:([^\]]*)\]", lambda found: "[sound: %s]" % found.group(1), data))

    def add(self, text):
        self.pieces.append(text)
