"""A card's page as a document of its own, for a frame whose sandbox is empty.

The sandbox and the policy keep scripts, requests and forms from working, whatever the page holds. Before that, tags that
belong to no card are made text, and links are made plain, so that what the policy does not speak of (a connection made
beforehand, say) does not happen either. No tag opens but by `<` and its name, so a page without these has none of them.
"""

import html
import re

POLICY = "default-src 'none'; style-src 'unsafe-inline'; img-src data:; form-action 'none'; base-uri 'none'"

_SCRIPT = re.compile(r"<script\b.*?(</script\s*>|\Z)", re.IGNORECASE | re.DOTALL)
_FOREIGN = re.compile(
    r"<(?=/?(?:link|base|meta|script|iframe|frame|frameset|object|embed|applet|form|portal|fencedframe)\b"
    r"|/?(?:html|head|body|title|plaintext)\b)",
    re.IGNORECASE,
)
# The policy stops where a link leads, but a browser connects to that place when a pointer comes near.
_LINK = re.compile(r"<(/?)(?:a|area)(?=[\s/>]|\Z)", re.IGNORECASE)
_MEDIA = re.compile(r"<(img|audio|video|source|track)\b([^>]*)>", re.IGNORECASE)
_SOURCE = re.compile(r"""\bsrc\s*=\s*("[^"]*"|'[^']*'|[^\s>]+)""", re.IGNORECASE)
_SOUND = re.compile(r"\[sound:([^\]<>]*)\]")
_KINDS = {"img": "image", "audio": "sound", "video": "video", "source": "source", "track": "track"}

STYLE = """
:root { color-scheme: light dark; }
html { font: 1.25rem/1.5 "Noto Sans", "Noto Sans CJK JP", "Noto Naskh Arabic", sans-serif; }
body { margin: 1rem; text-align: center; overflow-wrap: anywhere; }
img { max-width: 100%; }
.cloze { font-weight: bold; color: #0645ad; }
.media { font-size: 0.9em; border: 1px dashed; border-radius: 0.3em; padding: 0 0.3em; }
@media (prefers-color-scheme: dark) { .cloze { color: #8ab4f8; } }
"""

# Without scripts a hint is shown while the pointer is on it, or all are by a link of the page around.
HIDDEN_HINTS = """
.hint { background: #8884; color: transparent; border-radius: 0.3em; cursor: help; }
.hint * { visibility: hidden; }
.hint::before { content: "hint: "; color: CanvasText; }
.hint:hover { color: inherit; }
.hint:hover * { visibility: visible; }
"""


def card_document(page, shows_hints):
    """The whole document of a card's page."""
    style = STYLE + ("" if shows_hints else HIDDEN_HINTS)
    return (
        '<!DOCTYPE html><html><head><meta charset="utf-8">'
        '<meta http-equiv="Content-Security-Policy" content="%s">'
        '<meta http-equiv="x-dns-prefetch-control" content="off">'
        "<style>%s</style></head><body dir=auto>%s</body></html>" % (POLICY, style, tamed(page))
    )


def card_frame(page, shows_hints, title):
    """The frame around it. The document stands in an attribute, so nothing is asked of any server for it."""
    document = card_document(page, shows_hints)
    return '<iframe class="card" sandbox="" referrerpolicy="no-referrer" title="%s" srcdoc="%s"></iframe>' % (
        html.escape(title),
        html.escape(document),
    )


def tamed(page):
    page = _SCRIPT.sub("", page)
    page = _FOREIGN.sub("&lt;", page)
    page = _LINK.sub(r"<\1span", page)
    page = _MEDIA.sub(_placeholder, page)
    return _SOUND.sub(lambda found: _media("sound", html.unescape(found.group(1))), page)


def _placeholder(found):
    source = _SOURCE.search(found.group(2))
    name = html.unescape(source.group(1).strip("\"'")) if source else ""
    if found.group(1).lower() == "img" and name.lower().startswith("data:image/"):
        return found.group(0)
    return _media(_KINDS[found.group(1).lower()], name) if name else ""


def _media(kind, name):
    return '<span class="media">[%s: %s]</span>' % (kind, html.escape(name))
