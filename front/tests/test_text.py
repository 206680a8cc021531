import unittest

from front.frame import POLICY, card_document, card_frame, tamed
from front.text import RULE, clean, field_text, fitted, page_text, width_of


class Terminal(unittest.TestCase):
    """What of a page reaches a terminal."""

    def test_control_characters_have_names(self):
        for text, shown in (
            ("\x1b[31mred", "‹ESC›[31mred"),
            ("\x9b31m", "‹CSI›31m"),
            ("\x1b]0;title\x07", "‹ESC›]0;title‹BEL›"),
            ("\x9d0;title\x9c", "‹OSC›0;title‹ST›"),
            ("a\rb", "a‹CR›b"),
            ("a\tb", "a‹TAB›b"),
            ("a\x00b\x7f", "a‹NUL›b‹DEL›"),
            ("\u202eabc\u202c", "‹RLO›abc‹PDF›"),
            ("\u2066a\u2069\u200f\u061c", "‹LRI›a‹PDI›‹RLM›‹ALM›"),
            ("a\u2028b\u2029c\x85d", "a‹LS›b‹PS›c‹NEL›d"),
            ("\ufeff\U000e0041\ue000", "‹BOM›‹U+E0041›‹U+E000›"),
            ("a\nb", "a\nb"),
        ):
            self.assertEqual(clean(text), shown)
            self.assertEqual(page_text("x" + text), "x" + shown)

    def test_no_control_character_comes_through_whatever_it_is(self):
        every = "".join(chr(number) for number in list(range(0x300)) + list(range(0x2000, 0x2070)) + [0xFEFF, 0xFFFE])
        entities = "".join("&#%d;" % number for number in range(0x100))
        for text in (clean(every), page_text(every), page_text(entities), page_text("<b title='\x1b'>" + every)):
            for letter in text:
                self.assertTrue(letter == "\n" or not (ord(letter) < 32 or 0x7F <= ord(letter) < 0xA0), repr(letter))

    def test_tags_and_entities(self):
        for page, shown in (
            ("<b>le</b> <i>chien</i>", "le chien"),
            ("a<br>b<br/>c", "a\nb\nc"),
            ("front<hr id=answer>back", "front\n%s\nback" % RULE),
            ("1 &lt; 2 &amp; &eacute;&nbsp;&#x3042;", "1 < 2 & é\xa0あ"),
            ("<ruby>漢<rp>(</rp><rt>かん</rt><rp>)</rp></ruby>", "漢(かん)"),
            ("<ruby>字<rt>じ</rt></ruby>", "字(じ)"),
            ("<a class=hint id=hint0>a hint</a> rest", "[hint: a hint] rest"),
            ('<a href="http://x">link</a>', "link"),
            ("<span class=cloze>[...]</span> and d", "[...] and d"),
            ("<div>a</div><div>b</div>", "a\n\nb"),
            ("<ul><li>a<li>b</ul>", "• a\n• b"),
            ('<img src="dog.jpg"> [sound:bark.mp3]<audio src=x.ogg>', "[image: dog.jpg] [sound: bark.mp3][sound: x.ogg]"),
            ("<script>alert(1)</script>a<style>b{}</style>", "a"),
            ("a < b > c", "a < b > c"),
            ("a <", "a <"),
        ):
            self.assertEqual(page_text(page), shown, page)

    def test_a_field_in_a_line(self):
        self.assertEqual(field_text("a<br>b\n c"), "a b c")

    def test_columns(self):
        self.assertEqual(width_of("漢字ab"), 6)
        self.assertEqual(fitted("漢字ab", 5), "漢字…")
        self.assertEqual(fitted("ab", 4), "ab  ")


class Frame(unittest.TestCase):
    """What of a page reaches the frame of a browser. That the rest does nothing there is tried in a browser."""

    def test_the_sandbox_is_empty_and_the_policy_stands_first(self):
        frame = card_frame("<b>x</b>", False, 'a "title"')
        self.assertIn('sandbox=""', frame)
        self.assertNotIn("src=", frame.replace("srcdoc=", ""))
        document = card_document("x", False)
        self.assertLess(document.index("Content-Security-Policy"), document.index("<style>"))
        self.assertIn(POLICY, document)
        self.assertEqual(POLICY, "default-src 'none'; style-src 'unsafe-inline'; img-src data:; form-action 'none'; base-uri 'none'")

    def test_a_page_can_not_leave_its_attribute(self):
        frame = card_frame('"></iframe><script>x</script>', False, "t")
        self.assertEqual(frame.count("<"), 2)
        self.assertEqual(frame.count('"'), 10)

    def test_tags_that_belong_to_no_card(self):
        for page in (
            "<script>x</script>", "<SCRIPT src=//evil>", "<link rel=preconnect href=//evil>", "<base href=//evil>", '<meta http-equiv=refresh content="0;url=//evil">',
            "<iframe src=//evil>", "<form action=//evil>", "<object data=//evil>", "<embed src=//evil>", "<LiNk/rel=dns-prefetch>", "</body><meta\nx>",
            "<scr<script>ipt>", "<scr<script></script>ipt>alert(1)</script>", "<frameset>", "</html>", "<title><link>",
        ):
            made = tamed(page).lower()
            for name in ("script", "link", "base", "meta", "iframe", "form", "object", "embed", "body", "html", "frameset", "title"):
                self.assertNotIn("<" + name, made, page)
                self.assertNotIn("</" + name, made, page)

    def test_links_lead_nowhere(self):
        self.assertEqual(tamed("<a href=//x>y</a> <A\nhref=//x>z</A > <abbr>w</abbr> <a"), "<span href=//x>y</span> <span\nhref=//x>z</span > <abbr>w</abbr> <span")
        self.assertEqual(tamed("&lt;a href=//x&gt;"), "&lt;a href=//x&gt;")

    def test_media_have_a_placeholder(self):
        self.assertEqual(tamed('<img src="a b.jpg" alt=x>'), '<span class="media">[image: a b.jpg]</span>')
        self.assertEqual(tamed("<img src=http://x/y.png>"), '<span class="media">[image: http://x/y.png]</span>')
        self.assertEqual(tamed("[sound:a&lt;b.mp3]"), '<span class="media">[sound: a&lt;b.mp3]</span>')
        self.assertEqual(tamed('<img src="&lt;b&gt;.jpg">'), '<span class="media">[image: &lt;b&gt;.jpg]</span>')
        self.assertEqual(tamed("<img src=data:image/png;base64,AAAA>"), "<img src=data:image/png;base64,AAAA>")

    def test_hints(self):
        self.assertIn(".hint:hover", card_document("<a class=hint id=hint0>a</a>", False))
        self.assertNotIn(".hint:hover", card_document("<a class=hint id=hint0>a</a>", True))


if __name__ == "__main__":
    unittest.main()
