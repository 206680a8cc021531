"""The first page and the documents beside it: length, sentences, links."""
import glob
import os
import re
import unittest

from tools.tests.support import TOP

FIRST = "README.new.md" if os.path.exists(os.path.join(TOP, "README.new.md")) else "README.md"

# Pages whose links are followed.
PAGES = [FIRST, "CONTRIBUTING.md", "SECURITY.md", "CHANGELOG.md", "docs/ARCHITECTURE.md", "docs/FILES.md", "docs/ANSWERS.md", "docs/CAUSES.md", "docs/USE.md", "docs/LOSSES.md", "docs/profile/lab.md", "docs/profile/words.md", "docs/profile/csv.md", "docs/profile/ends.md", "docs/profile/desk.md", "docs/profile/README.md"]

# Pages that come with the fronts.
OF_THE_FRONTS = ("docs/TUTORIAL.md", "docs/front/README.md")


def read(name):
    with open(os.path.join(TOP, name), encoding="utf-8") as text:
        return text.read()


def prose_of(text):
    """The paragraphs, points and cells of a page without code, links as their words."""
    text = re.sub(r"(?m)^    .*$", "", text)
    text = re.sub(r"\[([^\]]*)\]\([^)]*\)", r"\1", text)
    return [" ".join(it.split()) for it in re.split(r"\n\s*\n|\n- |\n\d+\. |\n#+ |\||\n(?=\|)", text)]


def sentences_of(text):
    return [it for paragraph in prose_of(text) for it in re.split(r"(?<=[.?!])\s+", paragraph) if it.strip()]


def anchor_of(heading):
    """The anchor of a heading, as the pages of a repository have it."""
    words = re.sub(r"\[([^\]]*)\]\([^)]*\)", r"\1", heading).lower()
    return re.sub(r"[^\w\- ]", "", words).replace(" ", "-")


class FirstPage(unittest.TestCase):
    def test_length(self):
        self.assertLess(len(read(FIRST).split("\n")), 110)

    def test_sentences(self):
        self.assertEqual([], [it for it in sentences_of(read(FIRST)) if len(it.split()) > 30])

    def test_its_questions_are_answered(self):
        text = read(FIRST)
        for words in ("Is my data safe?", "How do I begin?", "What is missing?", "licence", "Python 3.8", "memory", "processor", "rt ci", "first-sync.lab", "docs/TUTORIAL.md"):
            self.assertIn(words, text)


class Sentences(unittest.TestCase):
    def test_no_sentence_is_over_40_words(self):
        for page in ("CONTRIBUTING.md", "SECURITY.md", "CHANGELOG.md", "docs/ARCHITECTURE.md", "docs/FILES.md", "docs/LOSSES.md", "docs/profile/words.md", "docs/profile/csv.md"):
            self.assertEqual([], [it for it in sentences_of(read(page)) if len(it.split()) > 40], page)


class Links(unittest.TestCase):
    def test_each_leads_to_a_page_and_a_heading(self):
        for page in PAGES:
            for target in re.findall(r"\]\(([^)\s]+)\)", re.sub(r"`[^`]*`", "", read(page))):
                if re.match(r"[a-z]+:", target):
                    continue
                name, _, anchor = target.partition("#")
                path = os.path.normpath(os.path.join(os.path.dirname(page), name)) if name else page
                if path in OF_THE_FRONTS and not os.path.exists(os.path.join(TOP, path)):
                    continue
                self.assertTrue(os.path.exists(os.path.join(TOP, path)), "%s leads to %s" % (page, target))
                if anchor and path.endswith(".md"):
                    anchors = {anchor_of(it) for it in re.findall(r"(?m)^#+ (.*)$", read(path))}
                    self.assertIn(anchor, anchors, "%s leads to %s" % (page, target))


if __name__ == "__main__":
    unittest.main()
