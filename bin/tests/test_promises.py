"""That what docs/PROVED.md names stands in the sources: each clause and law of its tables of promises, each name in the chapters of crates, and
the sentences of the first page.

    python3 -m unittest discover -s bin/tests
"""
import glob
import os
import re
import sys
import unittest

TOP = os.path.dirname(os.path.dirname(os.path.dirname(os.path.realpath(__file__))))
sys.dont_write_bytecode = True
sys.path.insert(0, os.path.dirname(os.path.dirname(os.path.realpath(__file__))))
from contract_names import bare, contracts, missing  # noqa: E402

# Words in the chapters of crates that are no names of the sources: of lines and commands, of names of decks, and of the libraries that are used.
OTHER_WORDS = {"main", "serde_json", "sha1", "sqlite", "httparse", "http", "matchit", "toml", "clap", "csv", "rt", "docs", "bin", "Fre", "French"}


def text_of(path):
    with open(f"{TOP}/{path}", encoding="utf-8") as file:
        return file.read()


def promises():
    """The rows of the tables of promises: a sentence, and the names beside it in their order."""
    chapter = text_of("docs/PROVED.md").partition("\n## The promises\n")[2].partition("\n## ")[0]
    rows = [line.strip("|").split(" | ") for line in chapter.split("\n") if line.startswith("| ") and line != "| promise | clause or law |"]
    return [(cells[0].strip(), re.findall(r"`([^`]+)`", cells[-1])) for cells in rows]


def chapters():
    """The chapters of crates of docs/PROVED.md: their crates, and the names in them."""
    for part in text_of("docs/PROVED.md").split("\n## ")[1:]:
        crates = [it.strip() for it in part.split("\n")[0].split(",")]
        if all(os.path.isdir(f"{TOP}/crates/{it}") for it in crates):
            words = re.findall(r"`([^`\n]+)`", part)
            names = {name for word in words if re.fullmatch(r"(\w+::)*\w+", word) for name in word.split("::")}
            yield crates, sorted(name for name in names if re.fullmatch(r"[A-Za-z]\w*_\w+|[A-Z]\w*[a-z]\w*", name))


class Promises(unittest.TestCase):
    def test_each_clause_and_law_stands_in_the_sources(self):
        gone = []
        for sentence, names in promises():
            self.assertTrue(names and "::" in names[0], f"no function beside: {sentence}")
            gone += [f"{name} (beside: {sentence})" for name in missing(names, contracts())]
        self.assertEqual(gone, [])

    def test_a_function_whose_clauses_have_names_is_cited_with_one(self):
        self.assertEqual([f"{name} (beside: {sentence})" for sentence, names in promises() for name in bare(names, contracts())], [])

    def test_the_first_pages_sentences_are_promises(self):
        page = text_of("README.md").partition("Six things are proved.")[2].partition("\n\nWhat a file of SQLite holds")[0]
        told = [re.match(r"- (.*): \[", line)[1] for line in page.split("\n") if line.startswith("- ")]
        self.assertEqual(len(told), 6)
        listed = [sentence for sentence, _ in promises()]
        self.assertEqual([it for it in told if it not in listed], [])

    def test_the_first_page_names_clauses_that_stand(self):
        page = text_of("README.md").partition("Six things are proved.")[2].partition("\n\nWhat a file of SQLite holds")[0]
        functions = {}
        for (_, name), clauses in contracts().items():
            functions.setdefault(name, set()).update(clauses, {None})
        for names in re.findall(r": \[([^\]]*)\]", page):
            words = re.findall(r"`(\w+)`", re.sub(r" with `\w+`", "", names))
            at = None
            for word in words:
                at, is_there = (word, True) if word in functions and word not in functions.get(at, ()) else (at, word in functions.get(at, ()))
                self.assertTrue(is_there, f"{word} of {names}")

    def test_no_promise_is_a_long_sentence(self):
        self.assertEqual([sentence for sentence, _ in promises() if len(sentence.split()) > 40], [])

    def test_each_name_in_a_crates_chapter_stands_in_the_sources(self):
        words = {}
        for path in glob.glob(f"{TOP}/crates/*/s*/**/*.*t", recursive=True):
            if path.endswith((".rt", ".antt")):
                crate = os.path.relpath(path, f"{TOP}/crates").split("/")[0]
                with open(path, encoding="utf-8") as file:
                    words.setdefault(crate, set()).update(re.findall(r"\w+", file.read()))
        every, gone = set().union(*words.values()), []
        for crates, names in chapters():
            gone += [f"{name} (of {crates[0]})" for name in names if name not in every | OTHER_WORDS and not os.path.isdir(f"{TOP}/crates/{name}")]
        self.assertEqual(gone, [])


if __name__ == "__main__":
    unittest.main()
