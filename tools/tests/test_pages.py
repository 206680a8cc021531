"""What is made of docs/profile/ and docs/answers.json is fresh and whole: docs/ANSWERS.md, help, pages for man, completion, and what is installed."""
import glob
import os
import re
import shutil
import subprocess
import sys
import tempfile
import unittest

from tools import answers, completions, helps, make_pages
from tools.pages import codes_in, read_page, tables_of
from tools.tests.support import TOP, Case, run

# The crates that print, with the files that make what is printed.
PRINTS = (
    "ak_desk_texts/src/*.rt", "ak_outcomes/src/*.rt", "ak_desk_runs/src/*.rt", "ak_line_runs/src/*.rt", "ak_lab/src/*.rt", "ak_lab_lines/src/lab_texts.rt", "ak_lab_devices/src/*.rt",
    "ak_cli/src/program_runs.rt", "ak_csv_runs/src/*.rt", "ak_sync_runs/src/*.rt", "ak_transfer_runs/src/*.rt", "ak_makes/src/makes.rt", "ak_io/src/endings.rt", "ak_wire/src/words.rt", "ankid/src/*.rt",
    "anki/src/*.rt",
)

# Literals in these files that are not printed: the first words by which lines take a turn, the lab's own account, the word before a journal's path.
NOT_PRINTED = {"lab", "a" * 32, "journal:"}


def literals_of(path):
    """The string literals of a source, without those of its comments and contracts."""
    with open(path, encoding="utf-8") as text:
        lines = [line for line in text.read().split("\n") if not re.match(r"\s*(//|ensures|requires|ghost)", line)]
    for found in re.findall(r'"((?:[^"\\]|\\.)*)"', "\n".join(lines)):
        yield found.replace('\\"', '"').replace("\\n", "").replace("\\\\", "\\")


def fixed_parts(literal):
    """What is printed of a literal as it stands: `{name}` is filled in, and a double brace is a single one."""
    parts, rest = [""], literal
    while rest:
        found = re.match(r"\{\{|\}\}|\{[^{}]*\}|.", rest, re.DOTALL).group()
        rest = rest[len(found):]
        if found in ("{{", "}}"):
            parts[-1] += found[0]
        elif len(found) > 1:
            parts.append("")
        else:
            parts[-1] += found
    return [part.strip(" ") for part in parts if part.strip(" ")]


class Answers(unittest.TestCase):
    def setUp(self):
        self.told = answers.read_answers()
        self.texts = [it["text"] for it in self.told["texts"] if "text" in it]

    def test_each_literal_of_the_crates_that_print_stands_there(self):
        number = 0
        page = "\n".join("%s\n%s" % (it["text"], it["why"]) for it in self.told["texts"] if "text" in it)
        for pattern in PRINTS:
            paths = glob.glob(os.path.join(TOP, "crates", pattern))
            self.assertTrue(paths, pattern)
            for path in paths:
                for literal in literals_of(path):
                    if literal in NOT_PRINTED:
                        continue
                    for part in fixed_parts(literal):
                        number += 1
                        self.assertTrue(part in page, "%s of %s" % (literal, path))
        self.assertGreater(number, 60)

    def test_each_text_is_made_of_literals(self):
        literals = {part for pattern in PRINTS for path in glob.glob(os.path.join(TOP, "crates", pattern)) for it in literals_of(path) for part in fixed_parts(it)}
        for text in self.texts:
            for part in re.split(r"<[^<>]*>", text):
                words = part
                for literal in sorted(literals, key=len, reverse=True):
                    words = words.replace(literal, "")
                self.assertEqual("", words.replace(" ", "").replace(",", "").replace(":", ""), text)

    def test_each_text_of_the_pages_stands_there(self):
        tables = [it for it in tables_of("profile/desk.md") if it.head[0] == "text"] + [it for it in tables_of("profile/lab.md") if it.head[0] == "text"]
        tables += [it for page in ("outcomes", "csv") for it in tables_of("profile/%s.md" % page) if it.head[0] == "printed"]
        self.assertEqual(4, len(tables))
        for table in tables:
            for row in table.rows:
                for text in codes_in(row[0]):
                    if row[0].startswith("a text of") or text == "line <n>: <text>":
                        continue
                    self.assertTrue(answers.text_told(self.told, re.sub("<n>", "1", text)), text)

    def test_each_status_of_readme_and_pages_stands_there(self):
        known = {it["status"] for it in self.told["statuses"]}
        self.assertTrue({0, 2, 3, 4, 5, 6, 7, 8, 10, 11, 12, 13, 14, 15, 16, 100, 101} <= known)
        for row in next(it for it in tables_of("profile/outcomes.md") if it.head[0] == "printed").rows:
            self.assertIn(int(row[1]), known)

    def test_each_word_of_the_server_stands_in_its_group(self):
        place = next(place for place, it in enumerate(self.told["texts"]) if it.get("on") == "ankid")
        printed = {it for path in glob.glob(os.path.join(TOP, "crates/ankid/src/*.rt")) for it in literals_of(path)}
        self.assertEqual(printed, {it["text"] for it in self.told["texts"][place + 1:]})

    def test_each_word_that_the_server_takes_stands_in_its_page(self):
        with open(os.path.join(TOP, "crates/ak_server_words/src/commands.rt"), encoding="utf-8") as source:
            names = re.findall(r'(?:needed\(alloc, |\.long\()"(\w+)"\)', source.read())
        self.assertEqual(3, len(names))
        self.assertEqual(["--" + name for name in names], list(completions.server_options()))

    def test_each_status_of_the_server_stands_there(self):
        with open(os.path.join(TOP, "crates/ak_server_runs/src/run_ends.rt"), encoding="utf-8") as source:
            statuses = re.findall(r"RunEnd::\w+ => (\d+),", source.read())
        self.assertEqual(7, len(statuses))
        ends = helps.server_ends()
        self.assertEqual(statuses + ["signal"], [end.status for end in ends])
        page = next(it for it in tables_of("ANSWERS.md") if it.headings[-1] == "Statuses of ankid")
        self.assertEqual(statuses, [row[0] for row in page.rows][:-1])
        with open(os.path.join(TOP, "man/ankid.8"), encoding="utf-8") as text:
            shown = text.read()
        for end in ends:
            self.assertIn("\n.B %s\n" % end.status, shown)

    def test_what_bin_ankid_says_is_the_same(self):
        with open(os.path.join(TOP, "deploy/ankid-statuses.txt"), encoding="utf-8") as table:
            rows = [line.rstrip("\n").split("|") for line in table if not line.startswith("#")]
        self.assertEqual(rows, [[end.status, end.what, end.safe, end.todo] for end in helps.server_ends()])

    def test_the_pages_lead_there(self):
        for page in ("desk", "lab", "outcomes"):
            self.assertIn("(../ANSWERS.md)", read_page("profile/%s.md" % page))

    def test_each_is_whole(self):
        for it in self.told["texts"]:
            self.assertTrue("group" in it and "on" in it or all(it.get(key) for key in ("text", "why", "lost", "do")), it)
        for it in self.told["statuses"]:
            self.assertTrue(all(key in it for key in ("status", "what", "safe", "do")), it)

    def test_the_most_telling_text_is_found(self):
        for printed, text in (("bad line", "bad line"), ("note 5 cards 6 7", "note <id> cards <ids>"), ("note 5 without card", "note <id> without card"), ("card 5", "card <id>"),
                              ("search fault 5 at 0", "search fault 5 at <place>"), ("no such deck 7", "no such <table> <id>"), ("no device x", "no device <name>"), ("line 3: bad line", "line <n>: <text>"),
                              ("409 no session", "<status> <word>"), ("sync A: refused 409 base", "sync <device>: <end>"), ("no request 7", "no request <n>")):
            self.assertEqual(text, answers.text_told(self.told, printed)["text"])
        self.assertIsNone(answers.text_told(self.told, "nothing of all this"))


class Made(unittest.TestCase):
    def test_fresh(self):
        for name, text in make_pages.made().items():
            with open(os.path.join(TOP, name), encoding="utf-8") as file:
                self.assertEqual(text, file.read(), "%s is stale: tools/make_pages.py makes it anew" % name)

    def test_pages_for_man(self):
        checks = [["mandoc", "-T", "lint"], ["groff", "-man", "-ww", "-z"]]
        tried = [words for words in checks if shutil.which(words[0])]
        if not tried:
            self.skipTest("neither mandoc nor groff is here")
        for words in tried:
            for page in glob.glob(os.path.join(TOP, "man", "*")):
                ran = run(words + [page])
                self.assertEqual(b"", ran.stdout + ran.stderr)

    def test_each_line_has_help_with_an_example(self):
        for entries in (helps.desk_lines(), helps.script_words(), [it for it in helps.commands() if it.forms != ["any others, or none"]]):
            for entry in entries:
                self.assertTrue(entry.forms and entry.what, entry.forms)
                self.assertTrue(entry.example, entry.forms)

    def test_verbs_are_those_of_the_crates(self):
        verbs = {it for path in glob.glob(os.path.join(TOP, "crates/ak_desk_language/src/verbs.rt")) for it in literals_of(path)}
        self.assertEqual(verbs, set(helps.verbs_of(helps.desk_lines())))


class Examples(Case):
    """The example of each line of the desk works, in a collection that has what it names."""

    def test_type_and_options(self):
        self.make()
        lines = {entry.forms[0].split(" ")[0]: entry.example[0] for entry in helps.desk_lines()}
        ran = self.desk(lines["options"], lines["type"], lines["retype"], "check", lines["spread"], lines["note"], lines["find"], lines["undo"])
        self.assertRegex(ran.stdout.decode(), r"\Aoptions \d+\ntype \d+\nok\nsound\nok\nnote \d+ cards \d+\nfound 0\nok\n\Z")

    def test_all_are_lines(self):
        for entry in helps.desk_lines():
            for example in entry.example:
                said = run([self.program, "-", "-", "lab"], input=("device A\ndo A %s\n" % example).encode()).stdout.decode()
                self.assertNotRegex(said, "bad line|json fault|search fault", example)


class Completion(Case):
    # What zsh's completion calls, so that it can be tried without a terminal.
    STAND_IN = 'compadd() { local name; while [[ $1 == -* && $1 != - ]]; do [[ $1 == -a ]] && { shift; print -l -- ${(P)1}; return; }; shift; done; print -l -- "$@"; }; _files() { print -l -- *(N); }; '

    def completed(self, *words):
        """What bash offers for the last of these words."""
        text = '. "$1"; shift; COMP_WORDS=("$@"); COMP_CWORD=$(($# - 1)); _anki; printf "%s\\n" "${COMPREPLY[@]}"'
        script = os.path.join(TOP, "completion", words[0] + ".bash")
        ran = run(["bash", "-c", text.replace("_anki;", "_%s;" % words[0]), "bash", script] + list(words), cwd=self.folder)
        self.assertEqual(b"", ran.stderr)
        return set(ran.stdout.decode().split("\n")) - {""}

    @unittest.skipUnless(shutil.which("bash"), "bash is not here")
    def test_the_name_of_a_journal_is_one_word(self):
        self.write("my.log", "")
        commands = set(completions.commands())
        for words, wanted in ((["journal", ":"], {"my.log"}), (["journal", ":", "my"], {"my.log"}), (["journal", ":", "my.log", ""], {"-"}), (["journal", ":", "my.log", "-", ""], commands),
                              (["journal", ":", "my.log", "host", ":", "80", ""], set())):
            self.assertEqual(wanted, self.completed("anki", *words), words)

    def server_completed(self):
        """Words of ankid, and what is to be offered for the last of them."""
        self.write("accounts.toml", "")
        options = {"--listen", "--accounts", "--turns"}
        return (
            (["ankid", ""], options | {"new-account", "--program"}),
            (["ankid", "--listen", ""], set()),
            (["ankid", "--listen", "localhost:27701", ""], options - {"--listen"}),
            (["ankid", "--listen", "localhost:27701", "--accounts", ""], {"accounts.toml"}),
            (["ankid", "--listen", "localhost:27701", "--accounts", "a.toml", ""], {"--turns"}),
            (["ankid", "--turns", ""], set()),
            (["ankid", "--program", ""], set()),
            (["ankid", "new-account", ""], set()),
            (["ankid", "new-account", "ada", ""], {"accounts.toml"}),
            (["ankid", "new-account", "ada", "ada.anki", ""], set()),
        )

    @unittest.skipUnless(shutil.which("bash"), "bash is not here")
    def test_bash_for_the_server(self):
        for words, wanted in self.server_completed():
            self.assertEqual(wanted, self.completed(*words), words)
        # So bash parts an address.
        self.assertEqual({"--accounts"}, self.completed("ankid", "--listen", "localhost", ":", "27701", "--a"))
        self.assertEqual(set(), self.completed("ankid", "--listen", "localhost", ":", ""))
        self.assertEqual(set(), self.completed("ankid", "--accounts", "missing"))

    @unittest.skipUnless(shutil.which("zsh"), "zsh is not here")
    def test_zsh_for_the_server(self):
        text = self.STAND_IN + 'words=("$@"); CURRENT=$#; . %s' % os.path.join(TOP, "completion", "_ankid")
        for words, wanted in self.server_completed():
            ran = run(["zsh", "-f", "-c", text, "zsh"] + words, cwd=self.folder)
            self.assertEqual((b"", wanted), (ran.stderr, set(ran.stdout.decode().split())), words)

    @unittest.skipUnless(shutil.which("bash"), "bash is not here")
    def test_bash(self):
        self.write("my.anki", "")
        self.assertEqual({"my.anki"} | set(completions.words()), self.completed("anki", ""))
        self.assertEqual({"doctor"}, self.completed("anki", "do"))
        self.assertEqual({"-"}, self.completed("anki", "my.anki", ""))
        self.assertEqual({"init", "desk", "lab", "sync", "upload", "download", "import", "export", "make"}, self.completed("anki", "my.anki", "-", ""))
        self.assertEqual({"desk", "download"}, self.completed("anki", "show", "-", "d"))
        self.assertEqual({"my.anki"}, self.completed("anki", "backup", ""))
        self.assertEqual({"decks", "types", "options", "notes"}, self.completed("anki", "show", "my.anki", ""))
        self.assertEqual({"desk"}, self.completed("anki", "help", "d"))
        self.assertEqual(set(), self.completed("anki", "--version", ""))
        for kind, entries in (("desk", helps.desk_lines()), ("lab", helps.lab_lines())):
            ran = run(["bash", "-c", '. "$1"; anki_verbs %s ""' % kind, "bash", os.path.join(TOP, "completion", "anki.bash")])
            self.assertEqual(set(helps.verbs_of(entries)), set(ran.stdout.decode().split()))

    @unittest.skipUnless(shutil.which("zsh"), "zsh is not here")
    def test_zsh(self):
        text = self.STAND_IN + 'words=("$@"); CURRENT=$#; . %s' % os.path.join(TOP, "completion", "_anki")
        self.write("my.anki", "")
        for words, wanted in ((["anki", ""], {"my.anki"} | set(completions.words())), (["anki", "my.anki", ""], {"-"}), (["anki", "my.anki", "-", ""], set(completions.commands())), (["anki", "show", "my.anki", ""], set(completions.tables())), (["anki", "help", ""], set(completions.TOPICS))):
            ran = run(["zsh", "-f", "-c", text, "zsh"] + words, cwd=self.folder)
            self.assertEqual((b"", wanted), (ran.stderr, set(ran.stdout.decode().split())), words)


class Installed(Case):
    def try_server(self, ankid):
        """What is installed for a server: its command has its table of statuses, and the program if that stood in dist/."""
        self.assertRegex(run([ankid, "new-account", "ada", "ada.anki"]).stdout.decode(), r'\A\[\[account\]\]\nname = "ada"\nkey = "[0-9a-f]{32}"\nfile = "ada.anki"\n\Z')
        ran = run([ankid, "--turns"])
        if os.path.exists(os.path.join(TOP, "dist", "ankid")):
            end = next(it for it in helps.server_ends() if it.status == "2")
            self.assertEqual((2, b"usage\n", "ankid: %s; %s; %s\n" % (end.what, end.safe, end.todo)), (ran.returncode, ran.stdout, ran.stderr.decode()))
        else:
            self.assertEqual((101, b""), (ran.returncode, ran.stdout))

    @unittest.skipUnless(shutil.which("make"), "make is not here")
    def test_into_an_empty_prefix_and_away(self):
        prefix = self.path("pre fix")
        os.mkdir(prefix)
        ran = run(["make", "-s", "-C", TOP, "install", "PREFIX=" + prefix])
        self.assertEqual((0, b""), (ran.returncode, ran.stderr))
        for name in ("bin/anki", "share/man/man1/anki.1", "share/man/man5/anki-desk.5", "share/man/man5/anki-lab.5", "share/bash-completion/completions/anki", "share/zsh/site-functions/_anki", "share/anki/tools/anki_words.py",
                     "bin/from-anki-text", "bin/to-anki-text", "share/anki/tools/anki_text.py", "bin/ankid", "share/man/man8/ankid.8", "share/bash-completion/completions/ankid", "share/zsh/site-functions/_ankid", "share/anki/deploy/ankid.service", "share/anki/deploy/servers.py"):
            self.assertTrue(os.path.isfile(os.path.join(prefix, name)), name)
        for folder, _, names in os.walk(prefix):
            for name in names:
                self.assertFalse(os.path.islink(os.path.join(folder, name)))
        words = os.path.join(prefix, "share/anki/tools/anki_words.py")
        self.assertIn(b"note <type> <deck> <fields>", run([sys.executable, words, "help", "desk"]).stdout)
        with open(os.path.join(TOP, "bin", "anki"), encoding="utf-8") as script:
            if "anki_words.py" in script.read():
                self.assertIn(b"note <type> <deck> <fields>", run([os.path.join(prefix, "bin/anki"), "help", "desk"]).stdout)
        self.try_server(os.path.join(prefix, "bin/ankid"))
        own = os.path.join(prefix, "bin", "other")
        with open(own, "w") as other:
            other.write("mine")
        # A second time, over the first.
        self.assertEqual(0, run(["make", "-s", "-C", TOP, "install", "PREFIX=" + prefix]).returncode)
        self.assertEqual(0, run(["make", "-s", "-C", TOP, "uninstall", "PREFIX=" + prefix]).returncode)
        self.assertEqual([own], [os.path.join(folder, name) for folder, _, names in os.walk(prefix) for name in names])
        self.assertEqual(["bin"], os.listdir(prefix))
        self.assertEqual(3, run([os.path.join(TOP, "tools/install"), "--remove", prefix]).returncode)
        self.assertEqual(2, run([os.path.join(TOP, "tools/install"), "relative"]).returncode)


class Tree(unittest.TestCase):
    def test_no_link_stands_in_what_is_ours(self):
        for top in ("tools", "completion", "man", "docs"):
            for folder, folders, names in os.walk(os.path.join(TOP, top)):
                for name in folders + names:
                    self.assertFalse(os.path.islink(os.path.join(folder, name)), name)


if __name__ == "__main__":
    unittest.main()
