"""The causes that docs/answers.json tells of refused lines: each text comes of a line that has its cause."""
import json
import shutil
import unittest

from tools import answers
from tools.tests.support import Case, run

OPTIONS = {
    "id": 0, "lapse": {"leechAction": 0, "leechFails": 8, "minInt": 1, "mult": "0", "steps": [600]}, "maxTaken": 60, "mod": 0, "name": "Slow",
    "new": {"bury": True, "initialFactor": 2500, "ints": [1, 4], "perDay": 5, "steps": [60, 600]},
    "rev": {"bury": True, "ease4": "1.3", "hardFactor": "1.2", "ivlFct": "1", "maxIvl": 36500, "perDay": 50}, "usn": 0,
}
TYPE = {
    "flds": [{"name": "Word"}, {"name": "Meaning"}], "id": 1, "mod": 0, "name": "Word", "sortf": 0,
    "tmpls": [{"afmt": "{{Meaning}}", "name": "Card 1", "qfmt": "{{Word}}"}], "type": 0, "usn": 0,
}
NOTE = 'note 1 1 ["a","b"]'
ID = "1700000000000"


def options(**changed):
    return "options " + json.dumps(dict(OPTIONS, **changed))


def of_type(front="{{Word}}", **changed):
    sides = [dict(TYPE["tmpls"][0], qfmt=front)]
    return "type " + json.dumps(dict(dict(TYPE, tmpls=sides), **changed))


def retype(front="{{Front}}", fields="[0,1]", **changed):
    made = dict(TYPE, flds=[{"name": "Front"}, {"name": "Back"}], tmpls=[{"afmt": "{{Back}}", "name": "Card 1", "qfmt": front}], **changed)
    return "retype [%s,%s,[0]]" % (json.dumps(made), fields)


# Lines of a desk, and the text by which the last one is refused.
REFUSED = [
    (["note 1 1"], "bad line"),
    ([" check"], "bad line"),
    (["check "], "bad line"),
    (["counts  1"], "bad line"),
    (["check\r"], "bad line"),
    (["flag 8 1"], "bad line"),
    (["answer 1 5 1"], "bad line"),
    (["note 1 1 ['a','b']"], "json fault 1"),
    (['note 1 1 ["a","b",]'], "json fault 1"),
    (["options {}"], "json fault 2"),
    ([options(maxTaken="60")], "json fault 3"),
    ([options(maxTaken=1.5)], "json fault 3"),
    ([options(maxTaken=86401)], "json fault 4"),
    ([of_type(id=0)], "json fault 4"),
    (['find "a'], "search fault 1 at 0"),
    (["find (a"], "search fault 2 at 0"),
    (["find ()"], "search fault 3 at 0"),
    (["find a or"], "search fault 4 at 2"),
    (["find is:bad"], "search fault 5 at 0"),
    (["find " + "(" * 33 + "a" + ")" * 33], "search fault 6 at 32"),
    (["counts 7"], "no such deck 7"),
    (["suspend 7"], "no such card 7"),
    (["delete 7"], "no such note 7"),
    (["deck Default"], "in use: deck 1"),
    ([NOTE, "allow untype 1"], "in use: type 1"),
    (['note 1 1 ["a"]'], "fields 1, wanted 2"),
    (["drop 1"], "default kept"),
    (["allow unoptions 1"], "default kept"),
    (['note 1 1 ["%s","b"]' % ("x" * 70000)], "row fault 1 at 6"),
    (["deck %s" % ("x" * 600)], "row fault 1 at 3"),
    (["deck a::::b"], "row fault 4 at 3"),
    (['note 1 1 ["a\\u001fb","c"]'], "row fault 4 at 6"),
    ([NOTE, 'tags %s ["a b"]' % ID], "row fault 4 at 5"),
    ([of_type("{{#Word}}x")], "template fault 1 at 0"),
    ([of_type("{{#Word}}{{/Meaning}}")], "template fault 2 at 9"),
    ([of_type("{{}}")], "template fault 3 at 0"),
    ([of_type("{{#Word}}" * 33 + "{{/Word}}" * 33)], "template fault 4 at 288"),
    ([NOTE, "allow " + retype("{{Front}}{{None}}"), "page %s front" % ID], "no field None"),
    ([NOTE, "allow " + retype("{{none:Front}}"), "page %s front" % ID], "no filter none"),
    ([NOTE, "suspend %s" % ID, "answer %s 3 1" % ID], "not answerable: queue -1"),
    ([NOTE, "bury %s" % ID, "answer %s 3 1" % ID], "not answerable: queue -3"),
    ([options(), "unoptions 1700000000000"], "schema change not allowed"),
    ([retype(fields="[1,0]")], "schema change not allowed"),
    ([retype(fields="[0,5]")], "bad map at 1"),
    ([retype(fields="[0,0]")], "bad map at 1"),
    (["undo"], "nothing to undo"),
    (["build 1"], "not filtered: 1"),
    (["empty 1"], "not filtered: 1"),
    (["empty 7"], "no such deck 7"),
    (['filter ["F","",0,2]'], "bad plan: 0"),
    (['filter ["F","",100000,2]'], "bad plan: 0"),
    (['filter ["F","",1,8]'], "bad plan: 0"),
    (['filter ["F","()",1,2]'], "search fault 3 at 0"),
    (['filter ["F","",1]'], "json fault 2"),
    (['filter ["F","","1",2]'], "json fault 3"),
    (['filter ["Default","",1,2]'], "in use: deck 1"),
    ([NOTE, 'filter ["F","",1,7]', "build %s" % ID, "suspend %s" % ID, "answer %s 3 1" % ID], "not answerable: queue -1"),
    ([NOTE, 'filter ["F","",1,7]', "undo"], "nothing to undo"),
    ([NOTE, 'filter ["F","",1,7]', "build %s" % ID, "flag 1 %s" % ID, "empty %s" % ID, "undo"], "nothing to undo"),
    ([NOTE, options(), "allow unoptions 1700000000000", "undo"], "nothing to undo"),
]


class Causes(Case):
    def done(self, lines):
        script = "device A\n" + "".join("do A %s\n" % line for line in lines)
        return run([self.program, "-", "-", "lab"], input=script.encode()).stdout.decode("utf-8", "replace").split("\n")[:-1]

    def test_each_cause(self):
        for lines, text in REFUSED:
            self.assertEqual("line %d: %s" % (len(lines) + 1, text), self.done(lines)[-1], lines[-1][:80])

    def test_each_text_of_the_desk_has_a_cause_here(self):
        told = answers.read_answers()
        known = [answers.text_told(told, text)["text"] for _, text in REFUSED]
        group, lacking = None, []
        for it in told["texts"]:
            group = it.get("group", group)
            if "text" in it and group == "Refused lines of the desk" and it["text"] not in known:
                lacking.append(it["text"])
        # These need a clock at its end, or can't come of any line.
        self.assertEqual(["stamp end", "id end", "row fault 2 at 0", "row fault 3 at 0"], lacking)

    def test_lines_of_any_input(self):
        for data, text in ((b"#\xff\n", "line 1: not text"), (b"#" * 1048577 + b"\n", "line 1: long line"), (b"sync Z\n", "line 1: no device Z"), (b"device A\ndevice A\n", "line 2: device held"),
                           (b"".join(b"device A%d\n" % it for it in range(17)), "line 17: too many devices")):
            self.assertEqual(text, run([self.program, "-", "-", "lab"], input=data).stdout.decode().split("\n")[-2])

    def test_what_is_to_be_done_about_some(self):
        self.assertEqual(["type 1700000000000"], self.done([of_type(id=1)]))
        self.assertEqual(["options 1700000000000"], self.done([options()]))
        self.assertEqual("ok", self.done([NOTE, "allow " + retype(fields="[1,0]")])[-1])
        self.assertEqual("ok", self.done([NOTE, "suspend %s" % ID, "unsuspend %s" % ID])[-1])
        self.assertEqual("found 0", self.done([NOTE, "find dekc:x"])[-1])
        self.assertRegex(self.done(['note 1 1 ["a",""]'])[-1], "note .* cards")
        # One second on two devices: the server's edit stands.
        script = ["device A", "do A " + NOTE, "sync A", "clock 1700000001000", "device B"]
        script += ["clock 1700000010000", 'do A fields %s ["c","d"]' % ID]
        tied = script + ['do B fields %s ["e","f"]' % ID, "clock 1700000020000", "sync A", "sync B", "show B notes"]
        apart = script + ["clock 1700000012000", 'do B fields %s ["e","f"]' % ID, "clock 1700000020000", "sync A", "sync B", "show B notes"]
        said = [run([self.program, "-", "-", "lab"], input="".join(line + "\n" for line in it).encode()).stdout.decode() for it in (tied, apart)]
        self.assertIn('sync B: finished\n[%s,' % ID, said[0])
        self.assertIn('"c\\u001fd"', said[0])
        self.assertIn('"e\\u001ff"', said[1])

    def test_what_mends_a_check(self):
        self.make(NOTE)
        note = self.desk("find a").stdout.decode().split()[2]
        sides = [dict(TYPE["tmpls"][0], qfmt="{{Front}}", afmt="{{Back}}", name=name) for name in ("Card 1", "Card 2")]
        two = "allow retype [%s,[0,1],[0,null]]" % json.dumps(dict(TYPE, flds=[{"name": "Front"}, {"name": "Back"}], tmpls=sides))
        for change, found, line in (
            ("delete from cards", "note %s without card", 'fields %s ["c","d"]' % note),
            ("delete from cards", "note %s without card", "delete %s" % note),
            ("update notes set mid = 77", "note %s without type", "delete %s" % note),
            ("update cards set ord = 1", "card %s without template", two),
            ("update cards set ord = 1", "card %s without template", "delete %s" % note),
        ):
            shutil.copyfile(self.file, self.path("copy"))
            self.sql(change, name="copy")
            self.assertEqual(found % note, self.desk("check", name="copy").stdout.decode().rstrip("\n"))
            self.assertEqual(b"ok\nsound\n", self.desk(line, "check", name="copy").stdout, line)


if __name__ == "__main__":
    unittest.main()
