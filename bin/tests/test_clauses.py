"""That no clause of a contract is too long, and that docs/long-clauses.txt has the long ones, each with its reason.

    python3 -m unittest discover -s bin/tests
"""
import os
import re
import sys
import tempfile
import unittest

TOP = os.path.dirname(os.path.dirname(os.path.dirname(os.path.realpath(__file__))))
sys.dont_write_bytecode = True
sys.path.insert(0, os.path.dirname(os.path.dirname(os.path.realpath(__file__))))
from contract_names import lengths  # noqa: E402

LONG, MOST = 300, 600


def listed():
    """The long clauses of the list, each with its reason."""
    found, reason = {}, ""
    with open(f"{TOP}/docs/long-clauses.txt", encoding="utf-8") as file:
        for line in file.read().split("\n"):
            head = re.fullmatch(r"\[(.*)\]", line)
            if head:
                reason = head[1]
            elif line and not line.startswith("#"):
                function, _, clauses = line.partition(": ")
                found.update({(function, "" if name == "_" else name): reason for name in clauses.split(", ")})
    return found


class Clauses(unittest.TestCase):
    def test_none_is_over_600_characters(self):
        self.assertEqual([key for key, length in lengths().items() if length > MOST], [])

    def test_the_long_ones_are_listed_with_their_reason(self):
        self.assertEqual(sorted(listed()), sorted(key for key, length in lengths().items() if length > LONG))
        self.assertEqual([key for key, reason in listed().items() if not reason], [])

    def test_a_clause_is_measured_to_its_own_brace(self):
        with tempfile.TemporaryDirectory() as top:
            os.makedirs(f"{top}/crates/ak_one/src")
            with open(f"{top}/crates/ak_one/src/lib.rt", "w", encoding="utf-8") as file:
                file.write('pub fn opens(text: &str)\n    ensures a { has (codes "{{c") text.now\n        ≡ true }\n    requires { true }\n{}\n')
            self.assertEqual(lengths(top), {("ak_one::opens", "a"): len('ensures a { has (codes "{{c") text.now ≡ true }'), ("ak_one::opens", ""): len("requires { true }")})


if __name__ == "__main__":
    unittest.main()
