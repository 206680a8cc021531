"""How a front finds the program, and what it lets it run with."""
import os
import unittest
import unittest.mock

from front import program as programs


class Found(unittest.TestCase):
    def tunables_after(self, **given):
        """What the variable is after a program was found, for these variables before."""
        with unittest.mock.patch.dict(os.environ):
            os.environ.pop("GLIBC_TUNABLES", None)
            os.environ.update(given, ANKI_PROGRAM="/bin/sh")
            self.assertEqual(programs.find_program(), "/bin/sh")
            return os.environ["GLIBC_TUNABLES"]

    def test_memory_comes_in_pages_of_2_mb_unless_told_otherwise(self):
        self.assertEqual(self.tunables_after(), "glibc.malloc.hugetlb=1")
        self.assertEqual(self.tunables_after(GLIBC_TUNABLES="glibc.malloc.arena_max=1"), "glibc.malloc.arena_max=1")


if __name__ == "__main__":
    unittest.main()
