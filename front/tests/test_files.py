import contextlib
import io
import unittest
from unittest import mock

from front.tests import files


class Days(unittest.TestCase):
    def waits_at(self, second):
        """The seconds that a test which begins at this second of the clock sleeps before."""
        with mock.patch.object(files, "time") as clock, contextlib.redirect_stderr(io.StringIO()):
            clock.time.return_value = second
            files.wait_for_steps_of_one_day()
        return [call.args[0] for call in clock.sleep.call_args_list]

    def test_the_steps_of_a_test_end_in_the_day_in_which_it_begins(self):
        self.assertEqual(self.waits_at(20_000 * 86400), [])
        self.assertEqual(self.waits_at(20_001 * 86400 - 1200), [])
        self.assertEqual(self.waits_at(20_001 * 86400 - 1199), [1200])
        self.assertEqual(self.waits_at(20_001 * 86400 - 1), [2])
