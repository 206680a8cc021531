import os
import time

from front import charts, svg
from front.copy import Copy
from front.terminal import chart_lines
from front.session import Session
from front.tests.files import FileCase

# Day 0 begins here, at midnight in universal time.
BEGAN = 1_700_006_400
DAY = 86400


class Charts(FileCase):
    """Rows that sqlite wrote, counted by hand."""

    def setUp(self):
        super().setUp()
        self.make('note 1 1 ["a","A"]')
        self.write(("update col set crt = ?", (BEGAN,)), ("delete from cards", ()), ("delete from revlog", ()))
        zone = os.environ.get("TZ")
        os.environ["TZ"] = "UTC"
        time.tzset()
        self.addCleanup(self.set_zone, zone)

    def set_zone(self, zone):
        if zone is None:
            os.environ.pop("TZ", None)
        else:
            os.environ["TZ"] = zone
        time.tzset()

    def put_reviews(self, *reviews):
        """Reviews: the second of day 0, the button, the days before it, the kind."""
        self.write(*[
            ("insert into revlog values (?, 5, -1, ?, 1, ?, 2500, 1000, ?)", (1000 * (BEGAN + second) + place, ease, before, kind))
            for place, (second, ease, before, kind) in enumerate(reviews)
        ])

    def put_cards(self, *cards):
        """Cards: kind, queue, due, days."""
        self.write(*[
            ("insert into cards values (?, 7, 1, 0, 0, -1, ?, ?, ?, ?, 2500, 1, 0, 0, 0, 0, 0, '')", (place + 1, *card))
            for place, card in enumerate(cards)
        ])

    def copy(self):
        return Copy(self.path, self.program)

    def test_reviews_a_day_by_button(self):
        self.put_reviews(
            (-1, 3, 0, 0),  # the last second of the day before
            (0, 1, 0, 0),
            (DAY - 1, 3, 0, 0),
            (5, 0, 0, 1),  # by hand: no answer
            (DAY, 4, 0, 0),
            (3 * DAY + 7, 2, 0, 1),
            (3 * DAY + 8, 2, 0, 1),
            (4 * DAY, 3, 0, 1),  # tomorrow
        )
        rows = charts.reviews_by_day(self.copy(), 3, 5)
        self.assertEqual([row.day for row in rows], [-1, 0, 1, 2, 3])
        self.assertEqual([row.buttons for row in rows], [[0, 0, 1, 0], [1, 0, 1, 0], [0, 0, 0, 1], [0, 0, 0, 0], [0, 2, 0, 0]])
        self.assertEqual(sum(sum(row.buttons) for row in charts.reviews_by_day(self.copy(), 3, 365)), 6)
        self.assertEqual(sum(sum(row.buttons) for row in charts.reviews_by_day(self.copy(), 3, 3)), 3)

    def test_the_forecast(self):
        today = 10
        self.put_cards(
            (2, 2, 3, 5),  # late
            (2, 2, 10, 5),
            (2, 2, 11, 5),
            (2, 2, 39, 5),
            (2, 2, 40, 5),  # past the 30 days
            (1, 1, BEGAN + 10 * DAY + 5, 0),  # in learning, today
            (1, 3, 12, 0),  # in learning, on a later day
            (0, 0, 1, 0),  # new
            (2, -1, 11, 5),  # suspended
            (2, -3, 11, 5),  # buried
        )
        counts = charts.forecast(self.copy(), today, 30)
        self.assertEqual(counts[:3], [3, 1, 1])
        self.assertEqual((counts[29], sum(counts)), (1, 6))

    def test_intervals(self):
        self.put_cards(*[(2, 2, 10, days) for days in (1, 2, 3, 4, 7, 8, 30, 31, 480, 481, 36500)], (1, 1, 5, 3), (0, 0, 1, 0), (2, -1, 10, 2))
        spans = charts.intervals(self.copy())
        self.assertEqual([(span.low, span.high) for span in spans[:4]], [(1, 1), (2, 3), (4, 7), (8, 15)])
        self.assertEqual([span.cards for span in spans], [1, 3, 2, 1, 1, 1, 0, 0, 1, 2])

    def test_the_share_of_right_answers(self):
        self.put_reviews((0, 1, 1, 1), (1, 3, 1, 1), (2, 2, 1, 1), (3, 4, 10, 1), (4, 1, 10, 0), (5, 1, 700, 1), (6, 0, 1, 1), (7, 3, -60, 1))
        shares = {(share.low, share.high): (share.right, share.total) for share in charts.right_answers(self.copy()) if share.total}
        self.assertEqual(shares, {(1, 1): (2, 3), (8, 15): (1, 1), (481, 1_000_000): (0, 1)})

    def test_hours_are_local(self):
        self.put_reviews((0, 3, 0, 0), (3599, 3, 0, 0), (3600, 3, 0, 0), (23 * 3600, 3, 0, 0), (24 * 3600 + 1800, 1, 0, 0), (50, 0, 0, 0))
        hours = charts.hours(self.copy())
        self.assertEqual((hours[0], hours[1], hours[23], sum(hours)), (3, 1, 1, 5))
        os.environ["TZ"] = "TEST-5:30"
        time.tzset()
        hours = charts.hours(self.copy())
        # 0:00, 0:59:59 and 1:00 are 5:30, 6:29:59 and 6:30; 23:00 is 4:30; 0:30 is 6:00.
        self.assertEqual((hours[5], hours[6], hours[4], sum(hours)), (1, 3, 1, 5))

    def test_as_pictures_and_as_text(self):
        drawn = svg.bar_chart("T", [("<a>", [1, 2]), ("b", [0, 4])], ("again", "good"))
        self.assertEqual(drawn.count("<rect"), 3)
        self.assertIn("<title>&lt;a&gt;: 1 + 2</title>", drawn)
        self.assertEqual(charts.bars([("a", 2, "two"), ("bc", 1, "one")], 4), [" a ████ two", "bc ██   one"])
        self.put_reviews((0, 3, 1, 1))
        session = Session(self.program, self.path)
        self.addCleanup(session.rest, "")
        lines = chart_lines(session)
        self.assertIn("Right answers by interval", lines)
        self.assertTrue(any(line.endswith("1 of 1") for line in lines))
        self.assertIn("Days are the collection's: the next begins at 00:00.", lines)
