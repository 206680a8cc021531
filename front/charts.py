"""What the charts show, counted from the rows of a copy. The days are the collection's: blocks of 86,400 seconds from `crt` on,
without time zones. Hours are local."""

import collections

DAY = 86400

# A day with the numbers of answers by button, Again to Easy.
DayOfReviews = collections.namedtuple("DayOfReviews", "day buttons")
# A span of days with how many answers there were, and how many of them were right.
Share = collections.namedtuple("Share", "low high right total")
Span = collections.namedtuple("Span", "low high cards")

# The spans of intervals: from the first number of days to before the next one.
SPANS = [1, 2, 4, 8, 16, 31, 61, 121, 241, 481, 1_000_001]


def day_of(crt, seconds):
    return (seconds - crt) // DAY


def reviews_by_day(copy, today, days):
    """The answers of each of the last so many days, the last one today."""
    first = today - days + 1
    start = (copy.head.crt + first * DAY) * 1000
    end = (copy.head.crt + (today + 1) * DAY) * 1000
    counts = {}
    rows = copy.base.execute(
        # From the first day on, since a division of whole numbers rounds days before `crt` up.
        "select (id - ?) / 86400000, ease, count(*) from revlog where id >= ? and id < ? and ease between 1 and 4 group by 1, 2",
        (start, start, end),
    )
    for place, ease, count in rows:
        counts.setdefault(first + place, [0, 0, 0, 0])[ease - 1] += count
    return [DayOfReviews(day, counts.get(day, [0, 0, 0, 0])) for day in range(first, today + 1)]


def forecast(copy, today, days):
    """How many cards are due on each of the next so many days, today first; what was due before counts today. Cards that are new,
    suspended or buried are in none."""
    counts = [0] * days
    rows = copy.base.execute("select queue, due from cards where queue between 1 and 3")
    for queue, due in rows:
        day = day_of(copy.head.crt, due) if queue == 1 else due
        place = max(0, day - today)
        if place < days:
            counts[place] += 1
    return counts


def intervals(copy):
    """How many cards that are learned have an interval of each span of days."""
    rows = copy.base.execute("select ivl from cards where type = 2 and ivl > 0")
    counts = collections.Counter(_span_of(row[0]) for row in rows)
    return [Span(low, high - 1, counts[place]) for place, (low, high) in enumerate(zip(SPANS, SPANS[1:]))]


def right_answers(copy):
    """The share of right answers (all but Again) of reviews, by the interval that the card had. Reviews by hand and in learning
    are left out."""
    right, total = collections.Counter(), collections.Counter()
    for before, ease, count in copy.base.execute(
        "select lastIvl, ease, count(*) from revlog where type = 1 and ease between 1 and 4 and lastIvl > 0 group by 1, 2"
    ):
        total[_span_of(before)] += count
        if ease > 1:
            right[_span_of(before)] += count
    return [Share(low, high - 1, right[place], total[place]) for place, (low, high) in enumerate(zip(SPANS, SPANS[1:]))]


def hours(copy):
    """How many answers were given in each hour of the day, 0 to 23, in local time."""
    counts = [0] * 24
    hour = "cast(strftime('%H', id / 1000, 'unixepoch', 'localtime') as integer)"
    for place, count in copy.base.execute("select %s, count(*) from revlog where ease between 1 and 4 group by 1" % hour):
        counts[place] += count
    return counts


def _span_of(days):
    place = 0
    while place + 2 < len(SPANS) and days >= SPANS[place + 1]:
        place += 1
    return place


def bars(rows, width=40):
    """Lines of text: a label, a bar and a number for each of `rows` (label, value, words)."""
    most = max([value for _, value, _ in rows] + [1])
    label_width = max([len(label) for label, _, _ in rows] + [0])
    return [
        "%s %s %s" % (label.rjust(label_width), ("█" * round(value * width / most)).ljust(width), words)
        for label, value, words in rows
    ]
