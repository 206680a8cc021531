"""Charts as SVG, made by hand. Each has its values as titles and in a table below, for those who can't see it."""

import html

WIDTH, HEIGHT, LEFT, BELOW = 640, 180, 44, 28

# Again, Hard, Good, Easy: told apart in light and dark, and by the order in which they lie on one another.
BUTTON_CLASSES = ["again", "hard", "good", "easy"]


def bar_chart(title, rows, classes=("plain",), unit=""):
    """Bars of `rows` (label, values), the values of a row on one another. Each third label or so is written below."""
    most = max([sum(values) for _, values in rows] + [1])
    step = (WIDTH - LEFT) / max(len(rows), 1)
    parts = ['<svg class="chart" viewBox="0 0 %d %d" role="img" aria-label="%s">' % (WIDTH, HEIGHT + BELOW, html.escape(title))]
    for part in range(5):
        value = most * part / 4
        height = HEIGHT - (HEIGHT - 10) * part / 4
        parts.append('<line class="grid" x1="%d" x2="%d" y1="%.1f" y2="%.1f"/>' % (LEFT, WIDTH, height, height))
        parts.append('<text x="%d" y="%.1f" text-anchor="end">%s</text>' % (LEFT - 4, height + 4, _number(value)))
    every = max(1, len(rows) // 8)
    for place, (label, values) in enumerate(rows):
        left, top = LEFT + place * step, float(HEIGHT)
        words = "%s: %s%s" % (label, " + ".join(_number(value) for value in values), unit)
        parts.append("<g><title>%s</title>" % html.escape(words))
        for value, name in zip(values, classes):
            tall = (HEIGHT - 10) * value / most
            top -= tall
            if value:
                place_of_bar = (name, left, top, max(step * 0.85, 0.5), tall)
                parts.append('<rect class="%s" x="%.2f" y="%.2f" width="%.2f" height="%.2f"/>' % place_of_bar)
        parts.append("</g>")
        if place % every == 0:
            parts.append('<text x="%.1f" y="%d">%s</text>' % (left, HEIGHT + 16, html.escape(label)))
    parts.append("</svg>")
    return "".join(parts)


def table(heads, rows):
    """The values of a chart, as text."""
    lines = ["<tr>%s</tr>" % "".join('<th scope="col">%s</th>' % html.escape(str(head)) for head in heads)]
    lines += ["<tr>%s</tr>" % "".join("<td>%s</td>" % html.escape(str(cell)) for cell in row) for row in rows]
    return "<details><summary>The numbers</summary><table>%s</table></details>" % "".join(lines)


def _number(value):
    return "%d" % value if value == int(value) else "%.2g" % value
