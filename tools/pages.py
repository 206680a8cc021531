"""Reading the tables of docs/, which are the one list of lines, texts, statuses and ranges: nothing here repeats them."""
import os
import re

TOP = os.path.dirname(os.path.dirname(os.path.realpath(__file__)))


def path_of(page):
    return os.path.join(TOP, "docs", page)


def read_page(page):
    with open(path_of(page), encoding="utf-8") as text:
        return text.read()


class Table:
    """A table of a page: the headings above it, from the page's title down, its head, and its rows as lists of cells."""

    def __init__(self, headings, head):
        self.headings, self.head, self.rows = headings, head, []

    def __repr__(self):
        return "Table(%r, %r, %d rows)" % (self.headings, self.head, len(self.rows))


def tables_of(page):
    """All tables of a page of docs/, in order."""
    return tables_in(read_page(page))


def tables_in(text):
    headings, tables, is_open = [], [], False
    for line in text.split("\n"):
        heading = re.match(r"(#+) (.*)", line)
        if heading:
            headings = headings[: len(heading.group(1)) - 1] + [heading.group(2)]
        if not line.startswith("|"):
            is_open = False
        elif not is_open:
            tables.append(Table(list(headings), cells_of(line)))
            is_open = True
        elif not re.fullmatch(r"[|\s:-]+", line):
            tables[-1].rows.append(cells_of(line))
    return tables


def cells_of(line):
    """The cells of a line of a table. A `|` inside backquotes or after a backslash parts none."""
    cells, cell, is_code, is_escaped = [], "", False, False
    for char in line.strip()[1:]:
        if char == "|" and not is_code and not is_escaped:
            cells.append(cell.strip())
            cell = ""
            continue
        if char == "`":
            is_code = not is_code
        is_escaped = char == "\\" and not is_escaped
        cell += char
    if cell.strip():
        cells.append(cell.strip())
    return cells


def table_under(page, heading, first_column=None):
    """The first table under this heading whose head begins with this cell."""
    for table in tables_of(page):
        if table.headings[-1:] == [heading] and (first_column is None or table.head[:1] == [first_column]):
            return table
    raise LookupError("docs/%s has no table under %r that begins with %r" % (page, heading, first_column))


def lines_under(page, heading):
    """The lines of a page between this heading and the next one."""
    lines = read_page(page).split("\n")
    first = next((place for place, line in enumerate(lines) if re.fullmatch("#+ " + re.escape(heading), line)), None)
    if first is None:
        raise LookupError("docs/%s has no heading %r" % (page, heading))
    rest = lines[first + 1:]
    return rest[: next((place for place, line in enumerate(rest) if re.match("#+ ", line)), len(rest))]


def blocks_under(page, heading):
    """The blocks of lines that stand four spaces in under this heading."""
    blocks, is_open = [], False
    for line in lines_under(page, heading):
        if line.startswith("    "):
            if not is_open:
                blocks.append([])
            blocks[-1].append(line[4:])
        is_open = line.startswith("    ")
    return blocks


def items_under(page, heading):
    """The items of the lists under this heading, each as one line."""
    items, is_open = [], False
    for line in lines_under(page, heading):
        if line.startswith("- "):
            items.append(line[2:])
        elif is_open and line.startswith("  "):
            items[-1] += " " + line.strip()
        is_open = line.startswith("- ") or is_open and line.startswith("  ")
    return items


def codes_in(cell):
    """What stands in backquotes in a cell."""
    return re.findall(r"`([^`]+)`", cell)


def plain(cell):
    """A cell as text for a terminal: links as their words, without backquotes and stars."""
    cell = re.sub(r"\[([^\]]*)\]\([^)]*\)", r"\1", cell)
    return re.sub(r"[`*]", "", cell).replace("\\|", "|")


def number_of(text):
    return int(text.replace(",", ""))
