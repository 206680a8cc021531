"""The JSON objects in the columns of `col`, read as docs/profile/formats.md tells it: what is no object of its form, and which column is out of its range.

A form names for each key the column of docs/profile/collection.md that it is.
"""
import json
import re

# How deep a text of JSON nests, and the value of an unknown key, in an object and in `new`, `rev` and `lapse` of an option group.
DEEPEST_TEXT, DEEPEST_VALUE, DEEPEST_INNER = 127, 63, 62

LARGEST = (1 << 63) - 1

# A decimal: up to six digits, without a leading zero, and up to three behind a point.
DECIMAL_TEXT = re.compile(r"(0|[1-9][0-9]{0,5})(\.[0-9]{1,3})?")

INTEGER, TEXT, BOOL, BIT, STEPS, MINUTES, DECIMAL, PAIR, OBJECT, LIST, IGNORED = range(11)

KIND_WORDS = {
    INTEGER: "a whole number", TEXT: "a text", BOOL: "true or false", BIT: "0 or 1", STEPS: "a list of whole numbers", MINUTES: "a list of whole numbers",
    DECIMAL: "a text of a decimal, such as 1.3",
    PAIR: "a list of two whole numbers", OBJECT: "an object", LIST: "a list", IGNORED: "without numbers that are not whole",
}

FIELD = [("name", TEXT, "name"), ("ord", IGNORED, None)]
TEMPLATE = [("name", TEXT, "name"), ("qfmt", TEXT, "front"), ("afmt", TEXT, "back"), ("ord", IGNORED, None)]
NOTE_TYPE = [
    ("id", INTEGER, "id"), ("mod", INTEGER, "stamp"), ("usn", INTEGER, "usn"), ("name", TEXT, "name"), ("type", BIT, "cloze"),
    ("sortf", INTEGER, "sortf"), ("flds", LIST, "fields"), ("tmpls", LIST, "templates"),
]
DECK = [
    ("id", INTEGER, "id"), ("mod", INTEGER, "stamp"), ("usn", INTEGER, "usn"), ("name", TEXT, "name"), ("conf", INTEGER, "options"),
    ("dyn", BIT, "filtered"), ("newToday", PAIR, "new_today"), ("revToday", PAIR, "rev_today"),
]
NEW = [
    ("steps", STEPS, "new_steps"), ("ints", PAIR, ("grad_ivl", "easy_ivl")), ("initialFactor", INTEGER, "initial_factor"),
    ("perDay", INTEGER, "new_per_day"), ("bury", BOOL, "new_bury"),
]
REV = [
    ("perDay", INTEGER, "rev_per_day"), ("ease4", DECIMAL, "ease4"), ("ivlFct", DECIMAL, "ivl_fct"), ("maxIvl", INTEGER, "max_ivl"),
    ("hardFactor", DECIMAL, "hard_factor"), ("bury", BOOL, "rev_bury"),
]
LAPSE = [
    ("steps", STEPS, "lapse_steps"), ("mult", DECIMAL, "mult"), ("minInt", INTEGER, "min_int"), ("leechFails", INTEGER, "leech_fails"),
    ("leechAction", INTEGER, "leech_action"),
]
OPTIONS = [
    ("id", INTEGER, "id"), ("mod", INTEGER, "stamp"), ("usn", INTEGER, "usn"), ("name", TEXT, "name"), ("maxTaken", INTEGER, "max_taken"),
    ("new", OBJECT, NEW), ("rev", OBJECT, REV), ("lapse", OBJECT, LAPSE),
]
# An option group of version 1: the key of version 1 for each that has another name now, and those names are ignored.
OLD_KEYS = {
    "new": {"steps": ("delays", MINUTES)}, "rev": {key: (key + "Pm", INTEGER) for key in ("ease4", "ivlFct", "hardFactor")},
    "lapse": {"steps": ("delays", MINUTES), "mult": ("multPm", INTEGER)},
}


def old_form(key, form):
    """The form of version 1 for an object in an option group."""
    old = OLD_KEYS[key]
    return [old.get(inner, (inner, kind)) + (name,) for inner, kind, name in form] + [(inner, IGNORED, None) for inner in old]


OLD_OPTIONS = [(key, kind, old_form(key, form) if kind == OBJECT else form) for key, kind, form in OPTIONS]
CONF = [
    ("newSpread", INTEGER, "new_spread"), ("collapseTime", INTEGER, "collapse"), ("dayLearnFirst", BOOL, "day_learn_first"),
    ("nextPos", INTEGER, "next_pos"), ("lastUnburied", INTEGER, "last_unburied"),
]


class NotRead(Exception):
    """Why a text or a value is not of its form."""


def read_json(text):
    """The value of a text of JSON, as the program reads it."""
    def refuse(constant):
        raise NotRead("it is no JSON: %s" % constant)

    try:
        value = json.loads(text, parse_constant=refuse, parse_float=float_of, parse_int=integer_of)
        json.dumps(value, ensure_ascii=False).encode("utf-8")
    except UnicodeEncodeError:
        raise NotRead("it is no JSON: half of a pair of surrogates") from None
    except RecursionError:
        raise NotRead("it nests over %d deep" % DEEPEST_TEXT) from None
    except ValueError as fault:
        raise NotRead("it is no JSON: %s" % fault) from None
    if depth_of(value) > DEEPEST_TEXT:
        raise NotRead("it nests over %d deep" % DEEPEST_TEXT)
    return value


def integer_of(text):
    """A whole number. `-0` is none: it is read as a number with a fraction."""
    return -0.0 if text == "-0" else int(text)


def float_of(text):
    value = float(text)
    if value in (float("inf"), float("-inf")):
        raise ValueError("the number %s is too large" % text)
    return value


def depth_of(value):
    deepest, open_values = 0, [(value, 1)]
    while open_values:
        value, depth = open_values.pop()
        if isinstance(value, (list, dict)):
            deepest = max(deepest, depth)
            open_values += [(it, depth + 1) for it in (value.values() if isinstance(value, dict) else value)]
    return deepest


def is_integer(value):
    return isinstance(value, int) and not isinstance(value, bool) and -LARGEST - 1 <= value <= LARGEST


def is_shallow(value, most):
    """Whether a value nests at most so deep, and all its numbers are whole."""
    if isinstance(value, (list, dict)):
        return most > 0 and all(is_shallow(it, most - 1) for it in (value.values() if isinstance(value, dict) else value))
    if isinstance(value, float):
        return False
    return isinstance(value, (bool, str)) or value is None or -LARGEST - 1 <= value <= 2 * LARGEST + 1


def is_old(value):
    """Whether an option group is of version 1."""
    return isinstance(value, dict) and isinstance(value.get("new"), dict) and "delays" in value["new"]


def is_of(kind, value):
    if kind == INTEGER:
        return is_integer(value)
    if kind == BIT:
        return is_integer(value) and value in (0, 1)
    if kind == DECIMAL:
        return isinstance(value, str) and DECIMAL_TEXT.fullmatch(value) is not None
    if kind in (STEPS, MINUTES):
        return isinstance(value, list) and all(map(is_integer, value))
    if kind == PAIR:
        return isinstance(value, list) and len(value) == 2 and all(map(is_integer, value))
    if kind == IGNORED:
        return is_shallow(value, 1 << 20)
    return isinstance(value, {TEXT: str, BOOL: bool, OBJECT: dict, LIST: list}[kind])


def column_of(kind, value):
    """What a column holds of a value of its kind: steps are in seconds, decimals in permille."""
    if kind == MINUTES:
        return [60 * it for it in value]
    if kind == DECIMAL:
        whole, _, fraction = value.partition(".")
        return 1000 * int(whole) + int(fraction.ljust(3, "0"))
    return value


def columns_of(form, value, deepest=DEEPEST_VALUE):
    """The columns of an object by their names, with the text of its unknown keys as `rest`. It is refused if it is not of the form."""
    if not isinstance(value, dict):
        raise NotRead("it is no object")
    columns, known = {}, {key for key, _, _ in form}
    unknown = {key: it for key, it in value.items() if key not in known}
    for key, kind, name in form:
        if kind == IGNORED and key not in value:
            continue
        if key not in value:
            raise NotRead("its key %s is missing" % key)
        if not is_of(kind, value[key]):
            raise NotRead("its key %s is not %s" % (key, KIND_WORDS[kind]))
        if kind == OBJECT:
            try:
                columns.update(columns_of(name, value[key], DEEPEST_INNER))
            except NotRead as fault:
                raise NotRead("in its key %s, %s" % (key, fault)) from None
            if columns["rest"] != "{}":
                unknown[key] = json.loads(columns["rest"])
        elif isinstance(name, tuple):
            columns.update(zip(name, value[key]))
        elif name is not None:
            columns[name] = column_of(kind, value[key])
    for key in sorted(set(unknown) - known):
        if not is_shallow(unknown[key], deepest):
            raise NotRead("its unknown key %s nests over %d deep, or has a number that is not whole" % (key, deepest))
    columns["rest"] = json.dumps(unknown, ensure_ascii=False, separators=(",", ":"), sort_keys=True)
    return columns


def first_fault(ranges, columns):
    """The first column of these that is out of its range, as `column: how`, or None."""
    for name, column in ranges.items():
        if name in columns:
            fault = column.fault(columns[name])
            if fault:
                return "%s %s" % (name, fault)
    return None


def object_fault(ranges, form, value):
    """Why an object can't be read as a row of this form, or None."""
    try:
        return first_fault(ranges, columns_of(form, value))
    except NotRead as fault:
        return str(fault)


def note_type_fault(ranges, value):
    """Why an object can't be read as a note type, or None."""
    try:
        columns = columns_of(NOTE_TYPE, value)
        fields = parts_of("field", FIELD, columns["fields"])
        templates = parts_of("template", TEMPLATE, columns["templates"])
    except NotRead as fault:
        return str(fault)
    most = max(len(fields) - 1, 0)
    if not 0 <= columns["sortf"] <= most:
        return "sortf is %d, and may be 0 to %d" % (columns["sortf"], most)
    return (
        first_fault({it: ranges.note_type[it] for it in ("id", "stamp", "usn", "name")}, columns)
        or parts_fault("field", ranges.fields, ranges.field, fields)
        or parts_fault("template", ranges.templates, ranges.template, templates)
        or first_fault({"rest": ranges.note_type["rest"]}, columns)
    )


def parts_of(word, form, values):
    parts = []
    for place, value in enumerate(values, 1):
        try:
            parts.append(columns_of(form, value))
        except NotRead as fault:
            raise NotRead("of its %s %d, %s" % (word, place, fault)) from None
    return parts


def parts_fault(word, count, ranges, parts):
    if count.fault(len(parts)):
        return "its count of %ss %s" % (word, count.fault(len(parts)))
    for place, part in enumerate(parts, 1):
        fault = first_fault(ranges, part)
        if fault:
            return "its %s %d: %s" % (word, place, fault)
    return None
