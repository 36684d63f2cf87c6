"""The notation: how a record of a table is written as a line of text, and how numbers get their names.

A line is one of FORMS. Words in capitals stand for a name of that family, or for a number. Whether a net is well
defined is for the engine to say: every record can be written, a record that no form fits as a raw line.
"""
import re
import struct
from collections import namedtuple
from pathlib import Path

# The families of names, each with the letter of its plain names: p3 is place 3.
FAMILIES = {"PLACE": "p", "TRANSITION": "t", "CONDITION": "c", "ACTION": "a", "FUNCTION": "f"}
PLACE, TRANSITION, ARC, CONDITION, PRIORITY, ACTION, FUNCTION = range(1, 8)  # kinds of records
BASIC, TEST, INHIBITOR, POST = range(4)  # sorts of arcs
NAME, BYTE = re.compile(r"[A-Za-z][A-Za-z0-9_]*"), re.compile("[0-9a-fA-F]{2}")
NO_NAMES = ("timed", "or", "more", "weight", "not")
LAST_NUMBER = 255  # what the byte of a record holds


class Wrong(Exception):
    """What cannot be tried: where, what was found there, and what was expected."""

    def __init__(self, where, found, expected):
        super().__init__(f"{where}: found {found}, expected {expected}")


class Record(namedtuple("Record", "kind first second sort low high")):
    """The fields of a record's eight bytes."""

    LAYOUT = struct.Struct("<BBBBHH")

    def packed(self):
        return self.LAYOUT.pack(*self)


class Form:
    """A way to write a line, with the kind and the sort of the record that it becomes."""

    def __init__(self, shape, kind, sort):
        self.shape, self.kind, self.sort = shape, kind, sort
        self.parts = shape.split()
        self.families = [part for part in self.parts if part in FAMILIES]
        self.amounts = self.parts.count("NUMBER")
        # An arc's record has the place first, whichever way the arrow points.
        self.turned = (kind, sort) == (ARC, POST)

    def record(self, named, amounts):
        """The record for the numbers of the names, in the order of the line, and the amounts on it."""
        first, second = ((named[::-1] if self.turned else named) + [0])[:2]
        low, high = ((amounts or [int(self.kind == ARC)]) + [0])[:2]  # an arc with no weight on its line weighs 1
        return Record(self.kind, first, second, self.sort, low, high)

    def values(self, record):
        """What the line would say of the record: its named numbers and its amounts."""
        named = [record.first, record.second][:len(self.families)]
        return named[::-1] if self.turned else named, [record.low, record.high][:self.amounts]


FORMS = tuple(Form(*form) for form in (
    ("place PLACE", PLACE, 0),
    ("place PLACE NUMBER", PLACE, 0),
    ("transition TRANSITION", TRANSITION, 0),
    ("transition TRANSITION timed NUMBER NUMBER", TRANSITION, 1),
    ("transition TRANSITION timed NUMBER or more", TRANSITION, 2),
    ("basic PLACE -> TRANSITION", ARC, BASIC),
    ("basic PLACE -> TRANSITION weight NUMBER", ARC, BASIC),
    ("test PLACE -> TRANSITION", ARC, TEST),
    ("test PLACE -> TRANSITION weight NUMBER", ARC, TEST),
    ("inhibitor PLACE -> TRANSITION", ARC, INHIBITOR),
    ("inhibitor PLACE -> TRANSITION weight NUMBER", ARC, INHIBITOR),
    ("post TRANSITION -> PLACE", ARC, POST),
    ("post TRANSITION -> PLACE weight NUMBER", ARC, POST),
    ("wants TRANSITION CONDITION", CONDITION, 0),
    ("wants TRANSITION not CONDITION", CONDITION, 1),
    ("above TRANSITION TRANSITION", PRIORITY, 0),
    ("action PLACE ACTION", ACTION, 0),
    ("function TRANSITION FUNCTION", FUNCTION, 0),
))
# A line that makes no record: it gives a number its name.
NAMINGS = tuple(Form(f"name {family.lower()} NUMBER {family}", 0, 0) for family in FAMILIES)
RAW = Form("raw BYTE BYTE BYTE BYTE BYTE BYTE BYTE BYTE", 0, 0)
BY_FIRST_WORD, BY_KIND = {}, {}
for each in FORMS + NAMINGS + (RAW,):
    BY_FIRST_WORD.setdefault(each.parts[0], []).append(each)
for each in FORMS:
    BY_KIND.setdefault((each.kind, each.sort), []).append(each)


def lines_of(path):
    """The lines of a file that say something."""
    return lines_in(path, Path(path).read_text(encoding="utf-8", errors="replace"))


def lines_in(path, text):
    """The lines that say something, as their words without comments, each with where it stands."""
    for number, line in enumerate(text.split("\n"), 1):
        words = line.split("#")[0].split()
        if words:
            yield f"{path}:{number}", words


def form_of(where, words):
    """The form in which a line is written."""
    forms = BY_FIRST_WORD.get(words[0])
    if not forms:
        raise Wrong(where, f"'{words[0]}'", f"a line that begins with one of: {', '.join(BY_FIRST_WORD)}")
    for form in forms:
        if len(form.parts) == len(words) and all(map(fits, form.parts, words)):
            return form
    said = " ".join(words)
    for name in words[1:]:
        if name in NO_NAMES and not any(name in form.parts for form in forms):
            raise Wrong(where, f"'{said}'", f"a name in place of '{name}', which is a word of the notation")
    raise Wrong(where, f"'{said}'", f"one of these forms: {', '.join(form.shape for form in forms)}")


def fits(part, word):
    """Whether a word of a line can stand for this part of a form."""
    if part in FAMILIES:
        return NAME.fullmatch(word) is not None and word not in NO_NAMES
    if part == "NUMBER":
        return word.isascii() and word.isdecimal()
    return BYTE.fullmatch(word) is not None if part == "BYTE" else part == word


def record_of(where, form, words, names):
    """The record of a line."""
    if form is RAW:
        return Record._make(Record.LAYOUT.unpack(bytes.fromhex("".join(words[1:]))))
    named = [names.numbers[part][word] for part, word in zip(form.parts, words) if part in FAMILIES]
    amounts = [amount(where, word, 65535) for part, word in zip(form.parts, words) if part == "NUMBER"]
    return form.record(named, amounts)


def amount(where, word, most):
    """A number of a line."""
    if int(word) > most:
        raise Wrong(where, word, f"a number from 0 to {most}")
    return int(word)


def words_for(record):
    """The form for a record and what fills it, None where the notation has no words for it."""
    for form in BY_KIND.get((record.kind, record.sort), ()):
        named, amounts = form.values(record)
        if form.record(named, amounts) == record:
            return form, list(zip(form.families, named)), amounts
    return None


def line_of(record, names):
    """The line for a record."""
    found = words_for(record)
    if not found:
        return "raw " + " ".join(f"{byte:02x}" for byte in record.packed())
    form, named, amounts = found
    named, amounts = iter(named), iter(amounts)
    return " ".join(names.name(*next(named)) if part in FAMILIES else str(next(amounts)) if part == "NUMBER" else part
                    for part in form.parts)
