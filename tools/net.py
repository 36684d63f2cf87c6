"""A net, read from its text or from its table, and the words of its cycles."""
import struct
from pathlib import Path

from tools.names import Names, plain, plain_number
from tools.notation import (CONDITION, FAMILIES, NAMINGS, Record, Wrong, form_of, line_of, lines_of, record_of,
                            words_for)


class Net:
    """A net: its records in the table's order, where each stands, and the names of the numbers."""

    def __init__(self, path, names, records, sources, rest=b""):
        self.path, self.names, self.records, self.sources = path, names, records, sources
        self.rest = rest  # bytes of a table behind its last whole record

    def table(self):
        """The bytes that the engine reads."""
        return b"".join(record.packed() for record in self.records) + self.rest

    def whole(self):
        """The net itself, if its table is whole records."""
        if self.rest:
            size = 8 * len(self.records) + len(self.rest)
            raise Wrong(self.path, f"{size} bytes", "whole records: a length that is a multiple of 8")
        return self

    def line(self, number):
        """The line for a record."""
        return line_of(self.records[number], self.names)

    def shown(self, number):
        """A record's line, with where it stands."""
        return f"{self.sources[number]}: {self.line(number)}"

    def full(self, family, number):
        """A number with its family and its name: 'transition 1 name_a'."""
        return f"{family.lower()} {number} {self.names.name(family, number)}"

    def numbers(self):
        """The numbers that the records mention, in order, each family by itself."""
        found = {family: set() for family in FAMILIES}
        for record in self.records:
            for family, number in (words_for(record) or (None, (), None))[1]:
                found[family].add(number)
        return {family: sorted(numbers) for family, numbers in found.items()}

    def text(self):
        """The net as text: the names that would not come out the same by themselves, then a line a record."""
        body = [line_of(record, self.names) for record in self.records]
        lines = [(str(number), form_of("", line.split()), line.split()) for number, line in enumerate(body)]
        again = Names()
        again.number_lines(lines)
        namings = []
        for family, numbers in again.numbers.items():
            if any(self.names.numbers[family].get(name, number) != number for name, number in numbers.items()):
                namings += [f"name {family.lower()} {number} {name}"
                            for number, name in sorted(self.names.given[family].items())
                            if name in numbers and name != plain(family, number)]
        return namings + [line + said_of(record) if line.startswith("raw") else line
                          for line, record in zip(body, self.records)]


def said_of(record):
    """A comment that spells the fields of a raw line."""
    return (f"    # kind {record.kind}, bytes {record.first} and {record.second}, sort {record.sort}, "
            f"numbers {record.low} and {record.high}")


def read_net(path, names_path=None):
    """A net from a .net text or a .bin table; a table's names are plain, or those of a file."""
    kind = known_file(path, (".net", ".bin"), "a net: a .net text or a .bin table")
    if kind == ".net":
        if names_path:
            raise Wrong(names_path, f"names for {path}", "a .bin table: a text has its own names")
        return read_text(path)
    if names_path:
        known_file(names_path, (), "a file of names")
    return read_table(path, Path(path).read_bytes(), read_text(names_path).names if names_path else Names())


def read_table(path, table, names):
    """A net from the bytes of a table."""
    whole = len(table) // 8 * 8
    records = [Record._make(fields) for fields in Record.LAYOUT.iter_unpack(table[:whole])]
    return Net(path, names, records, [f"{path} record {number}" for number in range(len(records))], table[whole:])


def read_text(path):
    """A net from a file of text."""
    return net_of(path, lines_of(path))


def net_of(path, lines):
    """A net from the lines of its text, each with where it stands."""
    lines = [(where, form_of(where, words), words) for where, words in lines]
    names = Names()
    names.number_lines(lines)
    lines = [line for line in lines if line[1] not in NAMINGS]
    return Net(path, names, [record_of(*line, names) for line in lines], [where for where, _, _ in lines])


def read_words(path, net):
    """The words of the cycles, from a .words text in the net's names or from a .bin file as it is."""
    if known_file(path, (".words", ".bin"), "words: a .words text or a .bin file") == ".bin":
        return Path(path).read_bytes()
    used = {record.second for record in net.records if record.kind == CONDITION}
    return b"".join(struct.pack("<Q", word_of(where, words, net, used)) for where, words in lines_of(path))


def word_of(where, words, net, used):
    """One cycle's word: a bit for each condition on the line, none for '-'."""
    word = 0
    for name in [] if words == ["-"] else words:
        number = net.names.numbers["CONDITION"].get(name)
        if number is None:
            number = plain_number(where, "CONDITION", name)
            if number not in used:
                all_names = ", ".join(net.names.name("CONDITION", k) for k in sorted(used))
                raise Wrong(where, f"'{name}'", f"conditions of the net ({all_names or 'it has none'}), or '-' alone")
        if number > 63:
            raise Wrong(where, f"{name}, condition {number}", "conditions 0 to 63: a word has no bit for others")
        word |= 1 << number
    return word


def known_file(path, endings, what):
    """The ending of a file that is there."""
    if not Path(path).is_file():
        raise Wrong(path, "a folder" if Path(path).is_dir() else "no such file", what)
    if endings and Path(path).suffix not in endings:
        raise Wrong(path, f"the ending '{Path(path).suffix}'", what)
    return Path(path).suffix
