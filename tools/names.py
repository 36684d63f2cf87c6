"""The names of a net's numbers, each family by itself.

A plain name is the family's letter and the number itself: p3 is place 3, t0 transition 0. A line such as
'name place 3 card_a' gives a number its name. Every other name gets the lowest number that is left, in the order in
which the names appear.
"""
import re

from tools.notation import FAMILIES, LAST_NUMBER, NAMINGS, Wrong, amount

PLAIN = {family: re.compile(letter + "(0|[1-9][0-9]*)") for family, letter in FAMILIES.items()}


def plain(family, number):
    """The plain name of a number."""
    return f"{FAMILIES[family]}{number}"


def plain_number(where, family, name):
    """The number that a plain name says, None for any other name."""
    found = PLAIN[family].fullmatch(name)
    if not found:
        return None
    if int(found[1]) > LAST_NUMBER:
        raise Wrong(where, f"{family.lower()} {name}", f"a plain name up to {LAST_NUMBER}, as {plain(family, 0)}, "
                    "or a name that is no letter and number")
    return int(found[1])


class Names:
    """Which number a name has, and which name a number goes by."""

    def __init__(self):
        self.numbers = {family: {} for family in FAMILIES}
        self.given = {family: {} for family in FAMILIES}

    def name(self, family, number):
        """What a number goes by."""
        return self.given[family].get(number) or plain(family, number)

    def give(self, where, family, number, name):
        """Gives a number its name."""
        found = f"{name} for {family.lower()} {number}"
        said = plain_number(where, family, name)
        if said not in (None, number):
            raise Wrong(where, found, f"another name: {name} is {family.lower()} {said}")
        other = self.given[family].get(number)
        if other not in (None, name):
            raise Wrong(where, found, f"one name; it is {other} already")
        if self.numbers[family].setdefault(name, number) != number:
            raise Wrong(where, found, f"another name: {name} is {family.lower()} {self.numbers[family][name]} already")
        self.given[family][number] = name

    def number_lines(self, lines):
        """Numbers all names of these lines, each line as where it stands, its form and its words."""
        for where, form, words in lines:
            if form in NAMINGS:
                self.give(where, form.families[0], amount(where, words[2], LAST_NUMBER), words[3])
        used = [(where, part, word) for where, form, words in lines if form not in NAMINGS
                for part, word in zip(form.parts, words) if part in FAMILIES]
        for where, family, name in used:
            number = plain_number(where, family, name)
            if number is not None:
                self.numbers[family][name] = number
        taken = {family: set(numbers.values()) for family, numbers in self.numbers.items()}
        lowest = dict.fromkeys(FAMILIES, 0)
        for where, family, name in used:
            if name not in self.numbers[family]:
                while lowest[family] in taken[family]:
                    lowest[family] += 1
                if lowest[family] > LAST_NUMBER:
                    found = f"one {family.lower()} too many, {name}"
                    raise Wrong(where, found, f"at most {LAST_NUMBER + 1} of a family")
                taken[family].add(lowest[family])
                self.numbers[family][name] = lowest[family]
                self.given[family][lowest[family]] = name
