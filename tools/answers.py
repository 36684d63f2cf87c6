"""What an answer of the engine points at, in the names of the net, with the lines to look at."""
import os
import sys

from tools.notation import ARC, BASIC, PLACE, POST, PRIORITY, TRANSITION, words_for

WORDS = ("accepted", "length", "kind", "field", "twice", "unknown", "empty", "isolated", "circle", "conflict", "state",
         "words", "room", "full", "report", "count")
# What answer 3 asks of a record, for each kind.
FIELDS = {1: "place 0 to 127; bytes 2, 6 and 7 are 0",
          2: "transition 0 to 63; untimed with no interval, or 1 <= a <= b <= 65534, or a from 1 to 65535 and no b; "
             "byte 2 is 0",
          3: "place 0 to 127, transition 0 to 63, weight 1 to 65535; bytes 6 and 7 are 0",
          4: "transition and condition 0 to 63; bytes 4 to 7 are 0",
          5: "transitions 0 to 63; bytes 4 to 7 are 0",
          6: "place 0 to 127, action 0 to 63; bytes 4 to 7 are 0",
          7: "transition and function 0 to 63; bytes 4 to 7 are 0"}
OTHER_IMAGE = "is it the image of another net? where there is no file, mk run --image begins with the fresh net"


def tell(net, answer, words=None, out=None, report=("", b"")):
    """Prints an answer: its word first, then what it points at."""
    out = out or sys.stdout
    head, *lines = told(net, answer, words, report)
    if out.isatty() and "NO_COLOR" not in os.environ:
        head = f"\033[{31 if answer.number else 32}m{head}\033[0m"
    print("\n".join([head] + lines), file=out)


def told(net, answer, words=None, report=("", b"")):
    """The lines that tell an answer; words are given where they were run, and a report, as its path and its bytes,
    where it was counted."""
    if answer.number == 0:
        return ["accepted: " + ("the net is well defined" if words is None else f"{answer.cycles} cycles")]
    after = f" after {answer.cycles} cycles" if answer.cycles else ""
    head = f"refused{after}: {WORDS[answer.number]} (answer {answer.number}, where {answer.where})"
    return [head] + [f"  {line}" for line in points_at(net, answer, words or b"", report)]


def points_at(net, answer, words, report):
    """What an answer and its where point at."""
    number, where = answer.number, answer.where
    if number in (2, 3, 4, 5):
        return a_record(net, number, where)
    if number == 7:
        return [f"{place_or_transition(net, where)} has no arc", *declared_at(net, where)]
    if number == 8:
        return [f"{net.full('TRANSITION', where)} stands above itself:", *circle(net, where)]
    if number == 9:
        return a_pair(net, *divmod(where, 64))
    if number == 13:
        cycle = answer.cycles + 1
        return [f"{net.full('PLACE', where)} would hold more than 65535 tokens in cycle {cycle}; into it put:",
                *shown_arcs(net, lambda arc: arc.sort == POST and arc.first == where)]
    if number == 10:
        found = f"record {where} of the image, {place_or_transition(net, where)}, does not fit the net"
        return [found if where != 192 else "the image is not 768 bytes long", OTHER_IMAGE]
    if number == 14:
        return a_report(net, where, *report)
    return [{1: f"{len(net.table())} bytes; a table is whole records of 8 bytes, at most 1024 of them",
             6: "the net has no transition" if where else "the net has no place",
             11: f"{len(words)} bytes; the words are 8 bytes a cycle, at most 512 cycles",
             12: "the report is too short, or the image is not 768 bytes long",
             15: f"with {report[0]} the day has more than 4294967295 cycles; count it in parts"}[number]]


def a_report(net, where, path, report):
    """Answer 14 points at a report: its length, or the first record in which a transition fired that is not there."""
    if where == 512:
        return [f"{path}: {len(report)} bytes; a report is 24 bytes a cycle, at most 512 cycles",
                "count the files that mk run --report kept, each by itself"]
    fired = int.from_bytes(report[24 * where:24 * where + 8], "little")
    declared = {one.first for one in net.records if one.kind == TRANSITION}
    first = next(k for k in range(64) if fired >> k & 1 and k not in declared)
    return [f"{path}, record {where}, cycle {where + 1}: transition {first} fired, which the net does not declare",
            "is this the report of another net?"]


def a_record(net, number, where):
    """Answers 2 to 5 point at a record: its line, and what it repeats or misses."""
    record, said = net.records[where], [net.shown(where)]
    if not said[0].startswith(f"{net.path} record"):
        said = [f"record {where}, {said[0]}"]
    if number == 2:
        said += [f"it has kind {record.kind} and sort {record.sort}; kinds are 1 to 7, and sorts 0, of transitions "
                 "0 to 2, of arcs 0 to 3, of conditions 0 and 1"]
    if number == 3:
        said += [f"one of its numbers is out of range: {FIELDS[record.kind]}"]
    if number == 4:
        first = next(k for k, one in enumerate(net.records) if subject(one) == subject(record))
        said += [f"said before in {net.shown(first)}"]
    if number == 5:
        declared = {("PLACE" if one.kind == PLACE else "TRANSITION", one.first)
                    for one in net.records if one.kind in (PLACE, TRANSITION)}
        said += [f"{net.full(*named)} has no line of its own" for named in words_for(record)[1]
                 if named[0] in ("PLACE", "TRANSITION") and named not in declared]
    return said


def subject(record):
    """What may stand in a table only once."""
    return record.kind, record.first, record.second, record.kind == ARC and record.sort == POST


def a_pair(net, first, second):
    """Answer 9 points at two transitions: their names, the places that both take from, and what would settle it."""
    said = [f"{net.full('TRANSITION', first)} and {net.full('TRANSITION', second)}"]
    for place in shared(net, first, second):
        arcs = [(BASIC, place, first), (BASIC, place, second)]
        said += [f"both take from {net.full('PLACE', place)}:",
                 *shown_arcs(net, lambda arc: (arc.sort, arc.first, arc.second) in arcs)]
    names = [net.names.name("TRANSITION", number) for number in (first, second)]
    return said + ["one of these would settle it:",
                   f"  above {names[0]} {names[1]}, or the other way round",
                   "  a condition that one wants and the other wants not",
                   "  a place with a basic or test arc to one and an inhibitor arc of the same weight to the other"]


def shared(net, first, second):
    """The places that two transitions both take from."""
    takes = [{arc.first for arc in net.records if (arc.kind, arc.sort, arc.second) == (ARC, BASIC, one)}
             for one in (first, second)]
    return sorted(takes[0] & takes[1])


def shown_arcs(net, wanted):
    """The arcs that are wanted, with where they stand."""
    return [f"  {net.shown(k)}" for k, one in enumerate(net.records) if one.kind == ARC and wanted(one)]


def circle(net, start):
    """The shortest chain of priorities from a transition to itself."""
    ways, reached = [[k] for k, one in enumerate(net.records) if one.kind == PRIORITY and one.first == start], set()
    for way in ways:
        last = net.records[way[-1]].second
        if last == start:
            return [f"  {net.shown(k)}" for k in way]
        if last not in reached:
            reached.add(last)
            ways += [way + [k] for k, one in enumerate(net.records) if one.kind == PRIORITY and one.first == last]
    return []


def place_or_transition(net, where):
    """Answers 7 and 10 count the places first and the transitions from 128."""
    return net.full("PLACE", where) if where < 128 else net.full("TRANSITION", where - 128)


def declared_at(net, where):
    """The line that declares it."""
    kind, number = (PLACE, where) if where < 128 else (TRANSITION, where - 128)
    return [f"  {net.shown(k)}" for k, one in enumerate(net.records) if (one.kind, one.first) == (kind, number)]
