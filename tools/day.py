"""mk day: what fired over a day, from the reports of its runs."""
import csv
import sys
from collections import namedtuple
from pathlib import Path

from tools.answers import tell
from tools.engine import launch
from tools.net import known_file, read_net
from tools.notation import PLACE, TRANSITION, Wrong

DOES = "count what fired over a day"
ABOUT = """Counts the reports that mk run --report kept of one net, a file a run, in any order. Prints how many reports,
cycles and firings there are, how often each transition fired, and the net change of each place: the tokens that were
put into it less those that were taken from it, which is what it held after the last run less what it held before the
first, if each run went on where the one before it ended.

With --csv there is a row for the cycles, for each transition and for each place, for a spreadsheet, and a refusal is
told on standard error. Ends with 1 if the net is refused, or a report."""
EXAMPLE = """  mk day examples/five-am-priority.net morning.bin later.bin
  mk day --csv net.bin call-*.bin > day.csv"""
# A row: its kind (cycles, transition or place), the name and the number of what it is about, and the value.
Row = namedtuple("Row", "kind name number value")
LINES = ["cycles", "fired", "change"]  # the first words of what the program day prints


def options(parser):
    parser.add_argument("reports", metavar="REPORT", nargs="*", help="a .bin file that mk run --report kept")
    parser.add_argument("--csv", action="store_true", help="print comma separated rows: kind,name,number,value")


def do(asked):
    net = read_net(asked.net, asked.names)
    reports = [read_report(path) for path in asked.reports]
    copies = {f"{number}.bin": report for number, report in enumerate(reports)}
    lines, answer, _ = launch("day", {"net.bin": net.table(), **copies}, list(copies))
    if answer.number:
        last = list(zip(asked.reports, reports))[answer.cycles:][:1]
        tell(net, answer._replace(cycles=0), None, sys.stderr if asked.csv else sys.stdout, *last)
        return 1
    if [line.split(" ")[0] for line in lines] != LINES:
        raise Wrong("day", f"{len(lines)} lines before its end line", f"the lines {', '.join(LINES)}")
    rows = rows_of(net, *([int(number) for number in line.split()[1:]] for line in lines))
    if asked.csv:
        csv.writer(sys.stdout, lineterminator="\n").writerows([Row._fields, *rows])
    else:
        print("\n".join(columns(len(reports), rows)))
    return 0


def read_report(path):
    """The bytes of a report."""
    known_file(path, (".bin",), "a report: a .bin file that mk run --report kept")
    return Path(path).read_bytes()


def rows_of(net, cycles, fired, change):
    """A row for the cycles, each declared transition and each declared place, in the order of their numbers."""
    rows = [Row("cycles", "", "", cycles[0])]
    for kind, family, values in ((TRANSITION, "TRANSITION", fired), (PLACE, "PLACE", change)):
        for number in sorted(record.first for record in net.records if record.kind == kind):
            rows.append(Row(family.lower(), net.names.name(family, number), number, values[number]))
    return rows


def columns(reports, rows):
    """The rows in two columns, in three groups: the day's totals, the transitions, the places with a sign."""
    fired = [(row.name, str(row.value)) for row in rows if row.kind == "transition"]
    change = [(row.name, f"{row.value:+}" if row.value else "0") for row in rows if row.kind == "place"]
    firings = sum(row.value for row in rows if row.kind == "transition")
    groups = [[("reports", str(reports)), ("cycles", str(rows[0].value)), ("firings", str(firings))],
              [("transition", "fired"), *fired], [("place", "change"), *change]]
    left, right = (max(len(pair[side]) for group in groups for pair in group) for side in (0, 1))
    lines = []
    for group in groups:
        lines += [""] * bool(lines) + [f"{name:{left}}  {value:>{right}}" for name, value in group]
    return lines
