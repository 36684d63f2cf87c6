"""mk waves: a run as waves, for GTKWave or as a picture."""
import sys
from collections import namedtuple
from pathlib import Path

from tools.answers import tell
from tools.engine import FULL, ask
from tools.net import read_net, read_words
from tools.notation import TRANSITION, Wrong
from tools.picture import picture

DOES = "write a run as waves"
ABOUT = """Runs a net and writes the waves of the run: the conditions, the tokens of each place, the counters of the
timed transitions, what fired, the actions and the functions. Time k is cycle k, with the tokens and counters that it
left; time 0 is the fresh net. These are the engine's own: the program states prints the image after each cycle.

The ending of the file says what is written: .vcd for GTKWave, or .svg for a picture. Where a cycle is refused, the
finished ones are written, and the end is 1."""
EXAMPLE = """  mk waves examples/five-am-priority.net examples/five-am.words -o run.vcd
  mk waves net.bin words.bin -o run.svg"""
ENDINGS = (".vcd", ".svg")
# A wave: its group, its name, how many bits it has, and its value in each cycle from 0 on.
Wave = namedtuple("Wave", "group name bits values")


def options(parser):
    parser.add_argument("words", metavar="WORDS", help="a .words text, or a .bin file of eight bytes a cycle")
    parser.add_argument("-o", metavar="FILE", dest="out", default="run.vcd", help="where to write; run.vcd if none")


def do(asked):
    ending = Path(asked.out).suffix
    if ending not in ENDINGS:
        raise Wrong(asked.out, f"the ending '{ending}'", f"one of {', '.join(ENDINGS)}")
    net = read_net(asked.net, asked.names)
    words = read_words(asked.words, net)
    lines, answer = ask(net.table(), words)
    states, same = ask(net.table(), words, "states")
    if same != answer:
        raise Wrong("states", f"the answer {same}", f"the answer of the sequencer, {answer}")
    if answer.number in (0, FULL):
        waves = waves_of(net, words, lines, states)
        written = vcd(waves, answer.cycles) if ending == ".vcd" else picture(waves, answer.cycles)
        Path(asked.out).write_text(written, encoding="utf-8")
        print(f"{asked.out}: {answer.cycles} cycles, {len(waves)} waves")
    if answer.number:
        tell(net, answer, words, sys.stderr)
    return 1 if answer.number else 0


def waves_of(net, words, lines, states):
    """All waves of a run: from its words, the sequencer's lines, and the images that states printed."""
    taken = [0] + [int.from_bytes(words[8 * k:8 * k + 8], "little") for k in range(len(lines))]
    reports = [(0, 0, 0)] + [tuple(int(digits, 16) for digits in line.split()[1:]) for line in lines]
    images = [b"".join(int(eight, 16).to_bytes(8, "little") for eight in line.split()[1:]) for line in states]
    numbers = net.numbers()
    timed = sorted(record.first for record in net.records if record.kind == TRANSITION and record.sort)

    def bits(group, family, of, sets):
        return [Wave(group, net.names.name(family, k), 1, [one >> k & 1 for one in sets]) for k in of]

    def counts(group, family, of, first):
        return [Wave(group, net.names.name(family, k), 16, [int.from_bytes(image[4 * (first + k):][:2], "little")
                                                            for image in images]) for k in of]

    return [*bits("conditions", "CONDITION", numbers["CONDITION"], taken),
            *counts("tokens", "PLACE", numbers["PLACE"], 0),
            *counts("counters", "TRANSITION", timed, 128),
            *bits("fired", "TRANSITION", numbers["TRANSITION"], [report[0] for report in reports]),
            *bits("actions", "ACTION", numbers["ACTION"], [report[1] for report in reports]),
            *bits("functions", "FUNCTION", numbers["FUNCTION"], [report[2] for report in reports])]


def vcd(waves, cycles):
    """The waves as a value change dump."""
    lines = ["$version mk waves $end", "$comment time k is cycle k, time 0 the fresh net $end", "$timescale 1 us $end"]
    for k, wave in enumerate(waves):
        if k == 0 or waves[k - 1].group != wave.group:
            lines += ["$upscope $end"] * (k > 0) + [f"$scope module {wave.group} $end"]
        lines.append(f"$var wire {wave.bits} {code(k)} {wave.name} $end")
    lines += ["$upscope $end", "$enddefinitions $end"]
    for cycle in range(cycles + 1):
        changed = [k for k, wave in enumerate(waves) if cycle == 0 or wave.values[cycle] != wave.values[cycle - 1]]
        lines.append(f"#{cycle}")
        for k in changed:
            value = waves[k].values[cycle]
            lines.append(f"{value}{code(k)}" if waves[k].bits == 1 else f"b{value:b} {code(k)}")
    return "\n".join([*lines, f"#{cycles + 1}", ""])


def code(number):
    """The short name of a wave: printable characters, fewest first."""
    digits = ""
    while True:
        digits = chr(33 + number % 94) + digits
        number = number // 94 - 1
        if number < 0:
            return digits
