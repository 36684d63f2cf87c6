"""mk run: a line a cycle, in names."""
import struct
import sys
from pathlib import Path

from tools.answers import tell
from tools.engine import FULL, ask, launch, members
from tools.net import read_net, read_words
from tools.notation import Wrong

DOES = "run a net, a line a cycle"
ABOUT = """Runs a net and prints a line a cycle: what fired, the actions that came on and went off, and the functions
that were executed. An action shows the tokens before the cycle, so it comes on in the cycle after the one that fills
its place. The last line is the engine's answer. Ends with 1 if the net is refused, or a cycle of it.

Where a day has several runs, --image lets each go on where the one before it ended; the first line of a run has all
actions that are on. --report keeps what mk day counts. Both files are written if the run is accepted, and if a cycle is
refused, for the cycles before it; any other refusal leaves them as they are."""
EXAMPLE = """  mk run examples/five-am-priority.net examples/five-am.words
  mk run --raw net.bin words.bin
  mk run examples/five-am-priority.net examples/five-am-day-1.words --report morning.bin --image state.bin"""
LEFT = ("report.bin", "image.bin")  # what the program station leaves


def options(parser):
    parser.add_argument("words", metavar="WORDS", help="a .words text, or a .bin file of eight bytes a cycle")
    parser.add_argument("--raw", action="store_true",
                        help="print the program's own lines; a refusal is told on standard error")
    parser.add_argument("--report", metavar="FILE",
                        help="keep the report of the finished cycles: a .bin file of 24 bytes a cycle")
    parser.add_argument("--image", metavar="FILE",
                        help="begin with the state image in this .bin file, or with the fresh net if it is not there "
                             "or empty, and keep the state after the run in it")


def do(asked):
    net = read_net(asked.net, asked.names)
    words = read_words(asked.words, net)
    lines, answer = run_kept(asked, net, words) if asked.report or asked.image else ask(net.table(), words)
    if asked.raw:
        print("\n".join([*lines, f"end {answer.number} {answer.where} {answer.cycles}"]))
        if answer.number:
            tell(net, answer, words, sys.stderr)
    else:
        for line in in_names(net, lines):
            print(line)
        tell(net, answer, words)
    return 1 if answer.number else 0


def run_kept(asked, net, words):
    """A run by the program station: the sequencer's lines, made of the report, and the answer; keeps what is asked."""
    hold_apart(asked)
    files = {"net.bin": net.table(), "words.bin": words}
    if asked.image and Path(asked.image).exists():
        files["image.bin"] = Path(asked.image).read_bytes()
    said, answer, left = launch("station", files)
    if answer.number not in (0, FULL):
        return [], answer
    missing = [name for name in LEFT if name not in left]
    if said or missing:
        raise Wrong("station", said[0] if said else f"no {missing[0]}", f"a program that leaves {' and '.join(LEFT)}")
    for path, name in zip((asked.report, asked.image), LEFT):
        if path:
            Path(path).write_bytes(left[name])
    records = enumerate(struct.iter_unpack("<QQQ", left["report.bin"]), 1)
    return [" ".join([str(cycle), *(f"{one:016x}" for one in sets)]) for cycle, sets in records], answer


def hold_apart(asked):
    """A file that is kept is a .bin file in a folder that is there, and none that the run reads or keeps already."""
    taken = {Path(path).resolve() for path in (asked.net, asked.words, asked.names) if path}
    for path in (asked.report, asked.image):
        if not path:
            continue
        if Path(path).is_dir() or Path(path).suffix != ".bin":
            found = "a folder" if Path(path).is_dir() else f"the ending '{Path(path).suffix}'"
            raise Wrong(path, found, "a .bin file to keep a report or an image in")
        if not Path(path).parent.is_dir():
            raise Wrong(path, "no such folder", "a folder to write into")
        if Path(path).resolve() in taken:
            raise Wrong(path, "a file that the run reads or keeps already", "a file of its own")
        taken.add(Path(path).resolve())


def in_names(net, lines):
    """The program's lines in the names of the net."""
    before = set()
    for line in lines:
        cycle, *sets = line.split()
        fired, actions, functions = map(members, sets)
        parts = [f"fired {named(net, 'TRANSITION', fired) or 'nothing'}"]
        for word, family, numbers in (("on", "ACTION", [k for k in actions if k not in before]),
                                      ("off", "ACTION", [k for k in sorted(before) if k not in actions]),
                                      ("functions", "FUNCTION", functions)):
            if numbers:
                parts.append(f"{word} {named(net, family, numbers)}")
        before = set(actions)
        yield f"cycle {cycle}: {'; '.join(parts)}"


def named(net, family, numbers):
    return " ".join(net.names.name(family, number) for number in numbers)
