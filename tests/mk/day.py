"""day.py REPOSITORY SCRATCH: what a run keeps, and what a day comes to. Each command of examples/five-am-day.md prints
what the page says; runs of the repository are kept and counted, and held to the sequencer's lines and to the images
that states prints; a run in two parts, and its two reports, are held to the whole."""
import csv
import io
import os
import struct
import subprocess
import sys
from pathlib import Path

sys.dont_write_bytecode = True
sys.path.insert(0, sys.argv[1])
REPOSITORY, SCRATCH = Path(sys.argv[1]).resolve(), Path(sys.argv[2]).resolve()
os.chdir(SCRATCH)
from tools.engine import FULL, Answer, ask, launch  # noqa: E402
from tools.net import read_net, read_words  # noqa: E402

NET = REPOSITORY / "examples/five-am-priority.net"
FIRST = REPOSITORY / "examples/five-am-day-1.words"
# Runs to keep and count: refused before a cycle, at the first, at a later one; weights, times, inhibitor and test arcs.
RUNS = ("examples/five-am", "examples/five-am-inhibitor", "nets/3-net-n", "nets/6-two-tokens", "nets/9-full",
        "nets/12-equal-weights", "nets/full-after-two", "nets/put-back-is-not-spent")
# Runs to part in two, after every so many cycles.
PARTED = (("nets/n", 1), ("nets/full-after-two", 2), ("examples/five-am-priority", 4))


def mk(*words, status=0, **changed):
    """What mk prints and says on standard error, if it ends with that status."""
    done = subprocess.run([REPOSITORY / "mk", *words], capture_output=True, text=True, check=False,
                          env={**os.environ, **changed})
    if done.returncode != status:
        sys.exit(f"mk: mk {' '.join(map(str, words))} ended with {done.returncode}: {done.stdout}{done.stderr}")
    return done.stdout, done.stderr


def hold(what, found, wanted):
    if found != wanted:
        sys.exit(f"mk: {what}: found\n{found}\nwanted\n{wanted}")


def hold_page():
    """Each block of the page is a command, or the block behind one: all that the command prints."""
    for name in ("mk", "examples", "nets"):
        Path(name).symlink_to(REPOSITORY / name)
    Path("target").mkdir()
    blocks = Path("examples/five-am-day.md").read_text(encoding="utf-8").split("```\n")[1::2]
    commands, printed = blocks[::2], blocks[1::2]
    hold("the page's commands", [block.split()[0] for block in commands], ["rm"] + ["./mk"] * (len(printed) - 1))
    for command, wanted in zip(commands, printed):
        done = subprocess.run(["bash", "-c", command], capture_output=True, text=True, check=False)
        hold(command, done.stdout + done.stderr, wanted)
    rows = mk("day", "--csv", NET, "target/day-1.bin", "target/day-2.bin")[0]
    hold("the csv of the day", rows, Path("examples/five-am-day.csv").read_text(encoding="utf-8"))
    return len(commands)


def read(name):
    """The path of a net of the repository, its table and its words."""
    path = REPOSITORY / f"{name}.net"
    net = read_net(path)
    return path, net.table(), read_words(path.with_suffix(".words"), net)


def station(table, words, image=b""):
    """A call of the program station: its answer, its report and its image."""
    said, answer, left = launch("station", {"net.bin": table, "words.bin": words, "image.bin": image})
    hold("what station says", said, [])
    return answer, left.get("report.bin"), left["image.bin"]


def day(table, *reports):
    """The numbers that the program day prints, and its answer."""
    files = {f"{number}.bin": report for number, report in enumerate(reports)}
    lines, answer, _ = launch("day", {"net.bin": table, **files}, list(files))
    return [[int(number) for number in line.split()[1:]] for line in lines], answer


def tokens(image):
    return [int.from_bytes(image[4 * place:4 * place + 2], "little") for place in range(128)]


def hold_run(name):
    """The report of a run is the sequencer's lines, its image the last that states prints; the count of the day is that
    of these lines, and the net change is what the last image holds less what the first one holds."""
    path, table, words = read(name)
    *lines, end = path.with_suffix(".out").read_text(encoding="utf-8").split("\n")[:-1]
    answer, report, image = station(table, words)
    hold(f"{path}: station", "end {} {} {}".format(*answer), end)
    if answer.number not in (0, FULL):
        hold(f"{path}: a refused run", (report, image), (None, b""))
        return hold(f"{path}: day", day(table), ([], Answer(answer.number, answer.where, 0)))
    sets = [[int(digits, 16) for digits in line.split()[1:]] for line in lines]
    hold(f"{path}: report", report, b"".join(struct.pack("<QQQ", *three) for three in sets))
    states = [b"".join(int(eight, 16).to_bytes(8, "little") for eight in line.split()[1:])
              for line in ask(table, words, "states")[0]]
    hold(f"{path}: image", image, states[-1])
    fired = [sum(three[0] >> number & 1 for three in sets) for number in range(64)]
    change = [after - before for after, before in zip(tokens(states[-1]), tokens(states[0]))]
    return hold(f"{path}: day", day(table, report), ([[len(lines)], fired, change], Answer(0, 0, 1)))


def hold_parts(name, step):
    """Wherever a run is parted in two, image, reports and cycles are those of the whole; so is the day, the later part
    first."""
    path, table, words = read(name)
    whole, report, image = station(table, words)
    total = day(table, report)[0]
    for at in range(0, len(words) + 1, 8 * step):
        first, before, between = station(table, words[:at])
        if first.number:  # the second call is not made
            hold(f"{path}: {at} bytes of words", (first, before, between), (whole, report, image))
            continue
        second, after, last = station(table, words[at:], between)
        joined = second._replace(cycles=first.cycles + second.cycles)
        hold(f"{path}: parted at {at}", (joined, before + after, last), (whole, report, image))
        hold(f"{path}: the day parted at {at}", day(table, after, before), (total, Answer(0, 0, 2)))


def hold_stored():
    """The files that rt runs day and station on: two calls of net N, and a place that is full after one more cycle."""
    _, n, words = read("nets/n")
    _, first, image = station(n, words)
    full = read("nets/full-after-two")[1]
    stored = {"day/data/net.bin": n, "day/data/1.bin": first, "day/data/2.bin": station(n, bytes(8), image)[1],
              "station/data/net.bin": full, "station/data/image.bin": station(full, bytes(8))[2]}
    for name, wanted in stored.items():
        hold(f"crates/{name}", (REPOSITORY / "crates" / name).read_bytes(), wanted)


def hold_kept():
    """mk run prints the same with its files as without, and keeps nothing where it is refused before a cycle."""
    kept = mk("run", "--raw", NET, FIRST, "--report", "report.bin", "--image", "image.bin")
    hold("mk run --raw with files", kept, mk("run", "--raw", NET, FIRST))
    hold("the kept files", [Path(name).stat().st_size for name in ("report.bin", "image.bin")], [7 * 24, 768])
    full = [REPOSITORY / f"nets/full-after-two.{ending}" for ending in ("net", "words")]
    for cycles, head in ((2, "refused after 2 cycles: full"), (0, "refused: full")):
        said = mk("run", *full, "--report", "full.bin", "--image", "filled.bin", status=1)[0]
        hold(f"13, {head}", head in said, True)
        hold(f"13, {head}", Path("full.bin").stat().st_size, 24 * cycles)
    for image, wanted in ((b"\1", "the image is not 768 bytes long"),
                          (bytes(400) + b"\1" + bytes(367), "record 100 of the image, place 100 p100, does not fit")):
        Path("spoilt.bin").write_bytes(image)
        said = mk("run", NET, FIRST, "--report", "none.bin", "--image", "spoilt.bin", status=1)[0]
        if "refused: state (answer 10" not in said or wanted not in said or "the image of another net" not in said:
            sys.exit(f"mk: a spoilt image: {said}")
        hold("a spoilt image", (Path("spoilt.bin").read_bytes(), Path("none.bin").exists()), (image, False))


def hold_told():
    """A day in columns and in rows says the same; a refused report is told by its name, and with --csv as trouble."""
    rows = list(csv.reader(io.StringIO(mk("day", "--csv", NET, "report.bin", "report.bin")[0])))
    columns = [line.split() for line in mk("day", NET, "report.bin", "report.bin")[0].split("\n") if line]
    hold("the totals", columns[:3], [["reports", "2"], ["cycles", "14"], ["firings", "14"]])
    signed = [[name, f"{int(value):+}" if kind == "place" and value != "0" else value]
              for kind, name, _, value in rows[2:]]
    hold("the columns", [pair for pair in columns[3:] if pair[1] not in ("fired", "change")], signed)
    hold("no report", mk("day", NET)[0].split("\n")[:2], ["reports          0", "cycles           0"])
    record = struct.pack("<QQQ", 1 << 11, 0, 0)
    Path("most.bin").write_bytes(record * 512)
    for content, where, wanted in (
            (bytes(25), 512, "bad.bin: 25 bytes; a report is 24 bytes a cycle"),
            (record * 513, 512, "bad.bin: 12312 bytes; a report is 24 bytes a cycle, at most 512 cycles"),
            (record * 2 + struct.pack("<QQQ", 1 << 63 | 3 << 12, 0, 0) * 2, 2,
             "bad.bin, record 2, cycle 3: transition 12 fired, which the net does not declare\n  is this the report")):
        Path("bad.bin").write_bytes(content)
        out, said = mk("day", NET, "most.bin", "bad.bin", "report.bin", status=1)
        if said or not out.startswith(f"refused: report (answer 14, where {where})\n  ") or wanted not in out:
            sys.exit(f"mk: a bad report: {out}{said}")
    hold("a bad report with --csv", mk("day", "--csv", NET, "bad.bin", status=1), ("", out))
    # More than 4,294,967,295 cycles would take 8,388,608 reports, so 15 is answered by a stand-in.
    Path("too-many").write_text("#!/bin/bash\necho end 15 0 0\n", encoding="utf-8")
    Path("too-many").chmod(0o755)
    out = mk("day", NET, "report.bin", status=1, MOEZELKRING_DAY=str(SCRATCH / "too-many"))[0]
    hold("15", out, "refused: count (answer 15, where 0)\n  with report.bin the day has more than 4294967295 cycles; "
         "count it in parts\n")


def main():
    commands = hold_page()
    for name in RUNS:
        hold_run(name)
    for name, step in PARTED:
        hold_parts(name, step)
    hold_stored()
    hold_kept()
    hold_told()
    print(f"mk: {commands} commands of the day's page as it says; {len(RUNS)} runs kept and counted, "
          f"{len(PARTED)} in parts")


main()
