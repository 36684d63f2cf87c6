"""pictures.py REPOSITORY SCRATCH: every net of the repository, and damaged ones, drawn and held to what the drawing
must show; the waves of every run through GTKWave's converters and back to the run's lines."""
import glob
import os
import random
import re
import subprocess
import sys
from collections import Counter
from pathlib import Path
from xml.etree import ElementTree

sys.dont_write_bytecode = True
sys.path.insert(0, sys.argv[1])
os.chdir(sys.argv[1])
SCRATCH, SVG = Path(sys.argv[2]), "{http://www.w3.org/2000/svg}"
from tools.net import read_net, read_words  # noqa: E402


def mk(*words, status=0):
    """What mk prints, if it ends with that status."""
    done = subprocess.run([sys.executable, "./mk", *map(str, words)], capture_output=True, text=True, check=False)
    if done.returncode != status:
        sys.exit(f"mk: mk {' '.join(map(str, words))} ended with {done.returncode}: {done.stdout}{done.stderr}")
    return done.stdout


def texts_of(drawing):
    """The texts of a drawing, all of them and those in red."""
    texts = ElementTree.parse(drawing).iter(SVG + "text")
    texts = [(text.text.strip(), text.get("fill")) for text in texts]
    return {text for text, _ in texts}, {text for text, fill in texts if fill == "#cc0000"}


def heads_of(drawing):
    """How many lines of a drawing have which head."""
    heads = Counter()
    for group in ElementTree.parse(drawing).iter(SVG + "g"):
        if group.get("class") == "edge":
            dots = [dot.get("fill") for dot in group.iter(SVG + "ellipse")]
            heads["arrow" if not dots else "circle" if dots == ["none"] else "dot"] += 1
    return heads


def drawn(path):
    """Draws a net and gives the texts of the drawing."""
    mk("draw", path, "-o", SCRATCH / "net.svg")
    return texts_of(SCRATCH / "net.svg")


def hold_drawing(path):
    """Every name of the net is in its drawing, every weight above 1 and every interval; red is what its file says."""
    net, (texts, red) = read_net(path), drawn(path)
    wanted = {net.names.name(family, number) for family in ("PLACE", "TRANSITION", "ACTION", "FUNCTION")
              for number in net.numbers()[family]}
    wanted |= {str(record.low) for record in net.records if record.kind == 3 and record.low > 1}
    wanted |= {f"[{record.low},{record.high}]" for record in net.records if (record.kind, record.sort) == (2, 1)}
    wanted |= {f"if {'not ' * record.sort}{net.names.name('CONDITION', record.second)}" for record in net.records
               if record.kind == 4}
    if wanted - texts:
        sys.exit(f"mk: the drawing of {path} does not show {wanted - texts}")
    heads = Counter("arrow" if record.kind == 5 else ("arrow", "dot", "circle", "arrow")[record.sort]
                    for record in net.records if record.kind in (3, 5))
    if heads_of(SCRATCH / "net.svg") != heads:
        sys.exit(f"mk: the drawing of {path} has the heads {heads_of(SCRATCH / 'net.svg')}, not {heads}")
    refused = re.match(r"end 9 (\d+)", Path(path).with_suffix(".out").read_text(encoding="utf-8"))
    pair = {net.names.name("TRANSITION", number) for number in divmod(int(refused[1]), 64)} if refused else set()
    if {text for text in red if text in net.names.numbers["TRANSITION"]} != pair:
        sys.exit(f"mk: the drawing of {path} has {red} in red, where the engine names {pair}")
    return red


def draw_damaged(dice):
    """Tables that the engine refuses are drawn too."""
    tables = [read_net(path).table() for path in glob.glob("examples/*.net")]
    for _ in range(12):
        table = bytearray(dice.choice(tables))
        for _ in range(20):
            table[dice.randrange(len(table))] = dice.randrange(256)
        (SCRATCH / "damaged.bin").write_bytes(table)
        drawn(SCRATCH / "damaged.bin")


def read_vcd(path):
    """The waves of a dump: for each group and name its values by cycle."""
    group, named, values, now, cycles = None, {}, {}, {}, []
    for line in Path(path).read_text(encoding="utf-8").split("\n"):
        words = line.split()
        if line.startswith("$scope"):
            group = words[2]
        elif line.startswith("$var"):
            named[words[3]] = group, words[4]
        elif line.startswith("#"):
            cycles.append(int(line[1:]))
            for code, value in now.items():
                values.setdefault(named[code], []).extend([value] * (cycles[-1] - cycles[-2]))
        elif line.startswith("b"):
            now[words[1]] = int(words[0][1:], 2)
        elif line[:1] in ("0", "1"):
            now[line[1:]] = int(line[0])
    return values


def hold_waves(path):
    """The waves of a run, through GTKWave's format and back, are the lines that the program prints for it."""
    words_path, out = Path(path).with_suffix(".words"), Path(path).with_suffix(".out").read_text(encoding="utf-8")
    lines, end = out.split("\n")[:-2], out.split("\n")[-2]
    dump = SCRATCH / "run.vcd"
    dump.unlink(missing_ok=True)
    mk("waves", path, words_path, "-o", dump, status=0 if end.startswith("end 0 ") else 1)
    if re.match(r"end \d ", end) and not end.startswith("end 0 "):
        return not dump.exists() or sys.exit(f"mk: {path} is refused, and has waves")
    subprocess.run(["vcd2fst", dump, SCRATCH / "run.fst"], check=True, stdout=subprocess.DEVNULL)
    subprocess.run(["fst2vcd", SCRATCH / "run.fst", "-o", SCRATCH / "again.vcd"], check=True, stdout=subprocess.DEVNULL)
    waves, net = read_vcd(SCRATCH / "again.vcd"), read_net(path)
    words = read_words(words_path, net)

    def as_set(group, family, cycle):
        return sum(values[cycle] << net.names.numbers[family][name]
                   for (one, name), values in waves.items() if one == group)

    for cycle, line in enumerate(lines, 1):
        sets = [as_set(group, family, cycle)
                for group, family in (("fired", "TRANSITION"), ("actions", "ACTION"), ("functions", "FUNCTION"))]
        read = " ".join([str(cycle)] + [f"{one:016x}" for one in sets])
        if read != line:
            sys.exit(f"mk: the waves of {path} say {read}, the program {line}")
        if as_set("conditions", "CONDITION", cycle) != int.from_bytes(words[8 * cycle - 8:8 * cycle], "little"):
            sys.exit(f"mk: the waves of {path} have other conditions in cycle {cycle}")
    for record in net.records:
        if record.kind == 1 and waves["tokens", net.names.name("PLACE", record.first)][0] != record.low:
            sys.exit(f"mk: the waves of {path} do not begin with the first tokens")
    return waves


def hold_page():
    """What examples/five-am.md quotes is what mk prints."""
    page = Path("examples/five-am.md").read_text(encoding="utf-8")
    if f"```\n{mk('check', 'examples/five-am.net', status=1)}```\n" not in page:
        sys.exit("mk: examples/five-am.md does not quote the answer to five-am.net")
    ways = "".join(mk("run", f"examples/five-am-{way}.net", f"examples/five-am-{way}.words")
                   for way in ("priority", "conditions", "inhibitor")).split("\n")
    for line in re.findall(r"^cycle .*", page, re.M):
        if line not in ways:
            sys.exit(f"mk: examples/five-am.md quotes a line that no run prints: {line}")


def main():
    paths = sorted(glob.glob("nets/*.net") + glob.glob("examples/*.net"))
    red = {path: hold_drawing(path) for path in paths}
    if not {"name_a", "name_b", "name_free"} <= red["examples/five-am.net"] or "idle_a" in red["examples/five-am.net"]:
        sys.exit("mk: the drawing of five-am.net does not show the pair and the place they share in red")
    draw_damaged(random.Random(9))
    waves = {path: hold_waves(path) for path in paths}
    # Document 01's net 4 gives this counter, net 9 these tokens.
    if waves["nets/4-past-b.net"]["counters", "t2"][1:7] != [0, 1, 2, 3, 4, 4]:
        sys.exit(f"mk: the counter of net 4 is {waves['nets/4-past-b.net']['counters', 't2']}")
    if waves["nets/9-taken-first.net"]["tokens", "p0"] != [65535, 65535]:
        sys.exit(f"mk: the tokens of net 9 are {waves['nets/9-taken-first.net']['tokens', 'p0']}")
    # The drawings that examples/five-am.md shows; where things stand in the first is Graphviz's affair.
    mk("draw", "examples/five-am.net", "-o", SCRATCH / "five-am.svg")
    mk("waves", "examples/five-am-priority.net", "examples/five-am-priority.words", "-o", SCRATCH / "run.svg")
    if texts_of("examples/five-am.svg") != texts_of(SCRATCH / "five-am.svg"):
        sys.exit("mk: examples/five-am.svg is not what mk draw makes of that net")
    if (SCRATCH / "run.svg").read_bytes() != Path("examples/five-am-priority.svg").read_bytes():
        sys.exit("mk: examples/five-am-priority.svg is not what mk waves makes of that run")
    hold_page()
    print(f"mk: {len(paths)} nets and 12 damaged ones drawn; the waves of all runs read back to their lines")


main()
