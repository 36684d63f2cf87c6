"""round_trips.py REPOSITORY: text to table to text and back, on every net of the repository and on 20,000 random and
damaged tables. The seed is fixed."""
import glob
import os
import random
import sys

sys.dont_write_bytecode = True
sys.path.insert(0, sys.argv[1])
os.chdir(sys.argv[1])
from tools.names import Names  # noqa: E402
from tools.net import net_of, read_net, read_table, read_words  # noqa: E402
from tools.notation import FAMILIES, Record, lines_in  # noqa: E402

TABLES, SEED = 20000, 18
# Lines with the bytes that document 01's table of kinds gives them, one for each form.
KNOWN = (
    ("name place 5 slot", ""),
    ("place idle 2", "01 00 00 00 02 00 00 00"),
    ("place slot", "01 05 00 00 00 00 00 00"),
    ("place p1", "01 01 00 00 00 00 00 00"),
    ("place busy 65535", "01 02 00 00 ff ff 00 00"),
    ("transition go", "02 00 00 00 00 00 00 00"),
    ("transition wait timed 2 300", "02 01 00 01 02 00 2c 01"),
    ("transition late timed 7 or more", "02 02 00 02 07 00 00 00"),
    ("basic idle -> wait", "03 00 01 00 01 00 00 00"),
    ("basic idle -> late weight 3", "03 00 02 00 03 00 00 00"),
    ("test busy -> wait", "03 02 01 01 01 00 00 00"),
    ("test slot -> late weight 2", "03 05 02 01 02 00 00 00"),
    ("inhibitor slot -> go", "03 05 00 02 01 00 00 00"),
    ("inhibitor busy -> go weight 258", "03 02 00 02 02 01 00 00"),
    ("post late -> slot", "03 05 02 03 01 00 00 00"),
    ("post wait -> busy weight 4", "03 02 01 03 04 00 00 00"),
    ("wants go ok", "04 00 00 00 00 00 00 00"),
    ("wants late not ready", "04 02 01 01 00 00 00 00"),
    ("above go late", "05 00 02 00 00 00 00 00"),
    ("action slot lamp", "06 05 00 00 00 00 00 00"),
    ("function late note", "07 02 00 00 00 00 00 00"),
    ("raw 03 05 02 07 01 00 00 00", "03 05 02 07 01 00 00 00"),
)


def held(what, table, names):
    """A table is written as text, and the text read back: the same bytes, and then the same text."""
    lines = read_table(what, table, names).text()
    read = net_of(what, lines_in(what, "\n".join(lines) + "\n"))
    if read.table() != table:
        sys.exit(f"mk: {what}: the text gives another table: {table.hex()}")
    if read_table(what, table, read.names).text() != lines:
        sys.exit(f"mk: {what}: the table gives another text: {table.hex()}")
    if len(lines) - sum(line.startswith("name ") for line in lines) != len(table) // 8:
        sys.exit(f"mk: {what}: not a line a record: {table.hex()}")
    return lines


def hold_known():
    """The known lines give their bytes, and these their lines; net N is the table that the program's own run has."""
    net = net_of("known", lines_in("known", "\n".join(line for line, _ in KNOWN)))
    for record, (line, known) in zip(net.records, (one for one in KNOWN if one[1])):
        if record.packed() != bytes.fromhex(known):
            sys.exit(f"mk: '{line}' gives {record.packed().hex(' ')}, where document 01 has {known}")
    lines = [line.split("#")[0].strip() for line in net.text() if not line.startswith("name ")]
    if lines != [line for line, known in KNOWN if known]:
        sys.exit(f"mk: the known lines are written otherwise: {lines}")
    net = read_net("nets/n.net")
    for made, kept in ((net.table(), "net.bin"), (read_words("nets/n.words", net), "words.bin")):
        with open(f"crates/sequencer/data/{kept}", "rb") as file:
            if made != file.read():
                sys.exit(f"mk: nets/n does not give crates/sequencer/data/{kept}")


def random_record(dice):
    """A record of any bytes, or one that is nearly a good one."""
    if dice.random() < 0.15:
        return dice.randbytes(8)
    most = dice.choice((3, 3, 70, 255))
    fields = [dice.randrange(1, 8), dice.randint(0, most), dice.randint(0, most), dice.randrange(4),
              dice.choice((0, 1, 2, 65535)), 0]
    for spoilt in range(6):
        if dice.random() < 0.04:
            fields[spoilt] = dice.randrange(256)
    if dice.random() < 0.8:  # what the kind has no use for is mostly 0
        fields[2] *= fields[0] > 2
        fields[3] *= fields[0] in (2, 3, 4)
        fields[4] *= fields[0] < 4
        fields[5] = dice.choice((0, 3)) if (fields[0], fields[3]) == (2, 1) else 0
    return Record._make(fields).packed()


def damaged(dice, table):
    """A table of the repository with records moved, doubled or lost, and bytes changed."""
    records = [table[k:k + 8] for k in range(0, len(table), 8)]
    for _ in range(dice.randrange(4)):
        at = dice.randrange(len(records) + 1)
        records[at:at + dice.randrange(2)] = [dice.choice(records)] if records and dice.random() < 0.7 else []
    if dice.random() < 0.3:
        dice.shuffle(records)
    changed = bytearray(b"".join(records))
    for _ in range(dice.randrange(5) if changed else 0):
        changed[dice.randrange(len(changed))] = dice.randrange(256)
    return bytes(changed)


def random_names(dice):
    """Names for some numbers of each family, in no order, a few of them plain."""
    names = Names()
    for family, letter in FAMILIES.items():
        numbers = dice.sample(range(256), 40) + [0, 1, 2, 3]
        for number in dict.fromkeys(dice.sample(numbers, dice.randrange(len(numbers)))):
            name = f"{dice.choice(('x', 'y_', 'Timed'))}{number * 7 % 256}"
            name = f"{letter}{number}" if dice.random() < 0.1 else name
            if name not in names.numbers[family]:
                names.give("names", family, number, name)
    return names


def main():
    hold_known()
    paths = sorted(glob.glob("nets/*.net") + glob.glob("examples/*.net"))
    tables = []
    for path in paths:
        net = read_net(path)
        tables.append(net.table())
        if held(path, net.table(), net.names) != net.text():
            sys.exit(f"mk: {path}: text to table to text gives another text")
        if any(line.startswith("raw ") for line in held(path, net.table(), Names())):
            sys.exit(f"mk: {path}: the notation has words for each of its records, and one is written raw")
    dice, raw, namings = random.Random(SEED), 0, 0
    for number in range(TABLES):
        if dice.random() < 0.7:
            table = b"".join(random_record(dice) for _ in range(dice.choice((0, 1, 2, 5, 10, 20))))
        else:
            table = damaged(dice, dice.choice(tables))
        lines = held(f"table {number}", table, random_names(dice) if number % 5 == 0 else Names())
        raw += sum(line.startswith("raw ") for line in lines)
        namings += sum(line.startswith("name ") for line in lines)
    if min(raw, namings) < 1000:
        sys.exit(f"mk: the random tables are too tame: {raw} raw lines, {namings} names")
    print(f"mk: {len(paths)} nets and {TABLES} tables, text to table to text and back ({raw} raw lines)")


main()
