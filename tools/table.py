"""mk table: a net's text, and its words, to the tables that the engine reads."""
from pathlib import Path

from tools.net import read_net, read_words
from tools.notation import Wrong

DOES = "write a net as net.bin, and its words as words.bin"
ABOUT = """Writes net.bin, and words.bin if words are given, into a folder, and prints the number of every name with the
value it has in a set, in hexadecimal digits."""
EXAMPLE = """  mk table examples/five-am.net examples/five-am.words -o station
      writes station/net.bin and station/words.bin; the folder has to be there"""


def options(parser):
    parser.add_argument("words", metavar="WORDS", nargs="?",
                        help="a .words text: a line a cycle, the conditions that are true in it, '-' for none")
    parser.add_argument("-o", metavar="FOLDER", dest="folder", default=".",
                        help="where to write; the current folder if none")


def do(asked):
    net = read_net(asked.net, asked.names).whole()
    words = read_words(asked.words, net) if asked.words else None
    if not Path(asked.folder).is_dir():
        raise Wrong(asked.folder, "no such folder", "a folder to write into")
    Path(asked.folder, "net.bin").write_bytes(net.table())
    if words is not None:
        Path(asked.folder, "words.bin").write_bytes(words)
    for family, numbers in net.numbers().items():
        for number in numbers:
            value = f"{1 << number:x}" if family != "PLACE" and number < 64 else ""
            print(f"{family.lower():10} {number:3}  {net.names.name(family, number):20}  {value}".rstrip())
    return 0
