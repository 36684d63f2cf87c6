"""mk text: a table back to text."""
from tools.net import read_net

DOES = "write a table as text"
ABOUT = """Prints a net as text: a line a record, in the table's order. Every table of whole records can be written,
refused ones too; a record that the notation has no words for is a line 'raw' and its eight bytes. mk table of the text
gives the same bytes.

Names come from a file, or are plain: p3 is place 3, and so t, c, a and f for transitions, conditions, actions and
functions. A file of names has lines such as

  name place 3 card_a

and any .net text of the same net will do. Where the names would not get the same numbers by themselves, such lines
stand first in the text."""
EXAMPLE = """  mk text net.bin --names five-am.net > again.net
  for net in *.bin; do mk text $net > ${net%.bin}.net; done"""


def options(parser):
    pass


def do(asked):
    for line in read_net(asked.net, asked.names).whole().text():
        print(line)
    return 0
