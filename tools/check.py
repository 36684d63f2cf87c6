"""mk check: the engine's answer."""
from tools.answers import tell
from tools.engine import ask
from tools.net import read_net

DOES = "ask the engine whether a net is well defined"
ABOUT = """Prints the engine's answer in the net's names, with the lines to look at. Ends with 0 if the net is accepted
and with 1 if it is refused."""
EXAMPLE = """  mk check examples/five-am.net"""


def options(parser):
    pass


def do(asked):
    net = read_net(asked.net, asked.names)
    _, answer = ask(net.table())
    tell(net, answer)
    return 1 if answer.number else 0
