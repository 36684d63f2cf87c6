"""mk draw: a net as a drawing, laid out by Graphviz."""
import shutil
import subprocess
from html import escape
from pathlib import Path

from tools.answers import shared, told
from tools.engine import START, ask
from tools.net import read_net
from tools.notation import (ACTION, ARC, BASIC, CONDITION, FUNCTION, INHIBITOR, PLACE, POST, PRIORITY, TEST,
                            TRANSITION, Wrong, words_for)

DOES = "draw a net"
ABOUT = """Draws a net, laid out by Graphviz: a place is a circle with its name, its first tokens and its actions; a
transition is a box with its name, its interval, the conditions it wants and its functions. Arcs that take or put have
an arrow, test arcs a dot, inhibitor arcs a small circle; weights above 1 stand beside them; a dashed arrow goes from
the higher to the lower of two transitions. Below stands the engine's answer, and what it points at
is red: where that is a conflict, the pair and the places they share. What is mentioned but not declared is dashed.

The ending of the file says what is written: .svg, .png, .pdf, or .dot for Graphviz itself. A refused net is drawn
too, so drawing it ends with 0."""
EXAMPLE = """  mk draw examples/five-am.net -o five-am.svg
  for net in *.bin; do mk draw $net -o ${net%.bin}.svg; done"""
ENDINGS = (".svg", ".png", ".pdf", ".dot")
RED, GREY = "#cc0000", "#555555"
# A net with very many arcs is laid out in less time, with straight lines.
MANY_ARCS, QUICK = 300, ("-Gnslimit=1", "-Gnslimit1=1", "-Gmclimit=0.1", "-Gsplines=line")
# The heads of the four sorts; an inhibitor arc ends at the upper side, away from those that take.
HEADS = {BASIC: "arrowhead=normal", POST: "arrowhead=normal", TEST: "arrowhead=dot",
         INHIBITOR: "arrowhead=odot, headport=n"}
LEGEND = ((ARC, TEST, "\u2014\u25cf looks for tokens and leaves them (test)"),
          (ARC, INHIBITOR, "\u2014\u25cb must find fewer tokens (inhibitor)"),
          (PRIORITY, 0, "- - \u25b8 goes first (priority)"))


def options(parser):
    parser.add_argument("-o", metavar="FILE", dest="out", default="net.svg", help="where to draw; net.svg if none")


def do(asked):
    ending = Path(asked.out).suffix
    if ending not in ENDINGS:
        raise Wrong(asked.out, f"the ending '{ending}'", f"one of {', '.join(ENDINGS)}")
    net = read_net(asked.net, asked.names).whole()
    _, answer = ask(net.table())
    drawing = dot_of(net, answer)
    if ending == ".dot":
        Path(asked.out).write_text(drawing, encoding="utf-8")
    else:
        lay_out(drawing, ending[1:], asked.out)
    print(f"{asked.out}: {told(net, answer)[0]}")
    return 0


def lay_out(drawing, form, out):
    """Hands a drawing to Graphviz, which is installed if it is not there."""
    if not shutil.which("dot"):
        subprocess.run([START.parent / "install", "graphviz"], capture_output=True, check=False)
    if not shutil.which("dot"):
        raise Wrong("dot", "no such command", "Graphviz, Debian's package graphviz")
    quick = QUICK if drawing.count("->") > MANY_ARCS else ()
    done = subprocess.run(["dot", f"-T{form}", *quick], input=drawing.encode(), capture_output=True, check=False)
    if done.returncode:
        raise Wrong("dot", done.stderr.decode().strip(), "a drawing that it lays out")
    Path(out).write_bytes(done.stdout)


def dot_of(net, answer):
    """The drawing in Graphviz's language."""
    places, transitions = stand_out(net, answer)
    records = [record for record in net.records if words_for(record)]
    marked = {record.first for record in records if record.kind == PLACE and record.low}
    lines = [node(net, records, "PLACE", number, number in places) for number in net.numbers()["PLACE"]]
    lines += [node(net, records, "TRANSITION", number, number in transitions) for number in net.numbers()["TRANSITION"]]
    for record in sorted(records, key=lambda record: record.low != 1):  # what has a weight is drawn over the others
        if record.kind == ARC:
            shares = record.sort == BASIC and record.first in places and record.second in transitions
            lines.append(arc(record, record.first in marked, shares))
        if record.kind == PRIORITY:
            lines.append(f't{record.first} -> t{record.second} [style=dashed, color="{GREY}", constraint=false]')
    return "\n".join(["digraph net {", *look(net, answer, len(net.records) - len(records)), *lines, "}", ""])


def stand_out(net, answer):
    """The places and the transitions that an answer about the whole net points at."""
    if answer.number == 9:
        pair = divmod(answer.where, 64)
        return shared(net, *pair), pair
    if answer.number == 7 and answer.where < 128:
        return [answer.where], ()
    return (), [answer.where % 128] if answer.number in (7, 8) else ()


def look(net, answer, left_out):
    """How everything looks, and the caption."""
    said = told(net, answer)[:1 if answer.number == 0 else 3]
    there = {(record.kind, record.sort) for record in net.records}
    legend = [text for kind, sort, text in LEGEND if (kind, sort) in there]
    legend += [f"{left_out} records that the notation has no words for are not drawn"] if left_out else []
    answered = "<br/>".join(escape(line.strip(" :")) for line in said)
    colour, name = RED if answer.number else "black", escape(Path(net.path).name)
    caption = f'<font color="{colour}"><b>{name}</b>: {answered}</font>'
    caption = "<br/>".join([caption, *map(escape, legend)])
    font = 'fontname="Helvetica,Arial,sans-serif"'
    return [f"graph [rankdir=LR, nodesep=0.35, ranksep=0.45, labelloc=b, fontsize=15, label=<{caption}>, {font}]",
            f'node [{font}, fontsize=12, margin="0.02,0.02"]',
            f"edge [{font}, fontsize=12, arrowsize=0.8]"]


def node(net, records, family, number, stands_out):
    """A place as a circle or a transition as a box."""
    kind, letter, shape = (PLACE, "p", "circle") if family == "PLACE" else (TRANSITION, "t", "box")
    own = of(records, kind, number)
    rows = [f"<b>{escape(net.names.name(family, number))}</b>"]
    rows += (place_rows if kind == PLACE else transition_rows)(net, records, number, own[0] if own else None)
    style = "" if own else ", style=dashed"
    style += ', margin="0.08,0.06"' if kind == TRANSITION else ""
    style += f', color="{RED}", fontcolor="{RED}", penwidth=3' if stands_out else ""
    return f"{letter}{number} [shape={shape}, label=<{boxed(rows)}>{style}]"


def boxed(rows, colour="transparent"):
    """Rows of a label, one below the other."""
    cells = "".join(f"<tr><td>{row}</td></tr>" for row in rows)
    return f'<table border="0" cellborder="0" cellspacing="0" cellpadding="1" bgcolor="{colour}">{cells}</table>'


def small(text):
    return f'<i><font point-size="10">{escape(text)}</font></i>'


def place_rows(net, records, number, own):
    """A place's tokens and actions."""
    tokens = own.low if own else 0
    rows = ["\u25cf" * tokens if tokens <= 4 else f"{tokens} \u25cf"] if tokens else []
    return rows + [small(net.names.name("ACTION", record.second)) for record in of(records, ACTION, number)]


def transition_rows(net, records, number, own):
    """A transition's interval, conditions and functions."""
    rows = []
    if own and own.sort:
        rows.append(f"[{own.low},{own.high}]" if own.sort == 1 else f"[{own.low},\u221e)")
    rows += [f"if {'not ' if record.sort else ''}{escape(net.names.name('CONDITION', record.second))}"
             for record in of(records, CONDITION, number)]
    return rows + [small(net.names.name("FUNCTION", record.second)) for record in of(records, FUNCTION, number)]


def of(records, kind, number):
    """The records of a kind that say something of a number."""
    return [record for record in records if (record.kind, record.first) == (kind, number)]


def arc(record, marked, stands_out):
    """An arc, its head by its sort and its weight if that is above 1. What puts tokens back into a place that has some
    at first is laid out backwards, so that the drawing begins with those places."""
    head, style = HEADS[record.sort], ""
    ends = f"p{record.first} -> t{record.second}"
    if record.sort == POST and marked:
        head = "dir=back, arrowtail=normal"
    elif record.sort == POST:
        ends = f"t{record.second} -> p{record.first}"
    if record.low != 1:
        style += f", label=<{boxed([record.low], 'white')}>"
    style += f', color="{RED}", fontcolor="{RED}", penwidth=3' if stands_out else ""
    return f"{ends} [{head}{style}]"
