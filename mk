#!/usr/bin/env python3
"""mk: one command for the people who keep nets. It reads and writes notations and pictures; what judges or runs a net
is the proved program."""
import argparse
import importlib
import os
import sys

sys.pycache_prefix = os.path.join(os.path.dirname(os.path.realpath(__file__)), "target", "python")
from tools.notation import Wrong  # noqa: E402: compiled files go below target/

VERBS = ("table", "text", "check", "run", "day", "draw", "waves")
ABOUT = """Keeps nets: as text, as tables, as drawings, as waves. Every verb reads NET as a .net text or as a .bin
table, whose names are plain (p3 is place 3, t0 transition 0) or come from a file. The engine alone judges and runs a
net, and counts what fired."""
EXAMPLE = "example:\n  mk check examples/five-am.net\n\nmk VERB --help tells more."
ENDS = """exit status:
  0  done
  1  the engine refused
  2  could not be tried; standard error says one of

  FILE: found no such file, expected ..
  FILE: found a folder, expected ..
  FILE: found the ending '..', expected ..
  FILE: found NUMBER bytes, expected whole records: a length that is a multiple of 8
  FILE: found names for .., expected a .bin table: a text has its own names
  FILE: found .., expected a file that can be read and written
  FILE: found no such folder, expected a folder to write into
  FILE: found a file that the run reads or keeps already, expected a file of its own
  FILE:LINE: found '..', expected a line that begins with one of: ..
  FILE:LINE: found '..', expected one of these forms: ..
  FILE:LINE: found '..', expected a name in place of '..', which is a word of the notation
  FILE:LINE: found NUMBER, expected a number from 0 to NUMBER
  FILE:LINE: found .. for .., expected one name; it is .. already
  FILE:LINE: found .. for .., expected another name: .. is ..
  FILE:LINE: found .., expected a plain name up to 255, as .., or a name that is no letter and number
  FILE:LINE: found one .. too many, .., expected at most 256 of a family
  FILE:LINE: found '..', expected conditions of the net (..), or '-' alone
  FILE:LINE: found .., condition NUMBER, expected conditions 0 to 63: a word has no bit for others
  PROGRAM: found .., expected a program that ran to its end line
  PROGRAM: found .., expected a command that starts ..
  PROGRAM: found .., expected the answer of the sequencer, ..
  PROGRAM: found .., expected a program that leaves report.bin and image.bin
  PROGRAM: found .., expected the lines cycles, fired, change
  dot: found .., expected Graphviz, Debian's package graphviz
  dot: found .., expected a drawing that it lays out"""


def reader():
    """What the command line may say."""
    shape = argparse.RawDescriptionHelpFormatter
    parser = argparse.ArgumentParser("mk", description=ABOUT, formatter_class=shape,
                                     epilog=f"{ENDS}\n\n{EXAMPLE}")
    verbs = parser.add_subparsers(metavar="VERB", required=True)
    for name in VERBS:
        verb = importlib.import_module(f"tools.{name}")
        below = verbs.add_parser(name, help=verb.DOES, description=verb.ABOUT, formatter_class=shape,
                                 epilog=f"example:\n{verb.EXAMPLE}")
        below.add_argument("net", metavar="NET", help="a .net text or a .bin table")
        verb.options(below)
        below.add_argument("--names", metavar="FILE",
                           help="names for a .bin table: lines 'name place 3 card_a', or a .net text")
        below.set_defaults(do=verb.do)
    return parser


def main():
    asked = reader().parse_args()
    try:
        return asked.do(asked)
    except Wrong as wrong:
        print(wrong, file=sys.stderr)
    except BrokenPipeError:
        raise
    except OSError as trouble:
        print(Wrong(trouble.filename, trouble.strerror.lower(), "a file that can be read and written"), file=sys.stderr)
    return 2


if __name__ == "__main__":
    try:
        status = main()
        sys.stdout.flush()
    except BrokenPipeError:  # whoever reads the lines has had enough of them
        os.dup2(os.open(os.devnull, os.O_WRONLY), sys.stdout.fileno())
        status = 0
    except KeyboardInterrupt:
        status = 2
    sys.exit(status)
