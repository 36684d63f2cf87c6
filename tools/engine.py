"""Starting the proved programs: the sequencer, which judges and runs a net; states, which prints what a run leaves;
station, which keeps a run's report and image as files; day, which counts reports."""
import os
import re
import shlex
import subprocess
import sys
import tempfile
import time
from collections import namedtuple
from pathlib import Path
from subprocess import PIPE

from tools.notation import Wrong

START = Path(__file__).resolve().parent.parent / "scripts" / "sequencer"
# Each program with the variable that names another command to start it.
COMMANDS = {"sequencer": "MOEZELKRING", "states": "MOEZELKRING_STATES", "station": "MOEZELKRING_STATION",
            "day": "MOEZELKRING_DAY"}
# An answer; the program day has the reports that it counted in place of cycles.
Answer = namedtuple("Answer", "number where cycles")
FULL = 13  # the answer that refuses a cycle, after the finished ones


def ask(table, words=b"", program="sequencer"):
    """The lines that a program prints for a table and words, without the last, and the answer that the last one has."""
    return launch(program, {"net.bin": table, "words.bin": words}, cycles=len(words) // 8)[:2]


def launch(program, files, arguments=(), cycles=0):
    """Starts a program: the lines that it prints, without the last, the answer that the last one has, and the files
    that it leaves."""
    own = os.environ.get(COMMANDS[program])
    command = [*(shlex.split(own) if own else [str(START), program]), *arguments]
    with tempfile.TemporaryDirectory() as folder:
        # The program looks for its files in the folder that it is started in.
        for name, content in files.items():
            Path(folder, name).write_bytes(content)
        try:
            with subprocess.Popen(command, cwd=folder, stdout=PIPE, stderr=PIPE, text=True) as started:
                lines = list(counted(started.stdout, cycles))
                said = started.stderr.read().strip()
        except OSError as trouble:
            raise Wrong(command[0], trouble.strerror, f"a command that starts {program}") from None
        left = {path.name: path.read_bytes() for path in Path(folder).iterdir()}
    last = re.fullmatch(r"end (\d+) (\d+) (\d+)", lines[-1] if lines else "")
    if not last:
        found = said or f"status {started.returncode} and no end line"
        raise Wrong(program, found, "a program that ran to its end line")
    return lines[:-1], Answer(*map(int, last.groups())), left


def counted(lines, cycles):
    """The lines as they come; on a terminal a run of more than a second says how far it is."""
    began, shown = time.monotonic(), False
    for number, line in enumerate(lines):
        if sys.stderr.isatty() and time.monotonic() - began > 1:
            began, shown = time.monotonic(), True
            print(f"\rcycle {number} of {cycles}", end="", file=sys.stderr, flush=True)
        yield line.rstrip("\n")
    if shown:
        print("\r\033[K", end="", file=sys.stderr, flush=True)


def members(digits):
    """The numbers in a set that is written in hexadecimal digits."""
    number = int(digits, 16)
    return [k for k in range(64) if number >> k & 1]
