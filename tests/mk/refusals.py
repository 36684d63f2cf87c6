"""refusals.py REPOSITORY SCRATCH: causes, as a user would, each message that mk's help promises, and each answer of the
engine, and holds what is printed and the exit status to them."""
import os
import re
import struct
import subprocess
import sys
from pathlib import Path

REPOSITORY, SCRATCH = Path(sys.argv[1]).resolve(), Path(sys.argv[2])
os.chdir(SCRATCH)
GOOD = "place p 1\ntransition t\nbasic p -> t\nwants t ok\n"
FILES = {
    "good.net": GOOD, "good.words": "ok\n-\n", "good.txt": GOOD, "names": "name place 0 slot\nname condition 0 ok\n",
    "verb.net": "place p\nplaze q\n", "form.net": "place p\nbasic p t\n", "raw.net": "raw 01 02\n",
    "reserved.net": "place timed\n", "large.net": "place p 70000\n", "byte.net": "name place 256 p\n",
    "two.net": "name place 1 a\nname place 1 b\n", "again.net": "name place 1 a\nname place 2 a\n",
    "plain.net": "name place 1 p2\n", "beyond.net": "place p256\n",
    "many.net": "".join(f"place x_{k}\n" for k in range(257)),
    "typo.words": "ok\nko\n", "wide.net": "wants t0 c70\n", "wide.words": "c70\n",
    "words.bin": bytes(24), "odd.bin": b"\1\0\0\0\0\0\0\0\2", "good.bin": struct.pack("<BBBBHH", 1, 0, 0, 0, 1, 0),
}
# What is asked, and a part of what standard error says.
TROUBLE = (
    ("check nowhere.net", "nowhere.net: found no such file"),
    ("check folder", "folder: found a folder"),
    ("text good.bin --names nowhere", "nowhere: found no such file"),
    ("run good.net nowhere.words", "nowhere.words: found no such file"),
    ("check good.txt", "good.txt: found the ending '.txt'"),
    ("run good.net good.txt", "good.txt: found the ending '.txt', expected words"),
    ("draw good.net -o net.gif", "net.gif: found the ending '.gif'"),
    ("waves good.net good.words -o run.png", "run.png: found the ending '.png'"),
    ("text odd.bin", "odd.bin: found 9 bytes"),
    ("table odd.bin", "odd.bin: found 9 bytes"),
    ("draw odd.bin", "odd.bin: found 9 bytes"),
    ("text good.net --names names", "names: found names for good.net"),
    ("draw good.net -o nowhere/net.svg", "nowhere/net.svg: found no such file or directory"),
    ("table good.net -o nowhere", "nowhere: found no such folder"),
    ("run good.net good.words --report nowhere/report.bin", "nowhere/report.bin: found no such folder"),
    ("run good.net good.words --report report.txt", "report.txt: found the ending '.txt', expected a .bin file to"),
    ("run good.net good.words --image image", "image: found the ending '', expected a .bin file to keep"),
    ("run good.net good.words --image folder.bin", "folder.bin: found a folder, expected a .bin file to keep"),
    ("run good.net words.bin --report words.bin", "words.bin: found a file that the run reads or keeps already"),
    ("run good.net good.words --report one.bin --image ./one.bin", "found a file that the run reads or keeps already"),
    ("day good.net nowhere.bin", "nowhere.bin: found no such file, expected a report"),
    ("day good.net words.bin folder.bin", "folder.bin: found a folder, expected a report"),
    ("day good.net good.words", "good.words: found the ending '.words', expected a report: a .bin file"),
    ("check verb.net", "verb.net:2: found 'plaze', expected a line that begins with one of: place, transition, basic"),
    ("check form.net", "form.net:2: found 'basic p t', expected one of these forms: basic PLACE -> TRANSITION, basic"),
    ("check raw.net", "raw.net:1: found 'raw 01 02', expected one of these forms: raw BYTE BYTE"),
    ("check reserved.net", "reserved.net:1: found 'place timed', expected a name in place of 'timed'"),
    ("check large.net", "large.net:1: found 70000, expected a number from 0 to 65535"),
    ("check byte.net", "byte.net:1: found 256, expected a number from 0 to 255"),
    ("check two.net", "two.net:2: found b for place 1, expected one name; it is a already"),
    ("check again.net", "again.net:2: found a for place 2, expected another name: a is place 1 already"),
    ("check plain.net", "plain.net:1: found p2 for place 1, expected another name: p2 is place 2"),
    ("check beyond.net", "beyond.net:1: found place p256"),
    ("check many.net", "many.net:257: found one place too many, x_256"),
    ("run good.net typo.words", "typo.words:2: found 'ko', expected conditions of the net (ok), or '-' alone"),
    ("run wide.net wide.words", "wide.words:1: found c70, condition 70"),
    ("check good.net MOEZELKRING=true", "sequencer: found status 0 and no end line"),
    ("check good.net MOEZELKRING=/nowhere/program", "/nowhere/program: found No such file"),
    ("waves good.net good.words MOEZELKRING_STATES=echo_end", "states: found the answer"),
    ("run good.net good.words --report one.bin MOEZELKRING_STATION=accept", "station: found no report.bin"),
    ("run good.net good.words --report one.bin MOEZELKRING_STATION=unwritten", "station: found report.bin cannot be"),
    ("day good.net MOEZELKRING_DAY=accept", "day: found 0 lines before its end line"),
    ("draw good.net PATH", "dot: found no such command"),
    ("draw good.net DOT", "dot: found it did not go well, expected a drawing"),
)
# A net for each answer of the engine, and a part of what is told; the words are one empty cycle.
ANSWERS = (
    ("length", b"\1\0\0\0\0\0\0\0\2", "9 bytes; a table is whole records of 8 bytes"),
    ("kind", "raw 09 00 00 00 00 00 00 00\n", "record 0, answer.net:1: raw 09 00 00 00 00 00 00 00"),
    ("field", "place p\ntransition t\nbasic p -> t weight 0\n",
     "record 2, answer.net:3: basic p -> t weight 0\n  one of its numbers is out of range"),
    ("twice", "place p\nplace p 2\n", "record 1, answer.net:2: place p 2\n  said before in answer.net:1: place p"),
    ("unknown", "place p\npost t -> p\n", "transition 0 t has no line of its own"),
    ("empty", "place p\n", "the net has no transition"),
    ("isolated", "place p\ntransition t\ntransition u\npost t -> p\n",
     "transition 1 u has no arc\n    answer.net:3: transition u"),
    ("circle", "place p\ntransition t\ntransition u\npost t -> p\npost u -> p\nabove t u\nabove u t\n",
     "transition 0 t stands above itself:\n    answer.net:6: above t u\n    answer.net:7: above u t"),
    ("conflict", "place p\ntransition t\ntransition u\nbasic p -> t\nbasic p -> u\n",
     "both take from place 0 p:\n    answer.net:4: basic p -> t\n    answer.net:5: basic p -> u"),
    ("full", "place p 65535\ntransition t\npost t -> p\n",
     "place 0 p would hold more than 65535 tokens in cycle 1; into it put:\n    answer.net:3: post t -> p"),
)


# What the words of a promised message stand for.
STAND_FOR = ((r"\.\.", ".*"), ("FILE", r"\S+"), ("LINE", r"\d+"), ("NUMBER", r"\d+"), ("PROGRAM", r"\S+"))


def mk(words, **changed):
    return subprocess.run([REPOSITORY / "mk", *words.split()], capture_output=True, text=True, check=False,
                          env={**os.environ, **changed})


def promised():
    """The messages that the help promises, as patterns."""
    lines = re.findall(r"^  ((?:FILE|PROGRAM|dot)\S*: found .*)", mk("--help").stdout, re.M)
    for line in lines:
        pattern = re.escape(line)
        for word, stands_for in STAND_FOR:
            pattern = pattern.replace(word, stands_for)
        yield re.compile(pattern, re.S)


def hold_trouble():
    """Each message once at least, none that the help does not promise, and always exit status 2."""
    left = patterns = list(promised())
    for said, wanted in TROUBLE:
        words = [word for word in said.split() if "=" not in word and word not in ("PATH", "DOT")]
        changed = dict(word.split("=") for word in said.split() if "=" in word)
        changed = {name: str(SCRATCH / value) if Path(value).exists() else value for name, value in changed.items()}
        if said.endswith("PATH"):  # a machine that has no Graphviz and cannot get it
            changed.update(PATH=str(SCRATCH / "bare"), MOEZELKRING=str(SCRATCH / "accept"))
        if said.endswith("DOT"):
            changed["PATH"] = f"{SCRATCH / 'dot'}:{os.environ['PATH']}"
        done = mk(" ".join(words), **changed)
        if done.returncode != 2 or wanted not in done.stderr or done.stdout:
            sys.exit(f"mk: mk {said}: ended with {done.returncode}, {done.stdout}{done.stderr} wanted {wanted}")
        fit = [pattern for pattern in patterns if pattern.match(done.stderr)]
        if not fit:
            sys.exit(f"mk: mk {said}: the help does not promise {done.stderr}")
        left = [pattern for pattern in left if pattern not in fit]
    if left:
        sys.exit(f"mk: no case causes {left[0].pattern}")
    for said in ("", "fly net.bin", "check", "run good.net"):
        if mk(said).returncode != 2:
            sys.exit(f"mk: mk {said} does not end with 2")


def hold_answers():
    """Every answer that a table or its words can get is told in names, with exit status 1."""
    Path("one.bin").write_bytes(bytes(8))
    for word, net, wanted in ANSWERS:
        name = "answer.net" if isinstance(net, str) else "answer.bin"
        Path(name).write_bytes(net.encode() if isinstance(net, str) else net)
        for verb in ("check", "run", "day") if word != "full" else ("run",):
            done = mk(f"{verb} {name}" + (" one.bin" if verb == "run" else ""))
            if done.returncode != 1 or f"refused: {word} (answer" not in done.stdout or wanted not in done.stdout:
                sys.exit(f"mk: mk {verb}, answer '{word}': ended with {done.returncode}, {done.stdout}{done.stderr}")
    Path("long.bin").write_bytes(bytes(8 * 513))
    for words in ("long.bin", "odd.bin"):
        done = mk(f"run good.net {words}")
        if done.returncode != 1 or "refused: words (answer 11" not in done.stdout:
            sys.exit(f"mk: words that are too long or odd: {done.returncode}, {done.stdout}{done.stderr}")
    done = mk("run --raw good.net long.bin")
    if done.stdout != "end 11 0 0\n" or "at most 512 cycles" not in done.stderr:
        sys.exit(f"mk: --raw: {done.stdout}{done.stderr}")
    if mk("waves good.net long.bin -o long.vcd").returncode != 1 or Path("long.vcd").exists():
        sys.exit("mk: refused words have waves")


def hold_good():
    """What is not refused: names in a run, a table's own names, help for every verb, no colours off a terminal."""
    done = mk("run good.net good.words")
    if done.stdout != "cycle 1: fired t\ncycle 2: fired nothing\naccepted: 2 cycles\n" or done.returncode:
        sys.exit(f"mk: run: {done.stdout}{done.stderr}")
    if mk("text good.bin --names names").stdout != "place slot 1\n" or mk("text good.bin").stdout != "place p0 1\n":
        sys.exit("mk: text does not take its names from the file")
    if mk("check good.net").stdout != "accepted: the net is well defined\n":
        sys.exit("mk: check does not say accepted")
    for verb in ("table", "text", "check", "run", "day", "draw", "waves"):
        done = mk(f"{verb} --help")
        if done.returncode or f"example:\n  mk {verb} " not in done.stdout:
            sys.exit(f"mk: mk {verb} --help has no example")


def main():
    for name, content in FILES.items():
        Path(name).write_bytes(content if isinstance(content, bytes) else content.encode())
    for folder in ("folder", "folder.bin", "bare", "dot"):
        Path(folder).mkdir()
    for tool, real in (("python3", sys.executable), ("bash", "/bin/bash"), ("env", "/usr/bin/env")):
        Path("bare", tool).symlink_to(real)
    for script, says in (("dot/dot", "echo it did not go well >&2; exit 1"), ("echo_end", "echo end 7 7 7"),
                         ("accept", "echo end 0 0 0"),
                         ("unwritten", "echo report.bin cannot be written; echo end 0 0 1")):
        Path(script).write_text(f"#!/bin/bash\n{says}\n", encoding="utf-8")
        Path(script).chmod(0o755)
    hold_trouble()
    hold_answers()
    hold_good()
    print(f"mk: {len(TROUBLE)} kinds of trouble and {len(ANSWERS) + 1} answers, each as the help says")


main()
