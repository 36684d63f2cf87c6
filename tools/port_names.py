#!/usr/bin/env python3
"""port_names.py [REPOSITORY]: brings the repository's own names to the spelling of today's Rattle, once, after port.py.

Definitions, lemmas, fields and constructors are in snake case, types in camel case: `bad-length` becomes bad_length and
`Load-asks` LoadAsks. What the library or Rattle itself names keeps its name. The sources of antt and the clauses and
comments of Rattle are turned, then the names between backticks in the pages, and the texts of the edits that must fail,
where the older spelling of a name may still stand. It prints names that would fall together.
"""
import collections
import glob
import os
import re
import sys

os.chdir(sys.argv[1] if len(sys.argv) > 1 else ".")

# A dash that joins two names stays: the laws of `bit` at `bit_or` and `bit_and`, which are the library's names.
STAY = {"bit-or", "bit-and"}
# Names that another rule decides: a net is a value that has the page's letter, and the library's getD is get_or.
OWN = {"N-unsettled": "N_unsettled", "getD-listed": "get_or_listed"}
# A type that port.py itself gave an underscore.
AGAIN = {"Goes_on": "GoesOn"}

WORD = re.compile(r"(?<![\w'′₀-])([^\W\d_][\w'′]*(?:-[\w'′]+)+)(?![\w'′-])")
MARKS = r"(?:(?:abbrev|unfoldable|pub|record|data|module)\s+)*"
DECLARED = [
    re.compile(rf"^\s*{MARKS}([^\s:{{}}()\[\],;.|]+)(?:\s[^:]*)?\s:\s"),
    re.compile(r"^\s*\|\s*(?:pub\s+)?([^\s:{}()\[\],;.|]+)\s:\s"),
]
# The names of goals, places and loops are Rattle's.
MADE = re.compile(r"(?:Need|After|In|Left|Joined|the)-|loop-test$")


def read(file):
    with open(file, encoding="utf-8") as text:
        return text.read()


def write(file, text):
    with open(file, "w", encoding="utf-8") as out:
        out.write(text)


def spelled(name):
    if name in OWN:
        return OWN[name]
    if name[0].isupper():
        return "".join(part[:1].upper() + part[1:] for part in name.split("-"))
    return name.replace("-", "_")


antt = sorted(glob.glob("crates/*/specs/**/*.antt", recursive=True) + glob.glob("crates/*/proofs/**/*.antt", recursive=True))
rattle = sorted(glob.glob("crates/*/src/**/*.rt", recursive=True))
crates = {os.path.basename(folder) for folder in glob.glob("crates/*")}

declared = set()
for file in antt:
    for line in read(file).split("\n"):
        for form in DECLARED:
            found = form.match(line)
            if found and "-" in found.group(1) and WORD.fullmatch(found.group(1)):
                declared.add(found.group(1))
declared -= STAY


def foreign(text):
    """The names that a file takes from the library."""
    names = set()
    for path, listed in re.findall(r"\buse ([\w.]+)\.\{([^}]*)\}", text):
        parts = path.split(".")
        if parts[0] != "Rattle" or parts[1] not in crates:
            names |= {word.strip() for word in listed.split(",") if " as " not in word}
    return names


words = collections.Counter()
for file in antt + rattle:
    words.update(set(re.findall(r"[\w'-]+", read(file))))
meet = collections.defaultdict(list)
for name in sorted(declared):
    meet[spelled(name)].append(name)
for new, names in meet.items():
    if len(names) > 1 or words[new]:
        print(f"port_names: {', '.join(names)} becomes {new}" + (", which stands already" if words[new] else ""))

functions = {name for file in rattle for name in re.findall(r"\bfn (\w+)", read(file)) if "_" in name}
OTHERS = {"type-inv": "type_inv"}
COMMENT = re.compile(r"^\s*(--|//)")


def made(name):
    """The name that Rattle makes of a function's, which keeps the source's spelling."""
    stem = name.rstrip("0123456789").replace("-", "_")
    return name.replace("-", "_") if stem in functions else OTHERS.get(name, name)


def ours(text, place):
    """Is the import at a place one of this repository's?"""
    path = text[text.rindex("use ", 0, place) + 4 : place].split(".")
    return path[0] == "Rattle" and path[1] in crates


def turn(file, text):
    """A file in today's spelling: names that are declared everywhere, and names that are bound in proofs and definitions."""
    keep = foreign(text)
    # `or-false as or_none`: before `as` the library's name stays and ours is turned, though the other may stand in the file.
    text = re.sub(
        r"([\w'-]+-[\w'-]+)(?= as )",
        lambda m: spelled(m.group(0)) if ours(text, m.start()) else "\0" + m.group(0),
        text,
    )
    aliases = set(re.findall(r" as ([\w'-]+-[\w'-]+)", text))

    def one(match, binds):
        name, before = match.group(1), match.string[: match.start()]
        if before.endswith("\0"):
            return name
        if name in keep and name not in aliases or name in STAY:
            return name
        if name in declared or name in aliases:
            return spelled(name)
        if not binds or MADE.match(name) or before.endswith("tie."):
            return name
        return made(name) if before.endswith(".") else spelled(name)

    lines = []
    for line in text.split("\n"):
        binds = file.endswith(".antt") and not COMMENT.match(line)
        lines.append(WORD.sub(lambda match: one(match, binds), line))
    return "\n".join(lines).replace("\0", "")


turned = 0
for file in antt + rattle:
    text = read(file)
    new = turn(file, text)
    for name, type_name in AGAIN.items():
        new = re.sub(rf"\b{name}\b", type_name, new)
    if new != text:
        turned += 1
        write(file, new)

# In pages and edits the spelling may be that of before port.py, which turned some dashes itself.
older = {}
for name in declared | {w for w in words if "_" in w and "-" not in w}:
    older.setdefault(name.replace("-", "_"), spelled(name))
for name in declared:
    older[name.replace("-", "_")] = spelled(name)


def aged(match):
    word = match.group(1)
    if word in STAY:
        return word
    return older.get(word.replace("-", "_").replace("′", "'"), word)


for page in ["README.md"] + sorted(glob.glob("docs/**/*.md", recursive=True)):
    if os.path.basename(page).startswith("PORT"):
        continue
    text = read(page)
    new = re.sub(r"`[^`\n]+`", lambda m: WORD.sub(aged, m.group(0)), text)
    if new != text:
        turned += 1
        write(page, new)
for edit in sorted(glob.glob("crates/*/must-fail/*.edit")):
    lines = read(edit).split("\n")
    new = [WORD.sub(aged, line) if line.startswith(("old:", "new:")) else line for line in lines]
    if new != lines:
        turned += 1
        write(edit, "\n".join(new))
print(f"port_names: {len(declared)} names, {turned} files")
