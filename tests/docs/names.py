"""names.py REPOSITORY: looks up every name that docs/ and README.md write between backticks, and measures their lines.
Of docs/PORT.md, the page of what was there before and is gone, it only measures the lines.

A name is a definition, theorem, field or constructor of a file of antt, a function, type, field, constant, parameter or
local of a file of Rattle, an edit that must fail, a crate, a file or a folder, a verb of mk, or a word of one of the
languages. `Module.name` has to stand in a file Module.antt, `crate::name` in the sources of that crate, `crate/edit` in
its folder must-fail.
"""
import glob
import os
import re
import sys

os.chdir(sys.argv[1])
NAME = r"[^\W\d][\w'-]*"
WORDS = set(
    """rt antt u8 u16 u32 u64 usize i32 bool mut requires ensures where now unfolding omega search
    net.bin words.bin report.bin image.bin csv raw name help cpu qemu64 O3 c11 must-fail target""".split()
)


def read(file):
    with open(file, encoding="utf-8") as text:
        return text.read()


antt, rattle, known = {}, {}, set(WORDS)
for file in glob.glob("crates/*/specs/**/*.antt", recursive=True) + glob.glob("crates/*/proofs/**/*.antt", recursive=True):
    text = read(file)
    names = set(re.findall(rf"^\s*(?:(?:abbrev|unfoldable|pub)\s+)*({NAME})\s+:", text, re.M))
    names |= set(re.findall(rf"^\s*(?:pub )?(?:record|data) ({NAME})", text, re.M))
    antt.setdefault(os.path.basename(file)[:-5], set()).update(names)
    known |= names
for file in glob.glob("crates/*/src/**/*.rt", recursive=True):
    crate = file.split("/")[1]
    names = set(re.findall(r"\b(?:fn|struct|enum|const|mod|let|let mut)\s+(\w+)", read(file)))
    names |= set(re.findall(r"^\s*(?:pub )?(\w+): ", read(file), re.M))
    names |= set(re.findall(r"[(,]\s*(\w+): &?(?:mut )?\[?", read(file)))
    names |= set(re.findall(r"^\s*'(\w+):", read(file), re.M))
    names.add(os.path.basename(file)[:-3])
    rattle.setdefault(crate, set()).update(names)
    known |= names
known |= {os.path.basename(verb)[:-3] for verb in glob.glob("tools/*.py")}
known |= set(antt) | set(rattle)
known |= {os.path.basename(edit)[:-5] for edit in glob.glob("crates/*/must-fail/*.edit")}
known |= set(re.findall(r"\bmk_\w+", read("include/moezelkring.h")))
for plan in read("crates.txt").split("\n"):
    known |= set(plan.split("#")[0].partition(":")[0].split()[:1])
for folder, folders, files in os.walk("."):
    folders[:] = [name for name in folders if name not in (".git", "target", "out")]
    known |= set(files) | set(folders)


def path(name):
    name = name.removeprefix("./").rstrip("/")
    if glob.glob(name) or glob.glob("crates/" + name) or glob.glob("docs/" + name):
        return True
    crate, _, edit = name.partition("/")
    return os.path.exists(f"crates/{crate}/must-fail/{edit}.edit")


def there(span):
    """The parts of a span that are not there."""
    if re.fullmatch(r"-\w+ \w+|-\w+", span) or not re.search(NAME, span):
        return []
    if re.fullmatch(r"[\w./*-]+", span) and ("/" in span or path(span)) and path(span.split(" ")[0]):
        return []
    missing = []
    for word in re.findall(rf"(?:{NAME})(?:(?:::|\.|/)(?:{NAME}))*", span):
        if word in known or path(word):
            continue
        if "::" in word:
            crate, last = word.split("::")[0], word.split("::")[-1]
            if last in rattle.get(crate, ()) or (crate in known and last in known and crate not in rattle):
                continue
        elif "." in word:
            module, _, last = word.partition(".")
            if last in antt.get(module, ()):
                continue
        elif len(word) == 1:
            continue
        missing.append(word)
    return missing


wrong = 0
pages = sorted(glob.glob("docs/**/*.md", recursive=True)) + ["README.md"]
for page in pages:
    code = False
    for number, line in enumerate(read(page).split("\n"), 1):
        if len(line) > 120:
            print(f"docs: {page}:{number}: {len(line)} columns, at most 120")
            wrong += 1
        if line.startswith("```"):
            code = not code
        if code or line.startswith("    ") or page == "docs/PORT.md":  # which names what was there before
            continue
        for span in re.findall(r"`([^`]+)`", line):
            for name in there(span):
                print(f"docs: {page}:{number}: `{name}` is not there")
                wrong += 1
if wrong:
    sys.exit(1)
print(f"docs: every name in {len(pages) - ('docs/PORT.md' in pages)} pages is there")
