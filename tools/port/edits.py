#!/usr/bin/env python3
"""Run at the top, with the list of names that names.py printed: brings each must-fail edit's texts to today's spelling, and says which do not stand.

A text of src/ or specs/ that does not stand once in its file, as the earlier pairs left it, is turned name by name and asked for again. With --look nothing is
written. What stays is printed, with the lines of the file that are nearest, to be brought over by hand.
"""

import difflib
import glob
import os
import re
import sys

sys.path.insert(0, os.path.dirname(os.path.realpath(__file__)))
from common import TOKEN, read, snake

args = [a for a in sys.argv[1:] if a != "--look"]
look = "--look" in sys.argv
turn = {}
for line in read(args[0]).split("\n") if args else []:
    old, tab, new = line.partition("\t")
    if tab:
        turn[old] = new


# the library's words
LENT = {"getD": "get_or", "ofBits": "of_bits"}


def spelled(text):
    """The text in today's names and clauses."""
    text = re.sub(r"ensures \{ λ (\w+)\. ⌜ (.*) ⌝ \}", lambda m: "ensures { " + re.sub(rf"(?<![\w.]){m[1]}(?!\w)", "result", m[2]) + " }", text)
    text = re.sub(r"now \((\w+) \.entry\)", r"\1.old", text)
    text = re.sub(r"now \((\w+) \.exit\)", r"\1.new", text)
    text = re.sub(r"\((\w+) \.(\w[\w-]*)\)", r"\1.\2", text)
    text = re.sub(r"(\w|\)) \.([a-z]\w*)", r"\1.\2", text)
    return TOKEN.sub(lambda m: LENT.get(m[0]) or turn.get(m[0]) or (snake(m[0]) if re.search(r"[a-z][A-Z]", m[0]) and m[0][0].islower() else m[0]), text)


def declares(crate, name):
    return any(re.search(rf"(?m)^\s*(?:pub )?{name} :", read(it)) for it in glob.glob(f"{crate}/proofs/**/*.antt", recursive=True))


def nearest(text, whole):
    return difflib.get_close_matches(text, whole.split("\n"), 3, 0.3)


edits = stale = 0
for path in sorted(glob.glob("crates/*/must-fail/*.edit")):
    crate = path.split("/must-fail/")[0]
    edits += 1
    texts, out, file, old, said = {}, [], "", None, []
    for line in read(path).split("\n"):
        if line.startswith("file: "):
            file = line[6:]
        elif line.startswith("old: "):
            old = line[5:]
            if file not in texts:
                texts[file] = read(os.path.join(crate, file))
            if texts[file].count(old) != 1 and texts[file].count(spelled(old)) == 1:
                old = spelled(old)
            if texts[file].count(old) != 1:
                said.append(f"{file}: stands {texts[file].count(old)} times: {old}\n" + "\n".join("      " + near for near in nearest(old, texts[file])))
            line = "old: " + old
        elif line.startswith("new:"):
            new = line[4:].removeprefix(" ")
            if file.endswith(".antt"):
                new = spelled(new)
                line = "new: " + new
            if texts[file].count(old) == 1:
                texts[file] = texts[file].replace(old, new)
        elif line.startswith("# breaks theorem "):
            theorem = turn.get(line[17:].split(":")[0], snake(line[17:].split(":")[0]))
            if not theorem.endswith("_lem") and declares(crate, theorem + "_lem"):
                theorem += "_lem"
            if not declares(crate, theorem):
                said.append(f"no theorem {theorem}")
            line = f"# breaks theorem {theorem}:" + line[17:].partition(":")[2]
        elif line.startswith("# breaks "):
            function = line[9:].split(":", 1)[0] if "::" not in line[9:].split(": ")[0] else line[9:].split(": ")[0]
            if not any(re.search(rf"\bfn {function.split('::')[-1]}\b", read(it)) for it in glob.glob(f"{crate}/src/*.rt")):
                said.append(f"no function {function}")
        out.append(line)
    if said:
        stale += 1
        print(path)
        for s in said:
            print("   ", s)
    if not look and "\n".join(out) != read(path):
        with open(path, "w", encoding="utf-8") as f:
            f.write("\n".join(out))
print(f"edits whose texts stand in their files: {edits - stale} of {edits}")
