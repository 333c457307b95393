#!/usr/bin/env python3
"""Run at the top after port.py: brings the names that the repository declares itself to snake case, where port.py left humps and dashes.

A name is turned where it stands as a whole word: in specs/ and proofs/, and in clauses, ghost lines and comments of src/, never in code, strings or what Rattle
generates. Prints each pair, old and new. A name whose new spelling another has already is left, and said.
"""

import os
import re
import sys

sys.path.insert(0, os.path.dirname(os.path.realpath(__file__)))
from common import TOKEN, declared, of_function, read, snake, texts

top = sys.argv[1] if len(sys.argv) > 1 else "."
found, fields = declared(top)
# theorem_unique's fields have the functions' own names, and nothing else stands beside them
found = {n: at for n, at in found.items() if "-" in n or not all("/theorem_unique/" in p for p in at)}
turn = {n: snake(n) for n in found if n[0].isalpha() and snake(n) != n}
taken = {}
for old, new in turn.items():
    taken.setdefault(new, []).append(old)
clash = {old for new, olds in taken.items() for old in olds if len(olds) > 1 or new in found}
for old in sorted(clash):
    print("left: falls together:", old, turn[old])
for old in clash:
    del turn[old]


# A name that the file has from a library is the library's.
def lent(text):
    lines = re.findall(r"(?m)^(?:ghost )?use ([^\s{;]+)\.\{([^}]*)\}", text)
    return {n for at, names in lines for n in re.split(r"[,\s]+", names) if not re.match(r"Rattle\.(?!std\b)", at)}


# What a function's own proof declares stays, for Rattle asks for some of those names.
def own(text):
    return set(re.findall(r"(?m)^\s*(?:abbrev )?(?:pub )?([^\s(){};,.:]+)\s*:\s", text))


def turned(text, keep, path):
    def one(m):
        name = m[0]
        if name not in turn or name in keep:
            return name
        # a step that Rattle named after a call, as in `c.first-refused.ensures`
        before = text[max(0, m.start() - 2) : m.start()]
        if of_function(path) and before.endswith(".") and name not in fields and before[:1].islower() and not after_module(text, m.start()):
            return name
        return turn[name]

    return TOKEN.sub(one, text)


def after_module(text, at):
    """Whether what stands before the dot is a module or an import's path, as in `Rattle.laws.proofs.Copies.first-of` and `A.sum-of`."""
    head = re.search(r"([^\s(){};,|\[\]]*)\.$", text[:at])
    return bool(head) and head[1][:1].isupper()


GHOST = re.compile(r"//[^\n]*|ghost use [^;]*;|\b(?:requires|ensures|ghost)\*?(?: \w+)? ?\{")


def source(text, keep):
    """The parts of a .rt file that are clauses, ghost lines or comments are turned."""
    out, at = [], 0
    while True:
        m = GHOST.search(text, at)
        if not m:
            out.append(text[at:])
            return "".join(out)
        end = m.end()
        if m[0].endswith("{"):
            depth = 1
            while depth:
                depth += {"{": 1, "}": -1}.get(text[end], 0)
                end += 1
        out += [text[at : m.start()], turned(text[m.start() : end], keep, "")]
        at = end


for path in texts(top, (".antt", ".rt")):
    old = read(path)
    keep = lent(old) | (own(old) if of_function(path) else set())
    new = source(old, keep) if path.endswith(".rt") else turned(old, keep, path)
    if new != old:
        with open(path, "w", encoding="utf-8") as f:
            f.write(new)
for old in sorted(turn):
    print(f"{old}\t{turn[old]}")
