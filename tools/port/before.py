#!/usr/bin/env python3
"""Run at the top before port.py: two things that it stumbles over here.

1. It takes a repository with a field `side_of` for one that is turned already, and then leaves out two thirds of its steps.
2. It turns `at-cut` and `atCut` into one name. A lemma or field whose dashed name falls together with a definition's gets `-lem`, as std's do.
"""

import os
import re
import sys

sys.path.insert(0, os.path.dirname(os.path.realpath(__file__)))
from common import TOKEN, declared, of_function, read, snake, texts

top = sys.argv[1] if len(sys.argv) > 1 else "."
found, fields = declared(top)
# theorem_unique's fields have the functions' own names, and no lemma stands beside them
plain = {snake(n) for n, at in found.items() if "-" not in n and not all("/theorem_unique/" in p for p in at)}
lent = {}
for path in texts(top):
    text = read(path)
    for at, names in re.findall(r"(?m)^use ([^\s{]+)\.\{([^}]*)\}", text):
        if not at.startswith("Rattle"):
            for n in re.split(r"[,\s]+", names):
                lent.setdefault(snake(n), set()).add(path)
dashed = [n for n in found if "-" in n and n[0].islower()]
falling = {n for n in dashed if snake(n) in plain}


def crate(path):
    return re.search(r"crates/([^/]+)/", path)[1]


# what falls together with a name of the library is turned in its own crate alone
by_library = {(n, crate(p)) for n in dashed for p in lent.get(snake(n), set()) & found[n]}


def turned(path, text):
    def one(m):
        name = m[0]
        if name not in falling and (name, crate(path)) not in by_library:
            return name
        before = text[max(0, m.start() - 2) : m.start()]
        # a step that Rattle named after a call, as in `c .first-refused .ensures`
        if before.endswith(" .") and (of_function(path) or name not in fields):
            return name
        return name + "-lem"

    return TOKEN.sub(one, text)


for path in texts(top):
    text = old = read(path)
    if "/theorem_unique/" in path:
        text = re.sub(r"^(  (?:pub )?)side_of( [:=])", r"\1sideOf\2", text, flags=re.M)
    text = turned(path, text)
    if text != old:
        with open(path, "w", encoding="utf-8") as f:
            f.write(text)
print("fall together, so the dashed one got -lem:", " ".join(sorted(falling | {n for n, _ in by_library})))
