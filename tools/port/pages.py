#!/usr/bin/env python3
"""Run at the top, with a list of names (old, new and crate, a tab between): brings names of definitions and lemmas that pages cite in backticks to today's spelling."""

import re
import sys

names, pages = sys.argv[1], sys.argv[2:]
turn, several = {}, set()
with open(names, encoding="utf-8") as f:
    for line in f:
        old, new, _ = line.rstrip("\n").split("\t")
        if turn.setdefault(old, new) != new:
            several.add(old)
for old in several:
    del turn[old]
TOKEN = re.compile(r"[^\s(){};,.«»\"|\[\]`:/*]+")
for page in pages:
    with open(page, encoding="utf-8") as f:
        text = old = f.read()
    text = re.sub(r"`[^`\n]+`", lambda m: TOKEN.sub(lambda t: turn.get(t[0], t[0]), m[0]), text)
    if text != old:
        with open(page, "w", encoding="utf-8") as f:
            f.write(text)
        print(page, sum(a != b for a, b in zip(old.split("\n"), text.split("\n"))), "lines")
