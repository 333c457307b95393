#!/usr/bin/env python3
"""Run at the top after chains.py, with the folder that `rt names OUT` wrote: today's walks settle some goals by themselves, as that a byte string is within itself.
What answered such a goal, `(λ c. search rules)`, goes, so that the others stand at their goals again."""

import json
import os
import re
import sys

sys.path.insert(0, os.path.dirname(os.path.realpath(__file__)))
from common import read

top, out = sys.argv[1], sys.argv[2]
only = set(sys.argv[3:])


def spans_of(text, at):
    spans = []
    while at < len(text):
        while at < len(text) and text[at].isspace():
            at += 1
        if at >= len(text) or text[at] == ")":
            break
        start = at
        if text[at] == "(":
            depth = 0
            while True:
                depth += {"(": 1, ")": -1}.get(text[at], 0)
                at += 1
                if not depth:
                    break
        else:
            while at < len(text) and not text[at].isspace() and text[at] not in "()":
                at += 1
        spans.append((start, at))
    return spans


for crate in sorted(os.listdir(os.path.join(out, "crates"))):
    if only and crate not in only:
        continue
    with open(os.path.join(out, "crates", crate, "names.json")) as f:
        listed = json.load(f)
    for k, of in listed.items():
        if not (isinstance(of, dict) and k.endswith(".Lts") and "needs" in of):
            continue
        path = os.path.join(top, "crates", crate, "proofs", *k.split(".", 1)[1][: -len(".Lts")].split("."), "Proof.antt")
        if not os.path.isfile(path):
            continue
        text = read(path)
        at = text.find("tie.spec")
        if at < 0:
            continue
        spans = spans_of(text, at + len("tie.spec"))
        first = 2 * len(of["loops"])
        needs = [new for _, new in of["needs"]]
        given = spans[first:]
        extra = len(given) - len(needs)
        if extra == 0:
            continue
        if extra < 0:
            print(f"{path}: {len(given)} answers for {len(needs)} goals")
            continue

        def two(span):
            t = text[span[0] : span[1]]
            if t.startswith("("):
                return bool(re.match(r"\(λ \S+ \S+\.", t))
            d = re.search(r"(?m)^" + re.escape(t) + r"((?: \S+)*) =", text)
            return bool(d) and len(d[1].split()) == 2

        def plain(span):
            return re.fullmatch(r"\(λ c\. (search rules|refl|tt)\)", text[span[0] : span[1]]) is not None

        # the last fit from the back, where a goal that a call requires has two binders
        ways = {(len(given), len(needs)): []}

        def fit(i, j, seen={}):
            if (i, j) in ways:
                return ways[(i, j)]
            best = None
            if i < len(given):
                asks = re.search(r"requires(-\d+|-in[-_].*|-then.*|-else.*)?$", needs[j]) is not None if j < len(needs) else None
                if j < len(needs) and two(given[i]) == asks:
                    rest = fit(i + 1, j + 1)
                    best = rest if rest is not None else None
                if best is None and plain(given[i]):
                    rest = fit(i + 1, j)
                    best = [i, *rest] if rest is not None else None
            ways[(i, j)] = best
            return best

        gone = fit(0, 0)
        if gone is None:
            print(f"{path}: no fit: {len(given)} answers for {len(needs)} goals")
            continue
        for i in reversed(gone):
            a, b = given[i]
            while text[a - 1] == " ":
                a -= 1
            if text[a - 1] == "\n" and text[b : b + 1] == "\n":
                a -= 1
            text = text[:a] + text[b:]
        with open(path, "w", encoding="utf-8") as f:
            f.write(text)
        print(f"{path}: {len(gone)} gone")
