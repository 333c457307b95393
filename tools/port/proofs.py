#!/usr/bin/env python3
"""Run at the top, after port.py and names.py, with the folder that `rt names OUT` wrote: brings each function's Proof.antt to the names that Rattle makes today.

Of a goal, a place of the code, a step or a loop the list has the older name and today's. Clauses go by their order in a walk.
"""

import json
import os
import re
import sys

sys.path.insert(0, os.path.dirname(os.path.realpath(__file__)))
from common import read, texts

top, out = sys.argv[1], sys.argv[2]
only = set(sys.argv[3:])
NAMED = ("args", "auto", "new", "old", "ranges", "type_inv", "now", "initial", "ensures", "requires", "pre")
OWN = re.compile(
    r"^(overflow-(add|sub|mul|shl|shr|cast|step)|nonzero-(div|rem)|(offset|slice)-bounds|(invariant|shape)-of|no-deeper"
    r"|type-inv|well-formed|view-is|loan-name|yielded-by|len-below|len-at-least|in-(default|ok|err)|call-mut|element-fits)$"
)
WORDS = {"inv": "invariant", "taken": "true", "left": "false", "kept": "auto"}


def key(name):
    return re.sub(r"[-_]+", "_", name)


def clauses():
    """For each function, crate::path, the names of its requires and of its ensures in order."""
    found = {}
    for path in texts(top, (".rt",)):
        crate = re.search(r"crates/([^/]+)/src/(.*)\.rt$", path)
        module = [] if crate[2] in ("lib", "main") else crate[2].split("/")
        text = re.sub(r"//[^\n]*", "", read(path))
        for m in re.finditer(r"\bfn (\w+)[^{;]*?(?=\brequires|\bensures|\{)", text):
            head, at = {"requires": [], "ensures": []}, m.end()
            while True:
                c = re.compile(r"\s*(requires|ensures)(?: (\w+))? \{").match(text, at)
                if not c:
                    break
                depth, at = 1, c.end()
                while depth:
                    depth += {"{": 1, "}": -1}.get(text[at], 0)
                    at += 1
                head[c[1]].append(c[2])
            found.setdefault((crate[1], m[1]), []).append(head)
    return found


CLAUSES = clauses()


INDEX = {}
for heads in CLAUSES.values():
    for head in heads:
        for kind in ("requires", "ensures"):
            for at, word in enumerate(head[kind]):
                if word:
                    INDEX.setdefault(word, set()).add(at)
for word in [w for w, at in INDEX.items() if len(at) > 1]:
    print("a clause's name that stands at several indexes:", word, sorted(INDEX[word]))
    del INDEX[word]
INDEX = {w: min(at) for w, at in INDEX.items()}


def proof(path, crate, name, of):
    text = read(path)
    needs, places, steps, loops, callees = {}, {}, {}, {}, {}
    for old, new in of["needs"]:
        needs.setdefault(key(old), new)
    for (old, *_), new in zip(of["places"], of["places_by_name"]):
        places[key(old)] = new
    for old, _, (was, now), callee, _ in of["places"]:
        steps[key(was)] = now
        if callee:
            callees[now] = callee
    for (was, now), _ in of["loops"]:
        loops[key(was)] = now
        steps[key(was)] = now
    said = []
    heads = {"loop_holds": "loop_init", "loop_again": "loop_preserved"}

    def need(word):
        k = key(word)
        for was, now in heads.items():
            k = k.replace(was, now)
        for it in (k, re.sub(r"^(overflow|nonzero|bounds)_", "", k), "overflow_" + k):
            if it in needs:
                return needs[it]
        for new in needs.values():
            if key(new) == k:
                return new
        said.append(f"{path}: no goal for {word}")
        return word

    def after_tie(m):
        word = m[1]
        if word.startswith("Need-"):
            return "tie.Need-" + need(word[5:])
        for head in ("invariant-", "decreases-"):
            if word.startswith(head):
                k = key(word[len(head) :])
                if k in loops:
                    return "tie." + head + loops[k]
        if key(word) in places:
            return "tie." + places[key(word)]
        return m[0]

    text = re.sub(r"\btie\.([^\s(){};,.]+)", after_tie, text)

    params = {callee: [p for p in ps] for callee, ps in of.get("params", {}).items()}
    alias = {}

    def path_of(m):
        words = m[0].split(".")
        done = [words[0]]
        last = alias.get(words[0])
        at = 0
        words = words[1:]
        while at < len(words):
            w = words[at]
            at += 1
            w = re.sub(OWN, lambda it: it[0].replace("-", "_"), w)
            if w == "before" or w == "":
                done.append(w)
                last = None
                continue
            # `.auto.1.1.0` is the third parameter's
            if w in ("0", "1") and done[-1] in ("auto", "new") and last in callees and callees[last] in params:
                k, to = 0, at - 1
                while to < len(words) and words[to] == "1":
                    k, to = k + 1, to + 1
                if to < len(words) and words[to] == "0" and k < len(params[callees[last]]):
                    done.append(params[callees[last]][k])
                    at = to + 1
                    continue
            if last is None and key(w) in steps and done[-1] not in NAMED and done[-1] != "c.args":
                last = steps[key(w)]
                done.append(last)
                continue
            if last is not None and w in WORDS:
                done.append(WORDS[w])
                continue
            # in a walk the clauses go by their order
            if done[-1] in ("ensures", "requires", "pre") and w in INDEX:
                done.append(str(INDEX[w]))
                continue
            done.append(w)
        return ".".join(done)

    lines = []
    for line in text.split("\n"):
        if line[:1].strip():
            alias.clear()
        if not line.startswith("use ") and not line.lstrip().startswith("--"):
            line = re.sub(r"(?<![\w.])(?:[a-zλ][^\s(){};,.]*|\))(?:\.[^\s(){};,.]+)+", path_of, line)
            for bound in re.finditer(r"\blet ([^\s:]+) = ([^\s(){};,]+) in", line):
                end = bound[2].split(".")[-1]
                alias[bound[1]] = end if end in steps.values() or end in NAMED else None
        lines.append(line)
    text = "\n".join(lines)
    text = re.sub(r"(?m)^(pub )?([^\s:]+[-_]spec)( :| =)", lambda m: (m[1] or "") + name + "_spec" + m[3], text)
    with open(path, "w", encoding="utf-8") as f:
        f.write(text)
    return said


for crate in sorted(os.listdir(os.path.join(out, "crates"))):
    if only and crate not in only:
        continue
    with open(os.path.join(out, "crates", crate, "names.json")) as f:
        listed = json.load(f)
    for k, of in listed.items():
        if not (isinstance(of, dict) and k.endswith(".Lts") and "needs" in of):
            continue
        function = k.split(".", 1)[1][: -len(".Lts")]
        path = os.path.join(top, "crates", crate, "proofs", *function.split("."), "Proof.antt")
        if os.path.isfile(path):
            for line in proof(path, crate, function.split(".")[-1].lstrip("+"), of):
                print(line)
