#!/usr/bin/env python3
"""Run at the top after proofs.py, with the folder that `rt names OUT` wrote: in each walk, counts again how many `.before` lead from a goal's place to the step
that is cited, since today's walks have other places between."""

import json
import os
import re
import sys

sys.path.insert(0, os.path.dirname(os.path.realpath(__file__)))
from common import read

top, out = sys.argv[1], sys.argv[2]
only = set(sys.argv[3:])
AT_START = ("args", "pre", "requires", "well_formed", "ranges", "ghost")


class Walk:
    def __init__(self, of):
        old = [p[0] for p in of["places"]]
        self.names = of["places_by_name"]
        self.parent = [old.index(p[1]) if p[1] in old else None for p in of["places"]]
        self.step = [p[2][1] for p in of["places"]]
        # an arm of a match is one place today, with what its two or three places had as fields
        raw, was = list(self.parent), {key(p[2][0]): p[2][1] for p in of["places"]}
        self.turn = []
        for i, arm in enumerate(of["arms"]):
            if not arm:
                continue
            at = i
            for _ in range(arm[1]):
                at = raw[at] if at is not None else None
            self.parent[i], self.step[i] = at, arm[0]
            chain, at = [], i
            for _ in range(arm[1]):
                chain.append(at)
                at = raw[at] if at is not None else None
            for field, step, path in arm[2] if len(arm) > 2 else []:
                for j in chain:
                    if j is not None and key(of["places"][j][2][0]) == key(step) and (path or arm[1] > 1):
                        self.turn.append((of["places"][j][2][1], path, arm[0], field))
        self.turn.sort(key=lambda it: -len(it[1]))
        self.asked = {new: self.names.index(at[1]) for (_, new), at in zip(of["needs"], of["asked_at"]) if at and at[1] in self.names}
        self.needs = [new for _, new in of["needs"]]

    def up(self, at):
        k = 0
        while at is not None:
            yield k, at
            k, at = k + 1, self.parent[at]

    def to_step(self, at, word):
        """How many steps up from the place the step of that name is; None if none is."""
        for k, p in self.up(at):
            if self.step[p] == word or (word in AT_START and self.parent[p] is None):
                return k, p
        return None

    def to_place(self, at, to):
        for k, p in self.up(at):
            if p == to:
                return k
        return None


def key(name):
    return re.sub(r"[-_]+", "_", name)


def arms(walk, text):
    for raw, path, step, field in walk.turn:
        if not path:
            continue
        rest = "".join(r"\." + ("(?:given|requires)" if w == "given" else re.escape(w)) for w in path)
        text = re.sub(r"(?<=[\w)])\." + re.escape(raw) + rest + r"(?![\w-])", f".{step}.{field}", text)
    return text


def body(walk, text, env, helpers, results={}):
    """The text with its chains counted again; env has each variable's place."""
    env = dict(env)
    out, at = [], 0
    by_helper = re.compile(r"\blet ([^\s:]+) = ([^\s(){};,.]+) (?:[^\s(){};,.]+(?:\.before)*|\([^()]*\)(?:\.before)*) in\b")
    pattern = re.compile(r"\(([^\s(){};,.]+) ([^()]*)\)((?:\.before)*)\.(?!before\b)([^\s(){};,.]+)|\blet ([^\s:]+) = ([^\s(){};,.]+)((?:\.before)+)( in\b)|(?<![\w.'-])([^\s(){};,.]+)((?:\.before)*)(?:\.([^\s(){};,.]+))?")
    while True:
        m = pattern.search(text, at)
        if not m:
            return "".join(out) + text[at:]
        for bound in by_helper.finditer(text, at, m.start()):
            env[bound[1]] = results.get(bound[2])
        out.append(text[at : m.start()])
        at = m.end()
        if m[1] and m[1] in results:
            inner = body(walk, m[1] + " " + m[2], env, helpers, results)
            found = walk.to_step(results[m[1]], m[4])
            out.append(f"({inner}){'.before' * found[0] if found else m[3]}.{m[4]}")
            continue
        if m[1]:
            at = m.start() + 1
            out.append("(")
            continue
        m = [None, *m.groups()[4:]]
        if m[1]:
            base, to = env.get(m[2]), None
            if base is not None:
                use = re.search(r"(?<![\w.'-])" + re.escape(m[1]) + r"\.(?!before\b)([^\s(){};,.]+)", text[at:])
                found = walk.to_step(base, use[1]) if use else None
                k = found[0] if found else m[3].count(".before")
                # what is no step is cited at the place itself
                chain = list(walk.up(base))
                if k < len(chain):
                    to = chain[k][1]
                out.append(f"let {m[1]} = {m[2]}{'.before' * k}{m[4]}")
            else:
                out.append(f"let {m[1]} = {m[2]}{m[3]}{m[4]}")
            env[m[1]] = to
            continue
        name, befores, word = m[5], m[6], m[7]
        whole = name + befores + (f".{word}" if word is not None else "")
        base = env.get(name)
        if base is None:
            out.append(whole)
            continue
        if word is not None:
            found = walk.to_step(base, word)
            if found:
                out.append(f"{name}{'.before' * found[0]}.{word}")
                continue
        elif befores:
            before = re.search(r"([^\s(){};,]+) $", "".join(out)[-60:])
            if before and before[1] in helpers and helpers[before[1]] is not None:
                k = walk.to_place(base, helpers[before[1]])
                if k is not None:
                    out.append(name + ".before" * k)
                    continue
        out.append(whole)


def arguments(text, at):
    """The spans of what is applied from `at` on, up to the parenthesis that closes."""
    spans = []
    while at < len(text):
        while at < len(text) and text[at].isspace():
            at += 1
        if at >= len(text) or text[at] == ")":
            break
        start = at
        if text[at] == "(":
            depth = 0
            while True:
                depth += {"(": 1, ")": -1}.get(text[at], 0)
                at += 1
                if not depth:
                    break
        else:
            while at < len(text) and not text[at].isspace() and text[at] not in "()":
                at += 1
        spans.append((start, at))
    return spans


def proof(path, of):
    walk = Walk(of)
    text = read(path)
    old = text
    text = arms(walk, text)
    pieces = re.split(r"(?m)^(?=(?:abbrev )?(?:pub )?[^\s(){};,.:]+ :)", text)
    helpers, results, places = {}, {}, {n: i for i, n in enumerate(walk.names)}
    for piece in pieces:
        m = re.match(r"(?:abbrev )?(?:pub )?(\S+) : tie\.([^\s(){};,.]+)[^→\n]*→(?: tie\.([^\s(){};,.]+))?", piece)
        if m and m[2] in places:
            helpers[m[1]] = places[m[2]]
            if m[3] in places:
                results[m[1]] = places[m[3]]
    done = []
    for piece in pieces:
        m = re.match(r"(?:abbrev )?(?:pub )?(\S+) : ([^\n]*)", piece)
        if not m:
            done.append(piece)
            continue
        name, kind = m[1], m[2]
        need = re.match(r"tie\.Need-([^\s(){};,.]+)", kind)
        place = re.match(r"tie\.([^\s(){};,.]+)[^→]*→\s*(?:tie\.([^\s(){};,.]+))?", kind)
        start = None
        if need and need[1] in walk.asked:
            start = walk.asked[need[1]]
        elif place and place[1] in places:
            start = places[place[1]]
        if start is not None:
            head = re.search(r"(?m)^" + re.escape(name) + r"((?: [^\s=]+)*) =", piece)
            params = head[1].split() if head else []
            env = {params[0]: start} if params else {}
            if head and not params:
                lam = re.compile(r"\s*λ (\S+?)[ .]").match(piece, head.end())
                env = {lam[1]: start} if lam else {}
            if head:
                rest = piece[head.end() :]
                if place and place[2] in places and params and re.match(r" " + re.escape(params[0]) + r"(\.before)*\n", rest):
                    k = walk.to_place(start, places[place[2]])
                    if k is not None:
                        rest = f" {params[0]}{'.before' * k}\n" + rest[rest.index("\n") + 1 :]
                else:
                    rest = body(walk, rest, env, helpers, results)
                piece = piece[: head.end()] + rest
        spec = piece.find("tie.spec")
        if spec >= 0:
            spans = arguments(piece, spec + len("tie.spec"))
            given = spans[len(spans) - len(walk.needs) :] if len(spans) >= len(walk.needs) else []
            if not given and walk.needs:
                print(f"{path}: {len(spans)} arguments for {len(walk.needs)} goals")
            for (a, b), goal in reversed(list(zip(given, walk.needs))):
                lam = re.match(r"\(λ (\S+?)(?: [^.]*)?\. ", piece[a:b])
                if lam and goal in walk.asked:
                    piece = piece[:a] + piece[a : a + lam.end()] + body(walk, piece[a + lam.end() : b], {lam[1]: walk.asked[goal]}, helpers, results) + piece[b:]
        done.append(piece)
    new = "".join(done)
    if new != old:
        with open(path, "w", encoding="utf-8") as f:
            f.write(new)
        return 1
    return 0


turned = 0
for crate in sorted(os.listdir(os.path.join(out, "crates"))):
    if only and crate not in only:
        continue
    with open(os.path.join(out, "crates", crate, "names.json")) as f:
        listed = json.load(f)
    for k, of in listed.items():
        if not (isinstance(of, dict) and k.endswith(".Lts") and "needs" in of):
            continue
        path = os.path.join(top, "crates", crate, "proofs", *k.split(".", 1)[1][: -len(".Lts")].split("."), "Proof.antt")
        if os.path.isfile(path):
            turned += proof(path, of)
print("walks counted again:", turned)
