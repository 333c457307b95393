#!/usr/bin/env python3
"""Run at the top, with pages: holds what stands there in backticks to the tree, and prints what does not.

`CRATE/specs/FILE: a, b .c`, `CRATE/proofs/FILE: ..`   the file is there and declares each name, a name with a point as a field
`FILE: a, b` and `CRATE: a, b`                         some file of that name declares each, or some file or edit of the crate has it
`CRATE::f`, `desk_f`                                   the crate has the function
`crates/..rt:N` `f`                                    line N of the file has f; without f, it is no empty line
a name by itself                                       it stands somewhere in the tree, or in the page itself

`crate` and `name` in place of a crate and a name say how a citation is written.
"""

import glob
import os
import re
import sys

TREE = {p: open(p, encoding="utf-8").read() for e in ("antt", "rt", "edit") for p in glob.glob(f"crates/**/*.{e}", recursive=True)}
CRATES = {p.split("/")[1] for p in TREE}
NAME = r"[^\s(){};,.«»\"|\[\]`:/*]+"
WORDS = {w for text in TREE.values() for w in re.findall(NAME, text)}
OTHER = "\n".join(open(p, encoding="utf-8", errors="replace").read() for p in
                  [*glob.glob("oracle/**/*.rs", recursive=True), *glob.glob("oracle/*"), *glob.glob("exports/*"), *glob.glob("samples/*.py"), *glob.glob(".ci/*"),
                   *glob.glob("oracle/stub/*"), "desk", "docs/map"] if os.path.isfile(p) and not p.endswith(".scene"))


def declared(text, name):
    """Whether this text of a .antt file declares the name: a signature, a record or a family, a case, or a field, on a line that begins with it."""
    n = re.escape(name)
    return re.search(rf"^\s*((abbrev|unfoldable|pub|private) )*([^\s:(){{}}=]+ )*{n}( [^\s:(){{}}=]+)* :( |$)|^\s*((abbrev|unfoldable|pub|private|record|data) )*(record|data) (pub )?{n}( |$)|^\s*[|(]? ?{n}( :.*)?$", text, re.M)


def files(crate, kind, name):
    return [p for p in (f"crates/{crate}/{kind}/{name}.antt", f"crates/{crate}/{kind}/{name}/Proof.antt") if p in TREE]


def cite(paths, names, where):
    for part in names.split(", "):
        for word in part.split():
            field = word.startswith(".") and word != ".."
            word = word.strip(".")
            if word and not any(declared(TREE[p], word) for p in paths):
                yield f"{where} does not declare {'.' if field else ''}{word}"


def faults(span, follows, page):
    if span.startswith("crate/") or span.endswith(": name"):
        return
    m = re.fullmatch(r"([a-z0-9_]+)/(specs|proofs)/([\w/]+)(?:: (.*))?", span)
    if m:
        crate, kind, name, names = m.groups()
        paths = files(crate, kind, name)
        if not paths:
            yield f"there is no crates/{crate}/{kind}/{name}.antt"
        elif names:
            yield from cite(paths, names, paths[0])
        return
    if os.path.exists(span):
        return
    m = re.fullmatch(r"([a-z0-9_]+)/(specs|proofs|must-fail)", span) or re.fullmatch(r"([a-z0-9_]+)/(must-fail/\w+|\w+)", span)
    if m:
        crate, rest = m.groups()
        if crate in CRATES and not (os.path.exists(f"crates/{crate}/{rest}") or os.path.exists(f"crates/{crate}/must-fail/{rest.split('/')[-1]}.edit")):
            yield f"there is no crates/{crate}/{rest}"
        return
    m = re.fullmatch(r"([A-Za-z0-9_]+): (.*)", span)
    if m and (m[1] in CRATES or m[1][0].isupper()):
        head, names = m.groups()
        paths = [p for p in TREE if p.split("/")[1] == head] if head in CRATES else [p for p in TREE if p.endswith(f"/{head}.antt")]
        if not paths:
            yield f"there is no {head}.antt"
        elif head in CRATES:
            for word in re.findall(NAME, names):
                if not any(word in re.findall(NAME, TREE[p]) for p in paths):
                    yield f"{head} has no {word}"
        else:
            yield from cite(paths, names, head)
        return
    m = re.fullmatch(r"([a-z0-9_]+)::([A-Za-z0-9_]+(?:::[a-z0-9_]+)?)", span)
    if m and m[1] in CRATES:
        last = m[2].split("::")[-1]
        if not any(p.split("/")[1] == m[1] and p.endswith(".rt") and re.search(rf"\b(fn|struct|enum|const|static|mod) {last}\b", text) for p, text in TREE.items()):
            yield f"{m[1]} has no {m[2]}"
        return
    m = re.fullmatch(r"(crates/\S+\.rt|oracle/\S+\.rs):(\d+)", span)
    if m:
        lines = open(m[1], encoding="utf-8").read().split("\n") if os.path.isfile(m[1]) else []
        line = lines[int(m[2]) - 1] if int(m[2]) <= len(lines) else ""
        word = re.match(r"`(\w+)", follows)
        if not line.strip() or word and word[1] not in line:
            yield f"that line is: {line.strip()[:100]}"
        return
    if re.fullmatch(r"[A-Za-z][\w'-]*", span) and ("_" in span or "-" in span or re.search(r"[a-z][A-Z]", span)):
        if span not in WORDS and span not in OTHER and span not in page and not os.path.exists(span):
            yield f"no such name: {span}"


bad = 0
for page in sys.argv[1:]:
    with open(page, encoding="utf-8") as f:
        text = f.read()
    outside = re.sub(r"`[^`\n]+`", "", text)
    for i, line in enumerate(text.split("\n"), 1):
        for m in re.finditer(r"`([^`\n]+)`", line):
            for it in faults(m[1], line[m.end():].strip(), outside):
                bad += 1
                print(f"{page}:{i}: `{m[1]}`: {it}")
print(f"{bad} citations do not hold")
sys.exit(1 if bad else 0)
