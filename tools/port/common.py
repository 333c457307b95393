"""What the two renaming scripts share: the names that the repository declares in specs/ and in lemma files, and how a token is found."""

import os
import re

TOKEN = re.compile(r"[^\s(){};,.«»\"|\[\]`]+")
DECLARED = re.compile(r"^\s*(?:abbrev |unfoldable )?(?:pub )?([^\s(){};,.:]+)\s*(?:\{[^}]*\}\s*)*(?:\([^)]*\)\s*)*:\s")
TYPE = re.compile(r"^\s*(?:pub )?(?:data|record)\s+(\S+)")


def texts(top, endings=(".antt",)):
    for folder, dirs, files in os.walk(os.path.join(top, "crates")):
        dirs[:] = sorted(d for d in dirs if d not in ("out", ".git"))
        for f in sorted(files):
            if f.endswith(endings):
                yield os.path.join(folder, f)


def read(path):
    with open(path, encoding="utf-8") as f:
        return f.read()


def of_function(path):
    """Whether the file is a function's proof, whose names are its own."""
    return bool(re.search(r"/proofs/.+/(Proof|Answers|Invariants)\.antt$", path))


def snake(name):
    """A word in snake case: humps and dashes are joints. A type keeps its capital."""
    if name[:1].islower():
        name = re.sub(r"([a-z0-9])([A-Z]+)(?=[A-Z][a-z]|[^A-Za-z]|$)", lambda m: m[1] + "_" + m[2].lower(), name)
        name = re.sub(r"([a-z0-9])([A-Z])", lambda m: m[1] + "_" + m[2].lower(), name)
    return name.replace("-", "_")


def declared(top):
    """Each name declared in specs/ and in lemma files, with the files that declare it; and which of them are fields of records."""
    found, fields = {}, set()
    for path in texts(top):
        if of_function(path):
            continue
        record = False
        for line in read(path).split("\n"):
            if line.lstrip().startswith("--"):
                continue
            kind = TYPE.match(line)
            if kind:
                found.setdefault(kind[1], set()).add(path)
                record = line.lstrip().replace("pub ", "").startswith("record")
                continue
            if line and not line[0].isspace():
                record = False
            name = DECLARED.match(line)
            if name and name[1] != "_":
                found.setdefault(name[1], set()).add(path)
                if record:
                    fields.add(name[1])
    return found, fields
