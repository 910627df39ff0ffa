#!/usr/bin/env python3
"""Brings the names of this repository's definitions and lemmas to the spelling of today's Rattle, once, after port.py:
words in snake case, facts and types in camel case. Names that Rattle makes (goals, steps) stay.

usage: python3 tools/respell.py        at the top of the repository
"""

import os
import re

ROOT = os.path.join(os.getcwd(), "crates")
PLAIN = r"[^\s(){}\[\];:.,λ⌜⌝«»]+"
DEFINED = re.compile(r"^\s*(?:(?:abbrev|unfoldable|pub|mutual|data|record)\s+)*(%s)(?:\s+[({].*)?\s*:\s" % PLAIN)
TOKEN = re.compile(r"[A-Za-z_][A-Za-z0-9_'′→ℤℕ-]*")

# a function, a field or a module of src/ has the plain name
LEMMAS = {
    "call-text", "restriction-of", "all-forward", "choice-at", "answer-text", "scope-finding", "names-beyond",
    "leads-back", "effect-over", "fact-at", "passes-fault", "cost-of", "fact-count", "node-count", "round-best",
    "edit-answer", "edge-finding", "edge-fault", "weight-below", "leads-beyond", "scope-lines", "leads-forward",
    "edge-value", "names-twice", "fact-fault", "node-fault", "node-finding", "fact-finding", "costlier-of",
    "bounds-text", "passes-by", "scope-line", "bound-answer", "value-from",
}


def files():
    for folder, dirs, names in os.walk(ROOT):
        dirs[:] = sorted(d for d in dirs if d != "out")
        for name in sorted(names):
            if name.endswith((".antt", ".rt")):
                yield os.path.join(folder, name)


def defined(path):
    with open(path, encoding="utf-8") as f:
        for line in f:
            if line.lstrip().startswith("--") or "goal." in line:
                continue
            m = DEFINED.match(line)
            if m and ("-" in m.group(1) or "′" in m.group(1)) and not m.group(1).startswith("-"):
                yield m.group(1)


def respelled(name):
    name = name.replace("′", "'")
    if name[0].isupper():
        return "".join(w[0].upper() + w[1:] for w in name.split("-"))
    return name.replace("-", "_") + ("_lem" if name in LEMMAS else "")


def main():
    names = {}
    for path in files():
        if path.endswith(".antt"):
            for name in defined(path):
                names[name] = respelled(name)
    for path in files():
        comment = "--" if path.endswith(".antt") else "//"
        with open(path, encoding="utf-8") as f:
            old = f.read()
        lines = []
        for line in old.split("\n"):
            code, mark, rest = line.partition(comment)
            lines.append(TOKEN.sub(lambda m: names.get(m.group(0), m.group(0)), code) + mark + rest)
        new = "\n".join(lines)
        if new != old:
            with open(path, "w", encoding="utf-8") as f:
                f.write(new)


main()
