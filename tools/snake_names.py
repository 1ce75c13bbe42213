#!/usr/bin/env python3
"""Spells the names that this repository's own definitions and lemmas declare in snake case.

usage: python3 tools/snake_names.py [REPOSITORY]

It ran once, right after port.py of the newer kit: `signalCount` became `signal_count`, `depends-more` became `depends_more`. Types, modules and names
from Rust keep their spelling. Where a lemma would have got a definition's name it is called `.._lem`. It goes by whole words, in the code and the
comments of crates/, in the must-fail edits, and in the code spans of README.md and docs/.
"""

import os
import re
import sys

WORD = re.compile(r'[^\s(){}.;,@"«»\x60]+')
DECLARED = re.compile(r'^ *((?:pub|abbrev|unfoldable|data|record|ruleset) )*([^\s(){}.;,@"«»]+)(?: \{[^{}]*\}| \([^()]*\))* *:(?=\s|$)')
# Lemmas that would have met a definition.
LEMMAS = ["body-length", "data-bit", "edits-from", "last-table", "number-byte", "number-on", "size-length", "wires-of", "reads-of"]


def snake(name):
    name = re.sub(r"([a-z0-9])([A-Z])", lambda m: m[1] + "_" + m[2].lower(), name)
    return name.replace("-", "_")


def files(root, *endings):
    for folder, dirs, names in os.walk(os.path.join(root, "crates")):
        dirs[:] = sorted(d for d in dirs if d != "out")
        for n in sorted(names):
            if n.endswith(endings):
                yield os.path.join(folder, n)


def text_of(path):
    with open(path, encoding="utf-8") as f:
        return f.read()


def table(root):
    """The old and the new spelling of each name that a file of specs/ or proofs/ declares; goals that the kit made keep theirs."""
    names = {}
    for path in files(root, ".antt"):
        for line in text_of(path).splitlines():
            m = DECLARED.match(re.sub(r"(^|\s)--.*", "", line))
            if not m or re.search(r":\s*tie\.", line):
                continue
            name = m[2]
            if name[0].islower() and (re.search(r"[a-z0-9][A-Z]", name) or "-" in name):
                names[name] = snake(name) + ("_lem" if name in LEMMAS else "")
    return names


def turned(text, names):
    return WORD.sub(lambda m: names.get(m[0], m[0]), text)


def main(root):
    names = table(root)
    changed = 0
    for path in files(root, ".antt", ".rt", ".edit"):
        old = text_of(path)
        new = turned(old, names)
        if new != old:
            with open(path, "w", encoding="utf-8") as f:
                f.write(new)
            changed += 1
    pages = [os.path.join(root, "README.md")]
    pages += [os.path.join(root, "docs", n) for n in sorted(os.listdir(os.path.join(root, "docs"))) if n.endswith(".md") and not n.startswith("PORT")]
    for path in pages:
        old = text_of(path)
        new = re.sub(r"\x60[^\x60\n]+\x60", lambda m: turned(m[0], names), old)
        if new != old:
            with open(path, "w", encoding="utf-8") as f:
                f.write(new)
            changed += 1
    print(f"snake_names: {len(names)} names, {changed} files")


main(sys.argv[1] if len(sys.argv) > 1 else ".")
