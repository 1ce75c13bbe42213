#!/usr/bin/env python3
"""Counts places of older forms in src/, by the points of docs/DESIGN-PASS.md.

usage: tools/design_counts.py [FOLDER] [--list]

FOLDER is a checkout (the current folder otherwise); --list prints each place.
"""
import collections
import glob
import os
import re
import signal
import sys


def sources(root):
    for path in sorted(glob.glob(os.path.join(root, "crates/*/src/*.rt"))):
        name = path.split("crates/")[1]
        yield name, open(path, encoding="utf-8").read()


def code_lines(text):
    for number, line in enumerate(text.split("\n"), 1):
        if not line.strip().startswith("//"):
            yield number, line


def matching(root, pattern):
    return [f"{name}:{number}: {line.strip()}" for name, text in sources(root) for number, line in code_lines(text) if re.search(pattern, line)]


def signatures(root):
    for name, text in sources(root):
        for found in re.finditer(r"\n\s*(?:pub )?(?:extern \"C\" )?fn (\w+)(?:<[^>]*>)?\(([^{]*?)\)\s*(?:->[^\n{]*)?\n", text, re.S):
            yield name, found.group(1), [part.split(":")[0].replace("mut ", "").strip() for part in found.group(2).split(",") if part.strip()]


def together(root, *wanted):
    return [f"{name}: {function}" for name, function, names in signatures(root) if set(wanted) <= set(names)]


def twins(root):
    places = collections.defaultdict(list)
    for name, function, _ in signatures(root):
        places[function].append(name)
    return [f"{function}: {', '.join(names)}" for function, names in sorted(places.items()) if len(names) > 1]


def facts(root):
    """The facts that stand in three or more `requires`, each with its count."""
    count = collections.Counter()
    for _, text in sources(root):
        for clause in re.finditer(r"requires (?:\w+ )?\{([^}]*)\}", text):
            for fact in clause.group(1).split(" × "):
                fact = re.sub(r"\.(now|old|new)", "", fact.strip().strip("()"))
                count[re.split(r"[ (]", fact)[0] if fact[:1].isupper() else fact] += 1
    return [f"{number} {fact}" for fact, number in count.most_common() if number > 2]


def files(root, *patterns):
    return [path for pattern in patterns for path in glob.glob(os.path.join(root, "crates/*/proofs", pattern))]


def lines(paths):
    return sum(open(path, encoding="utf-8").read().count("\n") for path in paths)


def main(arguments):
    folders = [a for a in arguments if not a.startswith("-")]
    root = folders[0] if folders else "."
    if len(folders) > 1 or set(arguments) - set(folders) - {"--list"} or not os.path.isdir(os.path.join(root, "crates")):
        print("design_counts: a checkout is wanted; --help says more", file=sys.stderr)
        sys.exit(2)
    answers = files(root, "*/Answers.antt", "*/*/Answers.antt")
    invariants = files(root, "*/Invariants.antt", "*/*/Invariants.antt")
    repeated = facts(root)
    rows = [
        ("1 enums", matching(root, r"^(pub )?enum ")),
        ("1 functions that answer a refusal by its number", [f"{n}: {f.group(1)}" for n, t in sources(root) for f in re.finditer(r"fn (\w*refusal)\((?:[^{]*?)\) -> usize", t)]),
        ("1 tests of a choice in a slice's body", matching(root, r"body\[(MODE|KIND|SHIFT_DATA|CARRY_DATA|CARRY_START|MUX|MAIN|SECOND|SET_RESET_USED)")),
        ("1 tests of a gate's head or a table's kind", matching(root, r"\b(head|kind) (==|!=|<|<=) ")),
        ("2 functions of one name in two places", twins(root)),
        ("3 loops by while", matching(root, r"^\s+while ")),
        ("4 conversions by as", matching(root, r" as (u8|u16|u32|u64|usize)\b")),
        ("5 facts in three or more requires", repeated),
        ("5 functions that take n and m", together(root, "n", "m")),
        ("5 functions that take contents and flops", together(root, "contents", "flops")),
        ("5 functions that take a table or edges and n", together(root, "table", "n") + together(root, "edges", "n")),
        ("5 functions that take a plan and n", together(root, "plan", "n")),
        ("5 functions that take the search's buffers", together(root, "marks", "pos", "stack")),
        ("6 functions that take words and a count", together(root, "words", "count")),
    ]
    for title, places in rows:
        print(f"{len(places):5} {title}")
        if "--list" in arguments:
            for place in places:
                print(f"        {place}")
    print(f"{sum(int(f.split()[0]) for f in repeated):5} 5 places of those facts")
    print(f"{len(answers):5} 8 files of answers, {lines(answers)} lines")
    print(f"{len(invariants):5} 8 files of invariants")
    print(f"{lines(files(root, '*.antt')):5} 8 lines of lemmas")


if __name__ == "__main__":
    signal.signal(signal.SIGPIPE, signal.SIG_DFL)
    if "--help" in sys.argv[1:]:
        print(__doc__)
    else:
        main(sys.argv[1:])
