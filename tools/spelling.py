#!/usr/bin/env python3
"""Spells the repository's own definitions and lemmas as today's library does: words in snake case, a dash only between two names.

usage: tools/spelling.py       at the top of the repository, once, after the kit's port.py

The old and the new name of each stand in tools/spelling.tsv. Strings stay, and so do the component names of the paper in comments.
"""

import os
import re
import sys

HERE = os.path.dirname(os.path.realpath(__file__))
NAME = re.compile(r"[^\s(){}.;,@\"«»`\[\]]+")
PAPER = {"localStorage", "sessionStorage", "pendingDNS", "pendingRequests"}
STRING = re.compile(r'"[^"\n]*"')


def table():
    with open(os.path.join(HERE, "spelling.tsv"), encoding="utf-8") as f:
        return dict(line.rstrip("\n").split("\t") for line in f)


def renamed(text, names):
    return NAME.sub(lambda m: names.get(m[0], m[0]), text)


def code(text, names):
    out, at = [], 0
    for m in STRING.finditer(text):
        out += [renamed(text[at:m.start()], names), m[0]]
        at = m.end()
    return "".join(out) + renamed(text[at:], names)


def spelled(line, mark, names, words):
    """A line: its code with all names, its comment with the words alone that are no plain English."""
    cut = re.search(mark, STRING.sub(lambda m: "_" * len(m[0]), line))
    if not cut:
        return code(line, names)
    return code(line[:cut.start()], names) + renamed(line[cut.start():], words)


def own_spec(path, text):
    """The proof of a function f is f_spec."""
    function = os.path.basename(os.path.dirname(path))
    for f in function.lstrip("+").split("-"):
        text = re.sub(r"(?<![\w-])%s-spec(?![\w-])" % re.escape(f.replace("_", "-")), f + "_spec", text)
    return text


def main():
    names = table()
    words = {a: b for a, b in names.items() if re.search("[a-z0-9][A-Z]", a) and a not in PAPER}
    for folder, dirs, files in os.walk("crates"):
        dirs[:] = sorted(d for d in dirs if d != "out")
        for f in sorted(files):
            mark = {".antt": r"(?:^|\s)--(?:\s|$)", ".rt": r"//"}.get(os.path.splitext(f)[1])
            if not mark:
                continue
            path = os.path.join(folder, f)
            with open(path, encoding="utf-8") as it:
                old = it.read()
            new = "\n".join(spelled(line, mark, names, words) for line in old.split("\n"))
            if f == "Proof.antt":
                new = own_spec(path, new)
            if new != old:
                with open(path, "w", encoding="utf-8") as it:
                    it.write(new)


if __name__ == "__main__":
    sys.exit(main())
