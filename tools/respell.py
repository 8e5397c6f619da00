#!/usr/bin/env python3
"""Turns the repository's own names to snake case, by the table respell.tsv beside this file: definitions, fields of theorems, parameters and lemmas.

usage: tools/respell.py        at the top of the repository, once, right after the kit's port.py

It turns whole words: in .antt files everywhere; in .rt files and must-fail edits names in camel case everywhere, and names with a dash outside comments; in README.md and docs/ in code spans.
A row whose old name has neither (as 'same_body') is a lemma that would have a definition's name, and turns in .antt files alone. Names of functions, strings and inputs stay.
"""

import os
import re
import sys

HERE = os.path.dirname(os.path.realpath(__file__))
WORD = re.compile(r"[^\s(){}.;,@\"«»\[\]`]+")
PLAIN = re.compile(r"[A-Za-z_][\w'-]*")
SPAN = re.compile(r"`[^`\n]*`")


def rows():
    with open(os.path.join(HERE, "respell.tsv"), encoding="utf-8") as f:
        return dict(line.rstrip("\n").split("\t") for line in f)


def camel(word):
    return bool(re.match(r"[a-z]", word) and re.search(r"[A-Z]", word))


def turn_antt(text, table):
    return WORD.sub(lambda m: table.get(m.group(0), m.group(0)), text)


def turn_code(text, table):
    def line(l):
        head, mark, tail = l.partition("//")
        head = PLAIN.sub(lambda m: table.get(m.group(0), m.group(0)) if camel(m.group(0)) or "-" in m.group(0) else m.group(0), head)
        tail = PLAIN.sub(lambda m: table.get(m.group(0), m.group(0)) if camel(m.group(0)) else m.group(0), tail)
        return head + mark + tail

    return "\n".join(line(l) for l in text.split("\n"))


def turn_page(text, table):
    return SPAN.sub(lambda s: PLAIN.sub(lambda m: table.get(m.group(0), m.group(0)) if camel(m.group(0)) or "-" in m.group(0) else m.group(0), s.group(0)), text)


def main():
    table = rows()
    kinds = {".antt": turn_antt, ".rt": turn_code, ".edit": turn_code, ".md": turn_page}
    paths = ["README.md"] + [os.path.join("docs", f) for f in os.listdir("docs")]
    for folder, dirs, files in os.walk("crates"):
        dirs[:] = [d for d in dirs if d != "out"]
        paths += [os.path.join(folder, f) for f in files]
    n = 0
    for p in paths:
        turn = kinds.get(os.path.splitext(p)[1])
        if not turn or p.endswith("PORT.md"):
            continue
        with open(p, encoding="utf-8") as f:
            old = f.read()
        new = turn(old, table)
        if new != old:
            n += 1
            with open(p, "w", encoding="utf-8") as f:
                f.write(new)
    print(f"respell: {n} files")
    return 0


if __name__ == "__main__":
    sys.exit(main())
