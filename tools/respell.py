#!/usr/bin/env python3
"""Gives the repository's own definitions, laws and fields the spelling of today's Rattle: words in snake case.

usage: python3 tools/respell.py, once, at the top, after the toolchain's port.py; respell.tsv beside it is the table.

A row of the table: old, a tab, new, and, where it holds in one place alone, a tab and the beginning of a path. Rows go in
the order of the file, all rows of one number of '#' lines (a pass) at a time. What turns: in .antt files the code, and in
comments the words in backticks and those in camel case; in .rt files the same of the whole text; in .edit files the lines
old: and new:; in .md files and tests/ the words in backticks. A name that a file brings in from a library stays in it.
"""
import glob
import os
import re

PROOF = ("Proof.antt", "Invariants.antt", "Answers.antt")  # of one function: behind a dot a call's name may stand
WORD = re.compile(r'[^\s(){}\[\].;,@"«»`|]+')
SPAN = re.compile(r"`[^`\n]+`")
CAMEL = re.compile(r"^[a-z][a-z0-9]*[A-Z]")
FOREIGN = re.compile(r"^(?:ghost )?use +(?!Rattle\.(?!std\b))\S+?\.\{([^}]*)\}", re.M)


def passes():
    found = [[]]
    for line in open(os.path.join(os.path.dirname(__file__), "respell.tsv"), encoding="utf-8"):
        line = line.rstrip("\n")
        if line.startswith("#"):
            found.append([])
        elif line:
            row = line.split("\t")
            found[-1].append((row[0], row[1], row[2] if len(row) > 2 else ""))
    return [p for p in found if p]


def turned(text, table, may=lambda w: True, steps=False):
    def one(m):
        word = m[0]
        if word not in table or not may(word):
            return word
        if steps and text[m.start() - 1 : m.start()] == "." and table[word].endswith("_law"):
            return word.replace("-", "_")
        return table[word]

    return WORD.sub(one, text)


def spans(text, table):
    return SPAN.sub(lambda m: turned(m[0], table), text)


def comment(text, table):
    return turned(spans(text, table), table, CAMEL.match)


def code(text, table, sign, steps):
    out = []
    for line in text.split("\n"):
        at = re.search(r"(?<!\S)%s" % sign, line)
        at = at.start() if at else len(line)
        out.append(turned(line[:at], table, steps=steps) + comment(line[at:], table))
    return "\n".join(out)


def edit(text, table):
    """The lines old: and new:, in a file of the logic with each projection written tight, as port.py writes it."""
    out, logic = [], False
    for line in text.split("\n"):
        if line.startswith("file:"):
            logic = line.endswith(".antt")
        elif line[:4] in ("old:", "new:"):
            line = turned(line, table)
            if logic and line[4:5] == " ":
                body = re.sub(r"(?<=[^\s(]) (\.[\w«])", r"\1", line[5:])
                line = line[:5] + re.sub(r"\(([\w«»'-]+(?:\.[\w«»-]+)+)\)", r"\1", body)
        out.append(line)
    return "\n".join(out)


def respell(path, table):
    with open(path, encoding="utf-8") as f:
        text = f.read()
    kind = path.rsplit(".", 1)[-1]
    if kind in ("antt", "rt"):
        foreign = {i.strip().split(" as ")[-1] for m in FOREIGN.finditer(text) for i in m[1].split(",")}
        own = {a: b for a, b in table.items() if a not in foreign}
        new = code(text, own, "--" if kind == "antt" else "//", os.path.basename(path) in PROOF)
    elif kind == "edit":
        new = edit(text, table)
    else:
        new = spans(text, table)
    if new != text:
        with open(path, "w", encoding="utf-8") as f:
            f.write(new)
    return new != text


def main():
    files = [p for k in ("antt", "rt", "edit") for p in glob.glob("crates/**/*." + k, recursive=True) if "/out/" not in p]
    files += glob.glob("*.md") + glob.glob("docs/**/*.md", recursive=True) + glob.glob("*/README.md")
    changed = set()
    for rows in passes():
        for p in files:
            table = {a: b for a, b, where in rows if p.startswith(where)}
            if table and respell(p, table):
                changed.add(p)
    print("respell: %d files changed" % len(changed))


if __name__ == "__main__":
    main()
