#!/usr/bin/env python3
"""Turns the names of this repository's own definitions and lemmas to the spelling that Rattle's library has.

usage: tools/respell/respell.py [FOLDER]

Run once, right after the kit's port.py, over the tree in FOLDER (the current folder if none is given).
Definitions, fields and constructors become snake case; a prime is an apostrophe. names.txt has each old name with its new one.
Functions in src/, exported names, strings, inputs and outputs keep their names.
"""

import os
import re
import sys

HERE = os.path.dirname(os.path.abspath(__file__))
NAME = re.compile(r"[^\s(){}\[\],;:«»\"`.]+")

# Lemmas that would have the name of a definition in the same file: where, the old name, the new one.
LEMMAS = [
    ("crates/bank_slots_spec/proofs/InterruptMoves.antt", "lane_done", "lane_done-moves"),
    ("crates/dump_spec/proofs/", "head_step", "head_step-moves"),
    ("crates/dump_written/proofs/KindLaws.antt", "is_digit", "is_digit-digit"),
    ("crates/dump_spec/proofs/Bounded.antt", "wrong_word", "wrong_word-bounded"),
]
# A file that cites one of them beside a path of the same name.
CITED = [
    ("crates/bank_slots/proofs/interrupt/lane_done/Proof.antt", "InterruptMoves.{lane_done}", "InterruptMoves.{lane_done-moves}"),
    ("crates/bank_slots/proofs/interrupt/lane_done/Proof.antt", "    lane_done a.args", "    lane_done-moves a.args"),
]


def table(path):
    with open(path, encoding="utf-8") as f:
        return dict(line.split() for line in f if line.strip())


def constructors(names):
    """Names with a dash and no capital: each is a constructor or a field of a definition."""
    return {n for n in names if "-" in n and n == n.lower()}


def turned(text, names, dashed):
    """Each whole name by its new one. A part of a generated path, as in `c.take-replies.ensures`, is not a constructor."""

    def new(m):
        word = m.group(0)
        if word not in names:
            return word
        if word in dashed and m.start() and text[m.start() - 1] == ".":
            before = re.search(r"[^\s(){}\[\],;:«»\"`.]+$", text[: m.start() - 1])
            if not before or not before.group(0)[0].isupper():
                return word
        return names[word]

    return NAME.sub(new, text).replace("′", "'")


def lemmas(path, text):
    for where, old, new in LEMMAS:
        if path.startswith(where):
            text = NAME.sub(lambda m: new if m.group(0) == old else m.group(0), text)
    for where, old, new in CITED:
        if path == where:
            text = text.replace(old, new)
    return text


def edit_lines(text, words):
    """The lines of a must-fail edit that are code; a line before the first `file:` says what is wrong and stays."""
    out = []
    for line in text.splitlines(keepends=True):
        if line.startswith(("old: ", "new: ")):
            head, code = line[:5], line[5:]
            for old, new in words:
                code = re.sub(old, new, code)
            line = head + code
        out.append(line)
    return "".join(out)


def main(argv):
    top = argv[0] if argv else "."
    names = table(os.path.join(HERE, "names.txt"))
    words = [(re.compile(a), b) for a, b in (l.rstrip("\n").split("\t") for l in open(os.path.join(HERE, "edits.txt"), encoding="utf-8"))]
    dashed = constructors(names)
    for folder, dirs, files in os.walk(os.path.join(top, "crates")):
        dirs[:] = sorted(d for d in dirs if d != "out")
        for f in sorted(files):
            if not f.endswith((".antt", ".rt", ".edit")):
                continue
            path = os.path.join(folder, f)
            with open(path, encoding="utf-8") as g:
                text = g.read()
            new = lemmas(os.path.relpath(path, top), text)
            if f.endswith(".edit"):
                new = edit_lines(new, words)
            new = turned(new, names, dashed)
            if new != text:
                with open(path, "w", encoding="utf-8") as g:
                    g.write(new)
    return 0


if __name__ == "__main__":
    sys.exit(main(sys.argv[1:]))
