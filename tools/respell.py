#!/usr/bin/env python3
"""Brings the names of definitions, record fields and lemmas to one spelling: words in snake case, types and
modules in camel case.

usage: respell.py [FOLDER]

FOLDER (by default the current one) holds crates/. The table respell.tsv beside this file has a row for each
name: old, new, the files below crates/ in which it is turned ('*' for all, else patterns), and maybe another
name, without which a file's row does not hold: a file that has been turned lacks it. Turned are the
files of specs/ and proofs/, and in .rt files clauses, imports of specs/ and comments; what stands in quotes
there stays. The names of the paper on Memcheck (UifU, Left, PCast, ZWiden, SWiden) stay as they are in
comments. A second run changes nothing."""
import fnmatch
import os
import re
import sys

HERE = os.path.dirname(os.path.abspath(__file__))
PAPER = {"UifU", "Left", "PCast", "ZWiden", "SWiden"}


def table():
    rows = []
    for line in open(os.path.join(HERE, "respell.tsv"), encoding="utf-8"):
        old, new, where, beside = (line.rstrip("\n").split("\t") + [""])[:4]
        rows.append((old, new, where.split(), beside))
    return rows


def turned(text, names, leave=()):
    return re.sub(r"[^\s(){}\[\],;:.λ|=\"`!&<>*/\\]+",
                  lambda m: names[m[0]] if m[0] in names and m[0] not in leave else m[0], text)


def line_of(line, names, rust):
    """One line: code before a comment, and the comment."""
    mark = "//" if rust else "--"
    at = -1
    if rust:
        at = line.find(mark)
    else:
        m = re.search(r"(^|\s)-- ", line)
        at = m.start() if m else -1
    code, comment = (line, "") if at < 0 else (line[:at], line[at:])
    if rust and '"' in code:
        parts = re.split(r'("(?:[^"\\]|\\.)*")', code)
        code = "".join(p if p.startswith('"') else turned(p, names) for p in parts)
    else:
        code = turned(code, names)
    return code + turned(comment, names, PAPER)


def main():
    top = os.path.join(sys.argv[1] if len(sys.argv) > 1 else ".", "crates")
    rows = table()
    for folder, dirs, files in os.walk(top):
        dirs[:] = [d for d in dirs if d != "out"]
        for name in files:
            if not name.endswith((".antt", ".rt")):
                continue
            path = os.path.join(folder, name)
            below = os.path.relpath(path, top)
            old = open(path, encoding="utf-8").read()
            names = {
                o: n
                for o, n, where, beside in rows
                if (where == ["*"] or any(fnmatch.fnmatch(below, p) for p in where)) and beside in old
            }
            new = "\n".join(line_of(l, names, name.endswith(".rt")) for l in old.split("\n"))
            if new != old:
                open(path, "w", encoding="utf-8").write(new)


main()
