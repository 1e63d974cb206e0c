#!/usr/bin/env python3
"""Spells this repository's own definitions and lemmas as the library does: in snake case, with a dash only between the names of two functions.

usage: tools/respell.py [FOLDER]      FOLDER is the top of a checkout; the default is this one. Run it once, after the toolchain's own script.

tools/respelled.tsv has a row for each name. Whole words turn, in .antt files and in the clauses of .rt files; comments keep their dashes. A field that the
toolchain makes of a variable, as w.book-is, stays; so does a name of the program itself.
"""

import os
import re
import sys

HERE = os.path.dirname(os.path.realpath(__file__))
WORD = re.compile(r'[^\s(){}.;,@"«»]+')
ANSWERS = re.compile(r"/proofs/.*/(Answers|Invariants)\.antt$")


def table():
    with open(os.path.join(HERE, "respelled.tsv"), encoding="utf-8") as f:
        return dict(line.rstrip("\n").split("\t") for line in f if not line.startswith("#"))


def turned(text, rows, answers):
    """The code `text` with each name respelled."""

    def one(m):
        old, before, behind = m[0], text[: m.start()], text[m.end() :]
        if old not in rows:
            return old
        # A name that was in snake case before is only an item of a list or a use of its own, never a step of a path.
        if "-" not in old and old.islower() and (before.endswith(".") or behind.startswith(".")):
            return old
        if answers and old.endswith("-is") and re.search(r"(?<![\w.])w\.$", before):
            return old
        return rows[old]

    return WORD.sub(one, text)


def respelled(text, rows, answers, mark):
    lines = []
    for line in text.split("\n"):
        code, sign, comment = line.partition(mark)
        camel = {old: new for old, new in rows.items() if "-" not in old and not old.islower()}
        lines.append(turned(code, rows, answers) + sign + re.sub(r"\w+", lambda m: camel.get(m[0], m[0]), comment))
    return "\n".join(lines)


def main():
    top = sys.argv[1] if len(sys.argv) > 1 else os.path.join(HERE, "..")
    rows = table()
    in_code = {old: new for old, new in rows.items() if not old.islower() or "-" in old}
    for folder, folders, files in os.walk(os.path.join(top, "crates")):
        folders[:] = sorted(set(folders) - {"out", "must-fail", "data"})
        for name in sorted(files):
            path = os.path.join(folder, name)
            if not name.endswith((".antt", ".rt")):
                continue
            with open(path, encoding="utf-8") as f:
                old = f.read()
            if name.endswith(".antt"):
                new = respelled(old, rows, bool(ANSWERS.search(path)), "-- ")
            else:
                new = respelled(old, in_code, False, "// ")
            if new != old:
                with open(path, "w", encoding="utf-8") as f:
                    f.write(new)


if __name__ == "__main__":
    main()
