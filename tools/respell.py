#!/usr/bin/env python3
"""Turns this repository's own definitions and lemmas to today's spelling: words in snake case.

usage: python3 tools/respell.py [--say]     at the top, once, behind the toolchain's own port.py; --say: only lists what would change

A name is turned wherever a dash or the whole of it is a word in camel case that one of the files of specs/ or proofs/ declares:
`liveStep` to `live_step`, `upToBy-none` to `up_to_by-none`. Functions, fields and constants of src/ keep their names, and so do types,
modules and constructors, which begin with a capital. Names that would fall together with one that stands there are told apart by APART.
"""

import collections
import os
import re
import sys

CAMEL = re.compile(r"^[a-z][a-z0-9]*(?:[A-Z][A-Za-z0-9]*)+$")
TOKEN = re.compile(r"(?<![\w'\-])[A-Za-z_][\w']*(?:-[\w'*]+)*")
SIGNATURE = re.compile(r"^\s*(?:(?:abbrev|unfoldable|pub|infixl|infixr|infix|\d+)\s+)*([A-Za-z_][\w'\-]*(?:\s+[A-Za-z_][\w'\-]*)*)\s+:(?=\s)")
BINDING = re.compile(r"\b(?:let|pub)\s+([A-Za-z_][\w'\-]*)\s+:")
# lemmas that would have their definition's name, in files of antt and where no path goes on behind them
APART = {w: w + "_lem" for w in ("in_all", "moved_on", "read_answer", "write_low")}


def snake(word):
    return re.sub(r"(?<=[a-z0-9])([A-Z])", lambda m: "_" + m.group(1).lower(), word)


def files(root, folders, endings):
    for top in folders:
        for folder, dirs, names in os.walk(os.path.join(root, top)):
            dirs[:] = sorted(d for d in dirs if d not in ("out", ".git", "target", "src") or d == "src" and top == "crates")
            for name in sorted(names):
                if name.endswith(endings):
                    yield os.path.join(folder, name)


def read(path):
    with open(path, encoding="utf-8") as f:
        return f.read()


def declared(root):
    """The words in camel case that the files of specs/ and proofs/ declare."""
    words = set()
    for path in files(root, ["crates"], (".antt",)):
        for line in read(path).split("\n"):
            names = []
            m = SIGNATURE.match(line)
            if m:
                names += m.group(1).split()
            names += BINDING.findall(line)
            for name in names:
                words.update(w for w in name.split("-") if CAMEL.match(w) and not re.match(r"^[a-z]\d*[A-F]$", w))
    return words


def turn(text, words, antt):
    def token(m):
        t = m.group(0)
        if antt and t in APART and text[m.end() : m.end() + 1] != ".":
            return APART[t]
        return "-".join(snake(w) if w in words else w for w in t.split("-"))

    return TOKEN.sub(token, text)


def main(argv):
    root = "."
    words = declared(root)
    standing = collections.Counter()
    for path in files(root, ["crates"], (".antt",)):
        standing.update(TOKEN.findall(read(path)))
    for word in sorted(words):
        if snake(word) in standing and snake(word) not in APART:
            print(f"falls together: {word}: {snake(word)} stands {standing[snake(word)]} times", file=sys.stderr)
    if "--say" in argv:
        for word in sorted(words):
            print(word, snake(word))
        return
    paths = list(files(root, ["crates"], (".antt", ".rt", ".edit"))) + list(files(root, ["docs", "oracle"], (".md",))) + ["README.md"]
    # what the toolchain's own script turned still has its older name in documents and edits
    older = set()
    for path in paths:
        if path.endswith((".md", ".edit")):
            older.update(w for t in TOKEN.findall(read(path)) for w in t.split("-") if CAMEL.match(w) and snake(w) in standing)
    changed = 0
    for path in paths:
        old = read(path)
        new = turn(old, words if path.endswith((".antt", ".rt")) else words | older, path.endswith(".antt"))
        if new != old:
            changed += 1
            with open(path, "w", encoding="utf-8") as f:
                f.write(new)
    print(f"respell: {len(words)} words, {changed} files")


if __name__ == "__main__":
    main(sys.argv[1:])
