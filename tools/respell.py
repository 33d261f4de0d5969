#!/usr/bin/env python3
"""respell.py: brings the repository's own definitions and lemmas to today's spelling, once, after the toolchain's port.py.

Snake case for everything that is no type and no module; a dash joins two names, and a plain word is added with `_`; a lemma that would
have its function's name gets `_lem`. The table is respell.tsv beside this file, `old TAB new`, or `crate:old TAB new` for one crate alone.
Whole names are replaced: in .antt files everywhere, in .rt files in ghost lines and clauses (and, for names in camel case, in comments),
in must-fail edits by the file that they edit. It stops where two names of one file would fall together.
"""
import glob
import os
import re
import sys

NAME = re.compile(r"[^\s(){}.,;\"\[\]`]+")
HERE = os.path.dirname(os.path.abspath(__file__))
table, local = {}, {}
for line in open(os.path.join(HERE, "respell.tsv")):
    old, new = line.rstrip("\n").split("\t")
    crate, _, name = old.rpartition(":")
    (local.setdefault(crate, {}) if crate else table)[name] = new


def camel(name):
    return re.search(r"[a-z0-9][A-Z]", name) is not None


def respell(line, words, only=lambda name: True):
    return NAME.sub(lambda m: words[m[0]] if m[0] in words and only(m[0]) else m[0], line)


def clauses(text):
    """The lines of a .rt file that are ghost: `ghost use`, and clauses from their word to the brace that closes them."""
    deep, inside = 0, False
    for line in text.split("\n"):
        head = re.match(r"\s*(ghost |requires|ensures)", line)
        ghost = inside or bool(head)
        if ghost:
            deep += line.count("{") - line.count("}")
            inside = deep > 0
        yield ghost, line


def turn(path, text, words):
    if path.endswith(".antt"):
        return "\n".join(respell(line, words) for line in text.split("\n"))
    return "\n".join(respell(line, words, lambda n: ghost or camel(n)) for ghost, line in clauses(text))


def together(path, text, words):
    """Pairs of names that stand alone in this file and would become one."""
    alone = {}
    for ghost, line in clauses(text) if path.endswith(".rt") else ((True, l) for l in text.split("\n")):
        s = line.strip()
        if s.startswith(("--", "//")) or not ghost:
            continue
        for m in NAME.finditer(line):
            if m.start() and line[m.start() - 1] == "." or s.startswith(("use ", "ghost use ")) and line[m.end() : m.end() + 1] == ".":
                continue
            alone.setdefault(words.get(m[0], m[0]), set()).add(m[0])
    return [sorted(v) for v in alone.values() if len(v) > 1]


bad = False
for path in sorted(glob.glob("crates/*/src/**/*.rt", recursive=True) + glob.glob("crates/*/specs/**/*.antt", recursive=True) + glob.glob("crates/*/proofs/**/*.antt", recursive=True)):
    words = table | local.get(path.split("/")[1], {})
    text = open(path).read()
    for pair in together(path, text, words):
        print("fall together:", path, *pair)
        bad = True
    new = turn(path, text, words)
    if new != text:
        open(path, "w").write(new)
for path in sorted(glob.glob("crates/*/must-fail/*.edit")):
    words = table | local.get(path.split("/")[1], {})
    file, lines = "", []
    for line in open(path).read().split("\n"):
        key, _, text = line.partition(": ")
        if key == "file":
            file = text.strip()
        elif key in ("old", "new"):
            ghost = file.endswith(".antt") or re.search(r"ensures|requires|ghost", text) is not None
            line = key + ": " + respell(text, words, lambda n: ghost or camel(n))
        lines.append(line)
    open(path, "w").write("\n".join(lines))
sys.exit(bad)
