#!/usr/bin/env python3
"""Gives the repository's choice by a test another name than the library's, which `rt ci` asks for: `if◌then◌else◌` becomes `if◌then◌otherwise◌`.

usage: tools/port/otherwise.py      at the top of the repository; a second run changes nothing

It turns the word `else` in the code of specs/ and proofs/, in the clauses and `ghost use` items of src/, and in edits of these. Two files of `floats` cite the library's choice and stay.
"""

import os
import re

OLD, NEW = "if◌then◌else◌", "if◌then◌otherwise◌"
# These cite the library's own.
OF_LIBRARY = {"crates/floats/src/lib.rt", "crates/floats/src/narrowing.rt"}
ELSE = re.compile(r"(?<![\w'+.-])else(?![\w'+.-])")


def of_antt(text):
    out, at = [], 0
    for m in re.finditer(r'(?<![^\s(){}.;,@"«»])--[^\n]*|"(?:\\.|[^"\\])*"', text):
        out += [ELSE.sub("otherwise", text[at : m.start()]).replace(OLD, NEW), m[0].replace(OLD, NEW)]
        at = m.end()
    out.append(ELSE.sub("otherwise", text[at:]).replace(OLD, NEW))
    return "".join(out)


CLAUSE = re.compile(r"^\s*(?:requires|ensures|ghost)\b")


def of_rust(text):
    return "\n".join(of_antt(l) if CLAUSE.match(l) else l for l in text.split("\n"))


def of_edit(text):
    inside_rust = False
    out = []
    for l in text.split("\n"):
        if l.startswith("file: "):
            inside_rust = l.strip().endswith(".rt")
        m = re.match(r"((?:old|new): ?)(.*)\Z", l)
        if m and (not inside_rust or CLAUSE.match(m[2])):
            l = m[1] + of_antt(m[2])
        out.append(l)
    return "\n".join(out)


for top in ("crates", "tools/wrong/edits"):
    for above, folders, files in os.walk(top):
        folders[:] = sorted(f for f in folders if f != "out")
        for f in sorted(files):
            path = os.path.join(above, f)
            turn = of_antt if f.endswith(".antt") else of_rust if f.endswith(".rt") else of_edit if f.endswith(".edit") else None
            if turn and path not in OF_LIBRARY:
                with open(path, encoding="utf-8") as it:
                    text = it.read()
                new = turn(text)
                if new != text:
                    with open(path, "w", encoding="utf-8") as it:
                        it.write(new)
