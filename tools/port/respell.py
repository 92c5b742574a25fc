#!/usr/bin/env python3
"""Brings the repository's own names to the spelling of today's Rattle, after port.py: definitions and lemmas in snake case, types and facts in camel case.

usage: tools/port/respell.py [--check]      at the top of the repository, once, on what port.py left

    with-wires, runs-left≔, exec-Buffer  ->  with_wires, runs_left≔, exec-Buffer       (a dash before a capital joins two names, and stays)
    In-order, SendEvent-at               ->  InOrder, SendEventAt

It turns each name with a dash in specs/, proofs/, the clauses and `ghost use` items of src/, and code spans of comments there. A name that a file brings from a library
stays; so do the names that Rattle makes of a goal or a step (`tie.`, behind `c`), since proofs of functions are turned by other means. The crate `log` has the name of a
library of the kit: it becomes `logging`.
Names that fall together, or that meet a name of the source, are printed. --check writes nothing.
"""

import os
import re
import sys

CRATES = [l.split(":")[0].split()[0] for l in open("crates.txt", encoding="utf-8") if ":" in l]
OLD_LOG, NEW_LOG = "log", "logging"
WORD = re.compile(r"[^\s(){}.;,@\"«»\[\]`]+")
USE = re.compile(r"^[ \t]*(?:(?:pub|ghost|unfoldable) )*use ([^\s{;]+?)(?:\.\{([^}]*)\})?(?: as (\S+?))?;?[ \t]*$", re.M)
# Names that would meet one that a library has: `of_int`, `is_nan` and `of_fields` of IEEE 754.
SPECIAL = {"of-int": "float_of_int", "is-nan": "is_nan_lem", "of-fields": "of_fields_lem"}
DASH = re.compile(r"(?<=[\w'₀-₉])-(?=[a-z0-9_₀-₉])")
RUST_CRATE = re.compile(r"(?<![\w:.])log::")


def dashed(w):
    return re.search(r"\w-\w", w) is not None


def new_name(w):
    if w in SPECIAL:
        return SPECIAL[w]
    if re.match(r"[A-Z]", w):
        return re.sub(r"-(\w)", lambda m: m[1].upper(), w)
    return DASH.sub("_", w)


def of_repo(path):
    parts = path.split(".")
    return parts[0] == "Rattle" and len(parts) > 1 and parts[1] in CRATES


def from_libraries(text):
    """The names with a dash that the file brings from a library."""
    found = set()
    for path, items, alias in USE.findall(text):
        if of_repo(path):
            continue
        for it in items.split(","):
            name = it.split(" as ")[0].strip()
            if dashed(name):
                found.add(name)
    return found


def files(ending, folders):
    for c in CRATES:
        for top in folders:
            for above, ds, fs in os.walk(os.path.join("crates", c, top)):
                ds.sort()
                for f in sorted(fs):
                    if f.endswith(ending):
                        yield os.path.join(above, f)


def pieces(text, rust):
    """The text in pieces: (True, code) or (False, comment or string)."""
    pattern = r'//[^\n]*|"(?:\\.|[^"\\])*"' if rust else r'(?<![^\s(){}.;,@"«»])--[^\n]*|"(?:\\.|[^"\\])*"'
    at = 0
    for m in re.finditer(pattern, text):
        yield True, text[at : m.start()]
        yield False, m[0]
        at = m.end()
    yield True, text[at:]


def turned(text, keep, rust, said, made=frozenset()):
    def word(m):
        w = m[0]
        if not dashed(w) or w in keep:
            return w
        before = text_now[0][: m.start()]
        if re.search(r"(?:^|[^\w.'-])(?:tie|\S*lts)\.$", before):
            return w
        if w in made and not before.endswith("."):
            return w
        n = new_name(w)
        said.setdefault(n, set()).add(w)
        return n

    out = []
    text_now = [""]
    for code, piece in pieces(text, rust):
        if code:
            text_now[0] = piece
            out.append(WORD.sub(word, piece))
        elif piece.startswith(("//", "--")):

            def span(m):
                text_now[0] = m[0]
                return WORD.sub(word, m[0])

            out.append(re.sub(r"`[^`\n]*`", span, piece))
        else:
            out.append(piece)
    return "".join(out)


def crate_renamed(text, rust):
    text = re.sub(rf"\bRattle\.{OLD_LOG}\.", f"Rattle.{NEW_LOG}.", text)
    if rust:
        text = re.sub(rf"^(use ){OLD_LOG}(::|;)", rf"\1{NEW_LOG}\2", text, flags=re.M)
        text = RUST_CRATE.sub(f"{NEW_LOG}::", text)
    return text


def main(argv):
    write = "--check" not in argv
    rust_names = set()
    for p in files(".rt", ["src"]):
        t = open(p, encoding="utf-8").read()
        rust_names |= set(re.findall(r"\b(?:struct|enum|trait|type)\s+(\w+)", t))
    clash = 0
    for p in [*files(".antt", ["specs", "proofs"]), *files(".rt", ["src"])]:
        rust = p.endswith(".rt")
        text = open(p, encoding="utf-8").read()
        keep = from_libraries(text)
        made = set(re.findall(r"^(?:abbrev )?(\S+) : (?:tie|\S*lts)\.", text, re.M))
        said = {}
        new = turned(text, keep, rust, said, made)
        words = set(WORD.findall(re.sub(r"--[^\n]*|//[^\n]*", "", text)))
        for n, olds in sorted(said.items()):
            if len(olds) > 1 or n in words:
                clash += 1
                print(f"clash: {p}: {n} from {sorted(olds)}{' beside itself' if n in words else ''}")
            if re.match("[A-Z]", n) and n in rust_names:
                clash += 1
                print(f"clash: {p}: {n} is a type of the source")
        new = crate_renamed(new, rust)
        if new != text and write:
            open(p, "w", encoding="utf-8").write(new)
    if write:
        t = open("crates.txt", encoding="utf-8").read()
        lines = []
        for l in t.split("\n"):
            head, colon, rest = l.partition(":")
            if colon:
                head = NEW_LOG if head == OLD_LOG else head
                rest = " ".join(NEW_LOG if w == OLD_LOG else w for w in rest.split())
                l = f"{head}: {rest}".rstrip()
            lines.append(l)
        open("crates.txt", "w", encoding="utf-8").write("\n".join(lines))
        if os.path.isdir(f"crates/{OLD_LOG}"):
            os.rename(f"crates/{OLD_LOG}", f"crates/{NEW_LOG}")
    print(f"respell: {clash} places to look at")
    return 0


if __name__ == "__main__":
    sys.exit(main(sys.argv[1:]))
