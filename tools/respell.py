#!/usr/bin/env python3
"""Brings the repository's own definitions and lemmas to the spelling of today's Rattle: words in snake case, types and facts
in camel case. usage: python3 tools/respell.py [FOLDER]   (once, after port.py; FOLDER is the top of a checkout)

Names are taken from specs/*.antt and proofs/*.antt of every crate. A name that Rattle makes (of a goal, a loop or a step) and
a lemma length-X, which says whose length it gives, keep their dash. Comments and strings are left as they are."""

import glob
import os
import re
import sys

KEPT = re.compile(r"length-")
WORDS = "(?:abbrev |unfoldable |pub |record |data )*"
NAME = r"[A-Za-z][A-Za-z0-9_'-]*"


def own_names(text):
    """The names that a file of definitions or lemmas declares, fields and constructors with them."""
    found = set()
    code = "\n".join(l.split("--")[0] if l.lstrip().startswith("--") else l for l in text.splitlines())
    for m in re.finditer(rf"^({WORDS})({NAME})(?: [^\n:=]*)? ?:(?:\s|$)", code, re.M):
        found.add((m[2], "data" in m[1] or "record" in m[1]))
    for m in re.finditer(rf"^  (?:pub )?((?:{NAME} )+): ", code, re.M):
        found.update((n, False) for n in m[1].split() if n != "pub")
    return found


def respelled(name, constructors):
    if name[0].isupper() and name not in constructors:
        return "".join(p[0].upper() + p[1:] for p in name.split("-"))
    if name in constructors:
        return name.replace("-", "_").lower()
    return name.replace("-", "_")


def pieces(text, path):
    """The text cut into parts, each with whether it is code."""
    if path.endswith(".edit"):
        return [(text, True)]
    if path.endswith(".antt"):
        cut = re.split(r"(--[^\n]*|\"[^\"\n]*\")", text)
    else:
        cut = re.split(r"(//[^\n]*|\"(?:[^\"\\]|\\.)*\")", text)
    return [(p, i % 2 == 0) for i, p in enumerate(cut)]


def main(argv):
    top = argv[0] if argv else "."
    files = sorted(p for e in ("rt", "antt", "edit") for p in glob.glob(os.path.join(top, "crates", "**", "*." + e), recursive=True) if "/out/" not in p)
    texts = {p: open(p, encoding="utf-8").read() for p in files}
    names, constructors = set(), set()
    for p in files:
        if re.search(r"/(specs|proofs)/[A-Z]\w*\.antt$", p) and re.search(r"/crates/\w+/(specs|proofs)/\w+\.antt$", "/" + os.path.relpath(p, top)):
            names |= {n for n, _ in own_names(texts[p])}
            for m in re.finditer(rf"^(?:pub )?data [^\n]*where\n((?:  [^\n]*\n)+)", texts[p], re.M):
                for line in m[1].splitlines():
                    if " : " in line:
                        constructors.update(line.split(" : ")[0].split())
    turn = {n: respelled(n, constructors) for n in names if "-" in n and not KEPT.match(n)}
    taken = {w for t in texts.values() for w in re.findall(r"[A-Za-z_][A-Za-z0-9_']*(?:-[A-Za-z0-9_']+)*", t)}
    for n, to in sorted(turn.items()):
        if to in taken:
            print(f"look: {n} becomes {to}, which stands elsewhere too")
        if sorted(turn.values()).count(to) > 1:
            print(f"look: {to} has two sources")
    word = re.compile(r"(?<![\w'·-])(" + "|".join(sorted(map(re.escape, turn), key=len, reverse=True)) + r")(?![\w'-])")
    changed = 0
    for p, t in texts.items():
        new = "".join(word.sub(lambda m: turn[m[1]], part) if code else part for part, code in pieces(t, p))
        if new != t:
            changed += 1
            with open(p, "w", encoding="utf-8") as f:
                f.write(new)
    print(f"respell: {len(turn)} names, {changed} files")


if __name__ == "__main__":
    main(sys.argv[1:])
