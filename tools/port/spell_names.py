#!/usr/bin/env python3
"""Spells the definitions and lemmas of this repository in snake case: camelCase names that its .antt files declare or bind.

usage: spell_names.py [--pages]     at the top, once, after port.py
Without --pages it turns crates/ (.antt, .rt, .edit); with it README.md and docs/.
Functions of src/, exported names, types, modules and strings keep their names. A lemma whose snake-case name a definition takes gets '_lem'.
"""
import os
import re
import sys

NAME = re.compile(r"[^\W\d][\w'′?-]*")
CAMEL = re.compile(r"([a-z0-9])([A-Z])")
# Lemmas and local names that a definition's new name would hide, by the file that has them.
LEMMAS = {
    "crates/best_finder/proofs/Going.antt": ["going_on"],
    "crates/best_finder/proofs/search_from_start/Proof.antt": ["going_on"],
    "crates/rival_pricer/proofs/Loop.antt": ["going_on"],
    "crates/best_lowest/proofs/Lowest.antt": ["same_at"],
    "crates/best_positions/proofs/SoFar.antt": ["way_back"],
    "crates/best_schedule/proofs/Found.antt": ["way_back"],
    "crates/best_search/proofs/Answer.antt": ["too_many"],
    "crates/trace_report/proofs/Laws.antt": ["after_read"],
}


def snake(name):
    return CAMEL.sub(lambda m: m.group(1) + "_" + m.group(2).lower(), name)


def files(tops, ends):
    for top in tops:
        if os.path.isfile(top):
            yield top
        for folder, dirs, names in os.walk(top):
            dirs[:] = sorted(d for d in dirs if d != "out")
            for name in sorted(names):
                if name.endswith(ends):
                    yield os.path.join(folder, name)


def code(text):
    return re.sub(r'--[^\n]*|//[^\n]*|"[^"\n]*"', "", text)


def own_names():
    """Names in camel case that stand in the code of an .antt file, and in no import of a library."""
    found, library = set(), set()
    for path in files(["crates"], (".antt",)):
        with open(path, encoding="utf-8") as f:
            text = code(f.read())
        for m in re.finditer(r"use (?:mathlib|native|lib|borrow|denote|Prim|Rattle\.(?:std|core)[\w]*)\.[^;{\n]*\{([^}]*)\}", text):
            library |= set(NAME.findall(m.group(1)))
        found |= {n for n in NAME.findall(text) if n[0].islower() and CAMEL.search(n)}
    return found - library


def main(argv):
    names = own_names() if "--pages" not in argv else None
    if names is not None:
        turned = {n: snake(n) for n in names}
        with open("tools/port/names.txt", "w", encoding="utf-8") as f:
            f.write("".join(f"{n} {turned[n]}\n" for n in sorted(names)))
        places = files(["crates"], (".antt", ".rt", ".edit"))
    else:
        with open("tools/port/names.txt", encoding="utf-8") as f:
            turned = dict(line.split() for line in f)
        places = files(["README.md", "docs"], (".md",))
    for path in places:
        with open(path, encoding="utf-8") as f:
            old = f.read()
        new = old
        for lemma in LEMMAS.get(path, []):
            new = re.sub(rf"(?<![\w.'-]){lemma}(?![\w'-])", lemma + "_lem", new)
        new = NAME.sub(lambda m: turned.get(m.group(0), m.group(0)), new)
        if new != old:
            with open(path, "w", encoding="utf-8") as f:
                f.write(new)


if __name__ == "__main__":
    main(sys.argv[1:])
