#!/usr/bin/env python3
"""Spells names in the pages, README.md and docs/, as the code spells them today: what stands between backticks and is no name any more, but is one in snake case.

usage: spell_pages.py     at the top, once the crates are ported
"""
import glob
import os
import re

NAME = re.compile(r"[^\W\d][\w'′?-]*")


def plain(name):
    return re.sub(r"([a-z0-9])([A-Z])", lambda m: m.group(1) + "_" + m.group(2).lower(), name).replace("-", "_").replace("′", "'")


def main():
    names = set()
    for path in glob.glob("crates/**/*", recursive=True):
        if path.endswith((".antt", ".rt", ".edit")) and "/out/" not in path:
            names.add(os.path.basename(path).rsplit(".", 1)[0])
            if not path.endswith(".edit"):
                with open(path, encoding="utf-8") as f:
                    names |= set(NAME.findall(f.read()))
    by = {}
    for name in names:
        if name[0].islower():
            by.setdefault(plain(name), set()).add(name)
    for path in ["README.md", *sorted(glob.glob("docs/*.md"))]:
        if os.path.basename(path) in ("PORT.md", "PORT-OTHER.md"):
            continue
        with open(path, encoding="utf-8") as f:
            old = f.read()

        def turn(m):
            def one(t):
                w = t.group(0)
                if w in names or not w[0].islower() or not re.search(r"-|[a-z0-9][A-Z]", w):
                    return w
                found = by.get(plain(w), set())
                return plain(w) if plain(w) in found else next(iter(found)) if len(found) == 1 else w

            return NAME.sub(one, m.group(0))

        new = re.sub(r"`[^`\n]+`", turn, old)
        if new != old:
            with open(path, "w", encoding="utf-8") as f:
                f.write(new)


if __name__ == "__main__":
    main()
