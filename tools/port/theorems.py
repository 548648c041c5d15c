#!/usr/bin/env python3
"""Lists the public lemmas and definitions of specs/ and proofs/ whose statements differ between two folders with crates/, by crate and name.

usage: theorems.py OLD NEW     OLD best as the scripts of the port left it, so that the spellings agree
"""
import glob
import re
import sys

HEAD = re.compile(r"^( *)(?:unfoldable |abbrev )*pub (?:unfoldable |abbrev )*((?:record|data|ruleset) )?([^\s:(){}.,λ→=]+)((?: \{[^}]*\}| \([^)]*\))*) : ")


def statements(root):
    found = {}
    for path in glob.glob(root + "/crates/*/proofs/*.antt") + glob.glob(root + "/crates/*/specs/*.antt"):
        crate = path[len(root) + 1:].split("/")[1]
        with open(path, encoding="utf-8") as f:
            lines = f.read().split("\n")
        for i, line in enumerate(lines):
            m = HEAD.match(line)
            if not m:
                continue
            text, deep = line.strip(), len(m.group(1))
            for more in lines[i + 1:]:
                if not more.strip() or len(more) - len(more.lstrip()) <= deep:
                    break
                text += " " + more.strip()
            found.setdefault((crate, m.group(3)), []).append(re.sub(r"\s+", " ", text))
    return found


def main(argv):
    old, new = statements(argv[0]), statements(argv[1])
    gone = [k for k in old if k not in new]
    changed = [k for k in old if k in new and sorted(old[k]) != sorted(new[k])]
    print(f"{len(old)} -> {len(new)}; gone {len(gone)}, changed {len(changed)}")
    for k in gone:
        print("gone:", *k, "|", old[k][0])
    for k in changed:
        print("changed:", *k)
        for mark, side in (("-", old), ("+", new)):
            for text in side[k]:
                print(f"    {mark} {text}")


if __name__ == "__main__":
    main(sys.argv[1:])
