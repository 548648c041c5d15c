#!/usr/bin/env python3
"""Spells the must-fail edits as the ported files are spelled: tight projections, plain names for «names», x.new and x.old of a lent buffer, snake case.

usage: spell_edits.py     at the top, once, after spell_names.py
An edit whose text stands stays as it is, but for definitions' text, which is always spelled anew. What still does not stand is printed, and is brought over by hand.
"""
import glob
import os
import re

CAMEL = re.compile(r"(?<![\w])([a-z][\w]*[a-z0-9][A-Z][\w']*)")


def snake(m):
    return re.sub(r"([a-z0-9])([A-Z])", lambda k: k.group(1) + "_" + k.group(2).lower(), m.group(0))


def spelled(text):
    text = re.sub(r"«(\w+)»", r"\1", text)
    text = re.sub(r"\(now \((\w+) \.exit\)\)", r"\1.new", text)
    text = re.sub(r"\(now \((\w+) \.entry\)\)", r"\1.old", text)
    text = re.sub(r"\bnow \((\w+) \.exit\)", r"\1.new", text)
    text = re.sub(r"\bnow \((\w+) \.entry\)", r"\1.old", text)
    text = re.sub(r"\(([\w']+) \.(\w+)\)", r"\1.\2", text)
    text = re.sub(r"([\w')]) \.(\w+)", r"\1.\2", text)
    text = text.replace("⌜ ", "").replace(" ⌝", "")
    return CAMEL.sub(snake, text)


def pairs(lines):
    """The numbers of the lines of each pair, with its file."""
    file, old = None, None
    for n, line in enumerate(lines):
        if line.startswith("file: "):
            file = line[6:].strip()
        elif line.startswith("old: "):
            old = n
        elif line.startswith("new:"):
            yield file, old, n


def main():
    for path in sorted(glob.glob("crates/*/must-fail/*.edit")):
        crate = path.split("/must-fail/")[0]
        with open(path, encoding="utf-8") as f:
            lines = f.read().split("\n")
        texts, left = {}, []
        for file, old, new in pairs(lines):
            target = os.path.join(crate, file)
            if target not in texts:
                with open(target, encoding="utf-8") as f:
                    texts[target] = f.read()
            stands = texts[target].count(lines[old][5:]) == 1
            if not stands or target.endswith(".antt"):
                lines[old] = "old: " + spelled(lines[old][5:])
                lines[new] = "new: " + spelled(lines[new][5:])
            if texts[target].count(lines[old][5:]) != 1:
                left.append(lines[old])
            texts[target] = texts[target].replace(lines[old][5:], lines[new][5:])
        with open(path, "w", encoding="utf-8") as f:
            f.write("\n".join(lines))
        for line in left:
            print(path, line)


if __name__ == "__main__":
    main()
