#!/usr/bin/env python3
"""Takes out of Answers.antt each answer that a check refused, so that the check's own search is tried on its goal.

usage: drop_failed.py CRATE LOG [FUNCTION..]     at the top; LOG is what `rt check` said. An answer under `unfolding` gets the search below that line instead.
"""
import os
import re
import sys


def main(argv):
    crate, log, only = argv[0], argv[1], argv[2:]
    with open(log, encoding="utf-8") as f:
        said = f.read()
    failed = {}
    for path, name in re.findall(r"^\./(proofs/\S+/Answers\.antt):\d+:\d+: error: `([^`]+)`", said, re.M):
        failed.setdefault(path, set()).add(name)
    for path, names in failed.items():
        if only and path.split("/")[-2] not in only:
            continue
        file = os.path.join("crates", crate, path)
        with open(file, encoding="utf-8") as f:
            blocks = f.read().rstrip("\n").split("\n\n")
        kept, rules = [], False
        for b in blocks:
            m = re.search(r"^pub (\S+) : goal\.(\S+)(?:\nunfolding [^\n]*)?", b, re.M)
            if not m or m.group(1) not in names:
                kept.append(b)
            elif "unfolding" in m.group(0) and "search rules" not in b:
                kept.append(m.group(0) + f"\n{m.group(1)} c = search rules")
                rules = True
        text = "\n\n".join(kept) + "\n"
        if not re.search(r"^pub ", text, re.M) and len(kept) <= 1:
            os.remove(file)
            if not os.listdir(os.path.dirname(file)):
                os.rmdir(os.path.dirname(file))
            continue
        if rules and not re.search(r"\{[^}]*\brules\b", text):
            text = re.sub(r"^(use )", r"use Rattle.std.proofs.Common.{rules}\n\1", text, count=1, flags=re.M)
        with open(file, "w", encoding="utf-8") as f:
            f.write(text)


if __name__ == "__main__":
    main(sys.argv[1:])
