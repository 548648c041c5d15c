#!/usr/bin/env python3
"""Tries, in the crate of the current folder, which proof files of functions the check can do without.

    tools/design/found_alone.py [FUNCTION..]        FUNCTION as its folder in proofs/ is called: Setup/check, lowest_in

A file proofs/F/Answers.antt is moved aside. What it unfolds is named on the function, as #[tactic(auto, unfolding(..))], and with
--lemmas also the lemmas of proofs/ that it cites, as using(..). Then the crate is checked. A file whose function falls is put back,
with the function as it was. What is left is for `rt check` and `rt tidy`.
"""
import glob
import os
import re
import subprocess
import sys

CRATE = os.path.basename(os.getcwd())
LEMMAS = "--lemmas" in sys.argv
WANTED = [a for a in sys.argv[1:] if not a.startswith("--")]


def answers():
    for path in sorted(glob.glob("proofs/*/Answers.antt") + glob.glob("proofs/*/*/Answers.antt")):
        name = os.path.dirname(path)[len("proofs/"):]
        if not WANTED or name in WANTED:
            yield name, path


def place(name):
    """The file and the offset of the line of `fn`, with its indent; None where it is not found once."""
    *owner, f = name.split("/")
    found = []
    for path in sorted(glob.glob("src/**/*.rt", recursive=True)):
        text = open(path).read()
        for m in re.finditer(r"^( *)(?:pub(?:\([a-z]+\))? )?(?:extern \"C\" )?fn " + re.escape(f) + r"\b", text, re.M):
            if bool(m.group(1)) == bool(owner):
                found.append((path, m.start(), m.group(1)))
    return found[0] if len(found) == 1 else None


def paths(text):
    """name -> module path, of the imports of a proof file"""
    where = {}
    for m in re.finditer(r"^use (Rattle\.[\w.]+)\.\{([^}]*)\}", text, re.M):
        for item in m.group(2).split(","):
            item = item.strip().split(" as ")[0]
            where[item] = m.group(1)
    return where


def as_path(module, name):
    parts = module.split(".")[1:]
    head = "crate" if parts[0] == CRATE else parts[0]
    return "::".join([head] + parts[1:] + [name])


def attribute(text):
    where = paths(text)
    unfolded = {n for m in re.finditer(r"^unfolding (.+)$", text, re.M) for n in re.split(r"[ ,]+", m.group(1).strip())}
    unfold = sorted(as_path(where[n], n) for n in unfolded if n in where)
    parts = ["auto"]
    if LEMMAS:
        body = re.sub(r"^use .*$", "", text, flags=re.M)
        lemmas = sorted(as_path(m, n) for n, m in where.items()
                        if ".proofs." in m and not m.startswith("Rattle.std") and re.fullmatch(r"\w+", n) and re.search(r"(?<![\w-])" + n + r"(?![\w-])", body))
        if lemmas:
            parts.append("using(" + ", ".join(lemmas) + ")")
    if unfold:
        parts.append("unfolding(" + ", ".join(unfold) + ")")
    return "#[tactic(" + ", ".join(parts) + ")]" if len(parts) > 1 else None


def check():
    run = subprocess.run(["rt", "check"], capture_output=True, text=True)
    return run.stdout + run.stderr


def main():
    aside, sources = {}, {}
    for name, path in list(answers()):
        text = open(path).read()
        at = place(name)
        if at is None:
            print(f"{name}: not found once in src/")
            continue
        note = attribute(text)
        source = open(at[0]).read()
        if note and "#[tactic(" not in source[max(0, at[1] - 300):at[1]].split("}")[-1]:
            source = source[:at[1]] + at[2] + note + "\n" + source[at[1]:]
            open(at[0], "w").write(source)
        elif note:
            continue
        aside[name] = (path, text, at[0], at[2] + note + "\n" if note else "")
        os.remove(path)
    said = check()
    fallen = {m.group(1).split("::", 1)[1].replace("::", "/") for m in re.finditer(r"^fn ([\w:<>]+): (?!proved)", said, re.M) if "it calls" not in m.group(0)}
    lines = {m.group(1).split("::", 1)[1].replace("::", "/"): m.group(0) for m in re.finditer(r"^fn ([\w:<>]+): (?!proved).*$", said, re.M)}
    kept = 0
    for name, (path, text, source_path, note) in aside.items():
        # a module's name may stand before the function's
        line = next((l for n, l in lines.items() if n == name or n.endswith("/" + name)), None)
        if line is not None and ("expected answers" in line or "not proved" in line and "it calls" not in line or "did not prove" in line):
            open(path, "w").write(text)
            if note:
                source = open(source_path).read()
                f = name.split("/")[-1]
                i = next(m.start() for m in re.finditer(re.escape(note), source) if re.match(r" *(?:pub(?:\([a-z]+\))? )?(?:extern \"C\" )?fn " + re.escape(f) + r"\b", source[m.end():]))
                open(source_path, "w").write(source[:i] + source[i + len(note):])
            kept += 1
            print(f"needed: {name}")
        else:
            print(f"gone: {name}" + (f"    {note.strip()}" if note else ""))
    print(f"{len(aside) - kept} files gone, {kept} needed")


main()
