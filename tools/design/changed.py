#!/usr/bin/env python3
"""Prints, as Markdown, what is public and changed between two folders with crates/: functions with their clauses, types with their
invariants, definitions of specs/, the statements of proofs/, and must-fail edits.

    tools/design/changed.py OLD NEW
"""
import glob
import re
import sys


def blocks_of_source(root):
    """(crate, kind, name) -> text, of public functions (up to the body) and types"""
    found = {}
    for path in sorted(glob.glob(root + "/crates/*/src/**/*.rt", recursive=True)):
        crate = path[len(root) + 1:].split("/")[1]
        text = open(path, encoding="utf-8").read()
        owner = ""
        lines = text.split("\n")
        i = 0
        while i < len(lines):
            line = lines[i]
            m = re.match(r"^(?:pub )?(?:impl|trait)(?:<[^>]*>)? ?(.*?)(?: where.*)? \{$", line)
            if m:
                owner = re.sub(r"^pub trait ", "", m.group(1)) + "::"
            elif line == "}":
                owner = ""
            m = re.match(r"^( *)(pub )?(?:extern \"C\" )?fn (\w+)", line)
            in_trait = owner and m and not m.group(2) and re.match(r"^pub trait", "")
            if m and (m.group(2) or in_trait):
                head = []
                while i < len(lines):
                    if re.match(r"^" + m.group(1) + r"\{", lines[i]):
                        break
                    head.append(lines[i])
                    if lines[i].endswith("{") and "(" in lines[i] and ")" in lines[i] and not re.search(r"\{ .* \}?$", lines[i]):
                        head[-1] = lines[i][:-1].rstrip()
                        break
                    i += 1
                found[(crate, "fn", owner + m.group(3))] = "\n".join(x.strip() for x in head)
            m = re.match(r"^pub (struct|enum|trait) (\w+)", line)
            if m:
                body = [line]
                if line.endswith("{"):
                    while lines[i] != "}":
                        i += 1
                        body.append(lines[i])
                if i and lines[i - len(body)].startswith("#[derive"):
                    body.insert(0, lines[i - len(body)])
                found[(crate, m.group(1), m.group(2))] = "\n".join(x for x in body if not x.strip().startswith("//"))
            i += 1
    return found


HEAD = re.compile(r"^( *)(?:(?:unfoldable|abbrev) )*pub (?:(?:unfoldable|abbrev) )*(?:(record|data|ruleset) )?([^\s:(){}.,λ→=]+)")


def blocks_of_logic(root, folder):
    """(crate, kind, name) -> text: of specs/ a definition whole, of proofs/ the statement alone"""
    found = {}
    for path in sorted(glob.glob(f"{root}/crates/*/{folder}/*.antt")):
        crate = path[len(root) + 1:].split("/")[1]
        lines = open(path, encoding="utf-8").read().split("\n")
        for i, line in enumerate(lines):
            m = HEAD.match(line)
            if not m or line.startswith("pub mod") or line.startswith("pub use") or (m.group(1) and folder == "specs"):
                continue
            body = [line]
            for later in lines[i + 1:]:
                if not later.strip():
                    break
                if folder == "proofs" and (re.match(r"^" + m.group(1) + re.escape(m.group(3)) + r"(?= |$)", later) or later.strip().startswith("unfolding")):
                    break
                body.append(later)
            found.setdefault((crate, m.group(2) or "definition", m.group(3)), "\n".join(body))
    return found


def edits(root):
    """(crate, kind, name) -> text, of each must-fail edit"""
    return {(path[len(root) + 1:].split("/")[1], "edit", path.split("/")[-1][:-5]): open(path, encoding="utf-8").read().strip()
            for path in sorted(glob.glob(root + "/crates/*/must-fail/*.edit"))}


def plain(text):
    return " ".join(text.split())


def show(title, old, new):
    # a thing that lies in another crate now is the same thing
    by_name = {}
    for key in new:
        by_name.setdefault(key[1:], []).append(key)
    gone, moved, changed = [], [], []
    for key, text in old.items():
        there = key if key in new else next((k for k in by_name.get(key[1:], []) if k not in old), None)
        if there is None:
            gone.append(key)
        elif plain(new[there]) != plain(text):
            changed.append((key, there))
        elif there != key:
            moved.append((key, there))
    met = {there for _, there in changed + moved} | set(old)
    added = [key for key in new if key not in met]
    print(f"### {title}\n\n{len(old)} before, {len(new)} now: {len(changed)} changed, {len(moved)} moved as they were, {len(gone)} gone, {len(added)} new.\n")
    for key, there in changed:
        place = key[0] if key[0] == there[0] else f"{key[0]}, now {there[0]}"
        print(f"{place}: `{key[2]}`\n\n```diff")
        for line in old[key].split("\n"):
            print("- " + line)
        for line in new[there].split("\n"):
            print("+ " + line)
        print("```\n")
    for name, keys in [("Moved as they were", [f"`{k[2]}` ({k[0]}, now {t[0]})" for k, t in moved]),
                       ("Gone", [f"`{k[2]}` ({k[0]})" for k in gone])]:
        if keys:
            print(f"{name}: {', '.join(keys)}.\n")
    if added:
        print("New:\n\n```")
        for key in added:
            print(f"{key[0]}:")
            for line in new[key].split("\n"):
                print("    " + line)
        print("```\n")


def main():
    old, new = sys.argv[1:3]
    a, b = blocks_of_source(old), blocks_of_source(new)
    pick = lambda d, kinds: {k: v for k, v in d.items() if k[1] in kinds}
    show("Public functions, with their clauses", pick(a, {"fn"}), pick(b, {"fn"}))
    show("Public types, with their invariants", pick(a, {"struct", "enum", "trait"}), pick(b, {"struct", "enum", "trait"}))
    show("Definitions of specs/", blocks_of_logic(old, "specs"), blocks_of_logic(new, "specs"))
    show("Statements of proofs/", blocks_of_logic(old, "proofs"), blocks_of_logic(new, "proofs"))
    show("Must-fail edits", edits(old), edits(new))


main()
