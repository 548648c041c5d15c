#!/usr/bin/env python3
"""Writes contracts over the lists of lent buffers, now that a & and a &mut are of two types: `before b`, `after b` and `lent b` of references become `lent` of b.now, b.old or b.new.

usage: lent_lists.py     at the top, once
"""
import glob
import re

BEFORE = {"before": "lent", "masked_before": "lent_masked", "rival_before": "rival_lent", "search_before": "search_lent", "account_before": "account_of", "rival_marked": "rival_marked"}
AFTER = {"after": "lent", "masked_after": "lent_masked", "rival_after": "rival_lent", "search_after": "search_lent", "account_after": "account_of"}
HEADS = set(BEFORE) | set(AFTER) | {"lent", "lent_masked", "rival_lent", "search_lent"}
WORD = re.compile(r"(?<![\w.'-])([A-Za-z_][\w']*)(?![\w'])(?!\.[a-z])")


def balanced(text, at):
    depth = 0
    for i in range(at, len(text)):
        if text[i] in "({[":
            depth += 1
        elif text[i] in ")}]":
            depth -= 1
            if depth == 0:
                return i + 1
    return len(text)


def clause(text, ensures, kinds):
    text = re.sub(r"\(unlent (\w+)\)", r"\1", text)
    last = [None]

    def turn(m):
        w = m.group(1)
        if w in HEADS:
            last[0] = w
            return BEFORE.get(w, AFTER.get(w, w))
        kind = kinds.get(w)
        if kind is None:
            return w
        if kind == "&":
            return w + ".now"
        return w + (".new" if ensures and last[0] in AFTER else ".old")

    return WORD.sub(turn, text)


def function(text, at):
    """The text of one function's head, turned; and where it ends."""
    start = text.index("(", at)
    end = balanced(text, start)
    kinds = {}
    for name, mut in re.findall(r"(\w+): &('\w+ )?(?:(mut) )?", text[start:end]) and re.findall(r"(\w+): &(?:'\w+ )?(mut )?", text[start:end]):
        kinds[name] = "mut" if mut else "&"
    pos, out = end, [text[at:end]]
    while True:
        m = re.match(r"[^\n]*\n(?:\s*//[^\n]*\n)*\s*(requires|ensures)( \w+)? \{|\s*(requires|ensures)( \w+)? \{", text[pos:])
        if not m:
            break
        brace = pos + m.end() - 1
        stop = balanced(text, brace)
        out.append(text[pos:brace])
        out.append(clause(text[brace:stop], "ensures" in m.group(0), kinds))
        pos = stop
    return "".join(out), pos


def main():
    for path in sorted(glob.glob("crates/*/src/*.rt")):
        with open(path, encoding="utf-8") as f:
            old = f.read()
        if not re.search(r"\b(un)?lent\b|_lent\b|_before\b|_after\b|\bbefore\b|\bafter\b|PerSlot|PerVariable|TrueMasks|rival_marked|lent_masked", old):
            continue
        out, pos = [], 0
        for m in re.finditer(r"\bfn \w+", old):
            if m.start() < pos or old.rfind("//", old.rfind("\n", 0, m.start()) + 1, m.start()) >= 0:
                continue
            out.append(old[pos:m.start()])
            text, pos = function(old, m.start())
            out.append(text)
        out.append(old[pos:])
        new = "".join(out)

        def use(m):
            words = []
            for w in m.group(2).split(","):
                w = w.strip()
                w = BEFORE.get(w, AFTER.get(w, w))
                if w not in words and w != "unlent" and not (w == "account_of"):
                    words.append(w)
            return f"{m.group(1)}{{{', '.join(words)}}}"

        new = re.sub(r"(ghost use Rattle\.(?:protocol\.specs\.Lent|rival_copies\.specs\.Copies|best_schedule\.specs\.Lent|host\.specs\.Host)\.)\{([^}]*)\}", use, new)
        if new != old:
            with open(path, "w", encoding="utf-8") as f:
                f.write(new)


if __name__ == "__main__":
    main()
