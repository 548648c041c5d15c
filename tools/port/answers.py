#!/usr/bin/env python3
"""Turns the Proof.antt files of a crate, which name goals through `tie`, into Invariants.antt and Answers.antt.

usage: answers.py CRATE NAMES     at the top; NAMES is the names.json that `rt check --generated DIR --old-names` wrote for the crate
Prints what it could not turn. A file that walks the code by hand stays.
"""
import json
import os
import re
import sys

WORD = r"[^\s(){}.;,@\"«»\[\]\\λ]+"
DECL = re.compile(r"^(?:abbrev )?(?:pub )?(?:unfoldable )?(" + WORD + r")((?: \{[^}]*\}| \([^)]*\))*) : (.*)$")


def norm(name):
    name = name.replace("_", "-").lower()
    name = re.sub(r"-+", "-", name)
    for head in ("overflow-", "nonzero-"):
        if name.startswith(head):
            name = name[len(head):]
    return name


def contracts(root):
    """For each function, `crate::path::name`'s last part: the labels of its requires and of its ensures."""
    found = {}
    for folder, dirs, names in os.walk(os.path.join(root, "crates")):
        dirs[:] = [d for d in dirs if d != "out"]
        for name in names:
            if not name.endswith(".rt"):
                continue
            crate = folder.split("crates/")[1].split("/")[0]
            with open(os.path.join(folder, name), encoding="utf-8") as f:
                text = re.sub(r"//[^\n]*", "", f.read())
            for m in re.finditer(r"\bfn (\w+)", text):
                end = re.search(r"\n[ \t]*\{|\{\n", text[m.end():])
                stop = text.find("\n\n", m.end())
                head = text[m.end(): stop if stop > 0 else len(text)]
                req = re.findall(r"^\s+requires (\w+ )?\{", head, re.M)
                ens = re.findall(r"^\s+ensures (\w+ )?\{", head, re.M)
                found[(crate, m.group(1))] = ([r.strip() for r in req], [e.strip() for e in ens])
    return found


def flat(path, labels):
    """Of a path such as .1.0.x into right-nested pairs, the path by labels."""
    n = len(labels)
    if n < 2:
        return path
    i, rest = 0, list(path)
    while i < n - 1:
        if not rest or rest[0] not in ("0", "1"):
            return None
        if rest[0] == "0":
            return [labels[i]] + rest[1:]
        rest, i = rest[1:], i + 1
    return [labels[n - 1]] + rest


class Function:
    def __init__(self, crate, path, text, names, labels):
        self.crate, self.path, self.text, self.names, self.labels = crate, path, text, names, labels
        self.left = []
        self.places = {p[0]: p for p in names["places"]}
        self.own = labels.get((crate, path.split(".")[-1]), ([], []))

    def chain(self, place):
        out = []
        while place is not None:
            out.append(self.places[place])
            place = self.places[place][1]
        return out

    def callee(self, place):
        if not place[3]:
            return None
        parts = place[3].split("::")
        return self.labels.get((parts[0], parts[-1]))

    def resolve(self, chain, depth, fields):
        """The fields behind `c` after so many `before`s."""
        while fields and fields[0] == "before":
            fields, depth = fields[1:], depth + 1
        if not fields:
            return depth, None
        head, rest = fields[0], fields[1:]
        if head in ("args", "ranges", "lifetimes", "well_formed", "type_inv", "auto"):
            return depth, fields
        if head in ("requires", "pre"):
            more = flat(rest, self.own[0]) if rest else []
            return depth, ["requires"] + (more if more is not None else rest)
        if depth >= len(chain):
            return self.resolve(chain, 0, fields) if chain else (depth, fields)
        for d in range(depth, len(chain)):
            place = chain[d]
            old, new = place[2]
            if old and norm(old) == norm(head):
                if rest:
                    for a, b in place[4]:
                        if rest[0] == a:
                            rest = [b] + rest[1:]
                            break
                    labels = self.callee(place)
                    params = self.names["params"].get(place[3]) if place[3] else None
                    if rest[0] in ("new", "auto") and params and len(rest) > 1 and rest[1] in ("0", "1"):
                        k = 1
                        while k < len(rest) and rest[k] == "1":
                            k += 1
                        if k < len(rest) and rest[k] == "0" and k - 1 < len(params):
                            rest = [rest[0], params[k - 1]] + rest[k + 1:]
                    if rest[0] in ("ensures", "requires") and labels:
                        more = flat(rest[1:], labels[1 if rest[0] == "ensures" else 0]) if rest[1:] else []
                        if more is not None:
                            rest = [rest[0]] + more
                        else:
                            self.left.append(f"{self.path}: {head}.{'.'.join(rest)}")
                return depth, [new] + rest
        if depth > 0:
            return self.resolve(chain, 0, fields)
        self.left.append(f"{self.path}: no step {head} at {chain[depth][0]}")
        return depth, fields

    def body(self, text, var, chain):
        """The body with flat paths; aliases of places go."""
        alias, self.whole = {var: 0}, {}
        let = re.compile(r"let (" + WORD + r") = (" + WORD + r")((?:\.before)+|) in ?")
        token = re.compile(r"(?<![\w.'?-])(" + WORD + r")((?:\.(?:" + WORD + r"))*)")
        out, pos = [], 0
        # Aliases in the order of the text
        while True:
            m = let.search(text, pos)
            piece = text[pos: m.start() if m else len(text)]
            out.append(token.sub(lambda t: self.turned(t, alias, chain), piece))
            if not m:
                break
            if m.group(2) in alias and m.group(2) != m.group(1):
                alias[m.group(1)] = alias[m.group(2)] + m.group(3).count(".before")
            elif m.group(2) in alias:
                alias[m.group(1)] = alias[m.group(2)] + m.group(3).count(".before")
            else:
                out.append(token.sub(lambda t: self.turned(t, alias, chain), m.group(0)))
            pos = m.end()
        done = "".join(out)
        # names of whole clauses: their fields by label
        for name, labels in self.clauses(done, chain):
            def relabel(t):
                more = flat(t.group(1).strip(".").split("."), labels)
                return t.group(0) if more is None else ".".join([name] + more)
            done = re.sub(r"(?<![\w.'?-])" + re.escape(name) + r"((?:\.[01](?![\w'-]))+)", relabel, done)
        # A call by a name of its own: `let k = c.STEP in .. k.new.1.1.0 ..`
        for m in list(re.finditer(r"let (" + WORD + r") = c\.(" + WORD + r") in\b", done)):
            place = next((p for p in chain if p[2][1] == m.group(2)), None)
            params = self.names["params"].get(place[3]) if place and place[3] else None
            if params:
                done = re.sub(r"(?<![\w.'?-])" + re.escape(m.group(1)) + r"\.new((?:\.1)*)\.0",
                              lambda t: f"{m.group(1)}.new.{params[len(t.group(1)) // 2]}", done)
        done = re.sub(r"\bnot-true (?:_|[\w.+-]+) ([\w.+-]+\.)true-raw", r"\1true", done)
        done = re.sub(r"\bnot-false (?:_|[\w.+-]+) ([\w.+-]+\.)false-raw", r"\1false", done)
        return "\n".join(l for i, l in enumerate(done.split("\n")) if l.strip() or i == 0)

    def clauses(self, done, chain):
        """The names that a `let` gives to all clauses of a contract, with their labels."""
        for m in re.finditer(r"let (" + WORD + r") = c\.requires in", done):
            if len(self.own[0]) > 1:
                yield m.group(1), self.own[0]
        for m in re.finditer(r"let (" + WORD + r") = c\.(" + WORD + r")\.ensures in", done):
            for place in chain:
                if place[2][1] == m.group(2):
                    labels = self.callee(place)
                    if labels and len(labels[1]) > 1:
                        yield m.group(1), labels[1]
                    break

    def turned(self, t, alias, chain):
        if t.group(1) not in alias:
            return t.group(0)
        fields = [f for f in t.group(2).split(".") if f]
        depth, more = self.resolve(chain, alias[t.group(1)], fields)
        if more is None:
            return "c"
        return ".".join(["c"] + more)


def declarations(text):
    """The head, with comments and imports, and each declaration as a list of lines with its comments."""
    lines = text.split("\n")
    head, decls, comments, i = [], [], [], 0
    while i < len(lines) and (lines[i].startswith(("--", "use ")) or not lines[i].strip()):
        if lines[i].startswith(("--", "use ")):
            head.append(lines[i])
        i += 1
    # comments right above the first declaration belong to it
    current = None
    for line in lines[i:]:
        if line.startswith("--"):
            comments.append(line)
            continue
        m = (DECL.match(line) or re.match(r"module ", line)) if line and not line[0].isspace() else None
        if m:
            current = [comments, line]
            comments = []
            decls.append(current)
        elif current is not None and line.strip():
            current += comments and [*comments] or []
            comments = []
            current.append(line)
    return head, decls


def tuple_parts(text):
    """The parts of a tuple in parentheses, or None."""
    text = text.strip()
    if not (text.startswith("(") and text.endswith(")")):
        return None
    depth, parts, start = 0, [], 1
    for i, ch in enumerate(text):
        if ch in "([{":
            depth += 1
        elif ch in ")]}":
            depth -= 1
            if depth == 0 and i != len(text) - 1:
                return None
        elif ch == "," and depth == 1:
            parts.append(text[start:i].strip())
            start = i + 1
    last = text[start:-1].strip()
    if last:
        parts.append(last)
    return parts if len(parts) > 1 else None


def labelled(body, labels):
    """A nested tuple as a record by labels."""
    if len(labels) < 2:
        return body
    cut = 0
    m = None
    for m in re.finditer(r"\bin\b", body):
        pass
    # the last expression begins after the last `in` at depth 0
    depth, at = 0, 0
    for m in re.finditer(r"[(\[{]|[)\]}]|\bin\b(?=[ \n])", body):
        g = m.group(0)
        if g in "([{":
            depth += 1
        elif g in ")]}":
            depth -= 1
        elif depth == 0:
            at = m.end()
    head, last = body[:at], body[at:]
    parts, values = [last.strip()], []
    for k in range(len(labels) - 1):
        p = tuple_parts(parts[-1])
        if p is None:
            return body
        if len(p) == len(labels) - k:
            values += p
            parts = []
            break
        if len(p) != 2:
            return body
        values.append(p[0])
        parts = [p[1]]
    values += parts
    if len(values) != len(labels):
        return body
    inner = "".join(f"\n      {l} = {v};" for l, v in zip(labels, values))
    return head + " record {" + inner + "\n    }"


def convert(crate, folder, path, names, labels, root):
    file = os.path.join(folder, "Proof.antt")
    with open(file, encoding="utf-8") as f:
        text = f.read()
    fn = Function(crate, path, text, names, labels)
    head, decls = declarations(text)
    uses = [l for l in head if l.startswith("use ") and not re.search(r"\.(Statement|Tie)\b|Author\.Rules", l)]
    tie = re.search(r"use Rattle\.\S+\.Tie as (\w+)", text)
    comments = [l for l in head if l.startswith("--")]
    needs = names["needs"]
    # the order of tie.spec's arguments
    order = {}
    spec = re.search(r"\btie\.spec\b(.*)$", text, re.S)
    if spec:
        args, depth, cur = [], 0, ""
        for ch in re.sub(r"--[^\n]*", "", spec.group(1)):
            if ch in "([{":
                depth += 1
            if ch in ")]}":
                depth -= 1
                if depth < 0:
                    break
            if depth == 0 and ch.isspace():
                if cur:
                    args.append(cur)
                cur = ""
            else:
                cur += ch
        if cur:
            args.append(cur)
        args = [a for a in args if not re.match(r"(invariant|decreases)-", a)]
        if len(args) == len(needs):
            order = {a: i for i, a in enumerate(args)}
        else:
            fn.left.append(f"{path}: {len(args)} arguments for {len(needs)} goals")
    byname = {}
    for i, (old, new) in enumerate(needs):
        byname.setdefault(norm(old), i)
    answers, invariants, helpers = [], [], []
    for d in decls:
        notes, first, rest = d[0], d[1], d[2:]
        if first.startswith("module "):
            helpers.append("\n".join(notes + [first] + rest))
            continue
        m = DECL.match(first)
        name, kind = m.group(1), m.group(3)
        if "statement M" in kind or kind.startswith("{M : Type"):
            continue
        unfolding = [l for l in rest if l.startswith(("unfolding", "  unfolding"))]
        body = [l for l in rest if not l.startswith(("unfolding", "  unfolding"))]
        k = re.match(r"tie\.(invariant|decreases)-(\S+)", kind)
        if k:
            loop = next((l for l in names["loops"] if norm(l[0][0]) == norm(k.group(2))), None)
            if loop is None and len(names["loops"]) == 1:
                loop = names["loops"][0]
            if loop is None:
                fn.left.append(f"{path}: no loop {k.group(2)}")
                continue
            (old, new), vs = loop[0], loop[1]
            changed = names["changed"]
            if changed and isinstance(changed[0], list):
                changed = changed[names["loops"].index(loop)]
            whole = "\n".join(body)
            mm = re.match(re.escape(name) + r"((?: " + WORD + r")*)\s*=", whole)
            params = mm.group(1).split() if mm else []
            value = whole[mm.end():] if mm else whole
            at = {}
            n = len(vs)
            now = [v for v, ch in zip(vs, changed) if ch]
            if len(params) == n + len(now):
                for p, v, ch in zip(params[:n], vs, changed):
                    at[p] = f"l.initial.{v}" if ch else f"l.{v}"
                for p, v in zip(params[n:], now):
                    at[p] = f"l.{v}"
            else:
                fn.left.append(f"{path}: {name} has {params} for {vs} {changed}")
                for p in params:
                    at[p] = f"l.{p}"
            value = re.sub(r"(?<![\w.'?-])(" + WORD + ")(?= *=(?!=))", lambda t: "\0" + t.group(0), value)
            value = re.sub(r"(?<![\w.'?\0-])(" + WORD + r")", lambda t: at.get(t.group(1), t.group(1)), value).replace("\0", "")
            goal = f"{k.group(1)}-{new}"
            invariants.append("\n".join(notes + [f"abbrev pub {goal} : goal.{goal}"] + unfolding + [f"{goal} l ={value}"]))
            continue
        k = re.match(r"tie\.Need-(\S+)", kind)
        if not k:
            helpers.append("\n".join(notes + [first] + rest))
            if "tie." in kind:
                fn.left.append(f"{path}: {name} : {kind}")
            continue
        i = order.get(name, byname.get(norm(k.group(1)), byname.get(norm(name))))
        if i is None:
            fn.left.append(f"{path}: no goal {k.group(1)}")
            continue
        new = needs[i][1]
        chain = fn.chain(names["asked_at"][i][0])
        whole = "\n".join(body)
        mm = re.match(re.escape(name) + r"((?: (?:[^\s(){}.;,=]+|\([^)]*\)))*)\s*=", whole)
        if not mm:
            fn.left.append(f"{path}: {name} has no plain clause")
            answers.append("\n".join(notes + [f"pub {new} : goal.{new}"] + unfolding + body))
            continue
        params = mm.group(1).split()
        value = whole[mm.end():]
        var = params[0] if params else "c"
        value = fn.body(value, var, chain)
        more = [p for p in params[1:] if p != "κs"]
        if new.startswith("returns"):
            value = labelled(value, fn.own[1])
        elif "requires" in new:
            callee = next((fn.labels[key] for key in fn.labels if re.match(key[1] + r"(-|$)", new) and len(fn.labels[key][0]) > 1), None)
            if callee:
                value = labelled(value, callee[0])
        if value.strip() == "search rules" and not unfolding:
            continue
        answers.append("\n".join(notes + [f"pub {new} : goal.{new}"] + unfolding + [f"{new} {' '.join(['c'] + more)} ={value}"]))
    where = f"Rattle.{crate}.proofs.{path}"
    cited, kept = [], []
    for h in helpers:
        name = next((DECL.match(l).group(1) for l in h.split("\n") if DECL.match(l)), "")
        if name and re.search(r"(?<![\w'-])" + re.escape(name) + r"(?![\w'-])", "\n".join(invariants)):
            line = next(l for l in h.split("\n") if DECL.match(l))
            opened = line if "pub " in line else (line.replace("abbrev ", "abbrev pub ", 1) if line.startswith("abbrev ") else "pub " + line)
            cited.append((name, h.replace(line, opened)))
        else:
            kept.append(h)
    if cited:
        invariants = [h for _, h in cited] + invariants
        uses_of = [f"use {where}.Invariants.{{{', '.join(n for n, _ in cited)}}}"]
    else:
        uses_of = []
    helpers = kept
    comment = "\n".join(comments)
    if invariants:
        with open(os.path.join(folder, "Invariants.antt"), "w", encoding="utf-8") as f:
            f.write("\n".join([comment] * (not answers) + uses + [f"use {where}.Given as goal", ""]) + "\n" + "\n\n".join(invariants) + "\n")
    if answers or helpers:
        rules = ["use Rattle.std.proofs.Common.{rules}"] if re.search(r"\brules\b", "\n".join(answers + helpers)) else []
        with open(os.path.join(folder, "Answers.antt"), "w", encoding="utf-8") as f:
            f.write("\n".join([comment] + uses + uses_of + rules + [f"use {where}.Goals as goal", ""]) + "\n" + "\n\n".join(helpers + answers) + "\n")
    os.remove(file)
    return fn.left


def main(argv):
    crate, names = argv
    root = os.getcwd()
    with open(names, encoding="utf-8") as f:
        table = json.load(f)
    labels = contracts(root)
    top = os.path.join("crates", crate, "proofs")
    left = []
    for folder, _, files in sorted(os.walk(top)):
        if "Proof.antt" not in files:
            continue
        path = os.path.relpath(folder, top).replace("/", ".")
        key = f"Rattle-{crate}-proofs.{path}.Lts"
        with open(os.path.join(folder, "Proof.antt"), encoding="utf-8") as f:
            walked = "Tie as tie" not in f.read()
        if walked or key not in table:
            left.append(f"{path}: {'walks by hand' if walked else 'no names'}")
            continue
        left += convert(crate, folder, path, table[key], labels, root)
    print("\n".join("left: " + l for l in left))


if __name__ == "__main__":
    main(sys.argv[1:])
