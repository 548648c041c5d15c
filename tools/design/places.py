#!/usr/bin/env python3
"""Prints, for each point of docs/DESIGN-PASS.md, the places of src/ that a text search finds.

    tools/design/places.py [POINT..]     the places, one a line; with no argument the counts alone

It reads crates/*/src/*.rt of the current folder. A place is a function, a type, a loop or a line, as the point's head says;
whether it stays is not for a text search to say: the page does.
"""
import glob
import re
import sys

REFUSALS = ("NO_REFUSAL SETUP_OUT_OF_RANGE WRONG_LENGTH NO_SUCH_PROCESSOR NO_SUCH_VARIABLE TOO_MANY MALFORMED_LINE UNKNOWN_LABEL "
            "NO_SUCH_BLOCK BROADCAST_WITHOUT_WRITE PRICE_OUT_OF_RANGE SEED_ZERO NOT_SEARCHABLE UNSOUND_TABLES IMPOSSIBLE_ACCOUNT "
            "ACCOUNT_FULL LINE_IN_USE BLOCK_NOT_HELD DROP_OF_MARKED NO_REQUEST_LEFT COMPLETION_NOT_HELD REQUESTS_LEFT CACHE_NOT_EMPTY").split()

ENGINE = {"blocks", "counters", "marks", "words", "memory", "masks"}
RIVAL = {"blocks", "held", "marks"}
SEARCH = {"distances", "order", "predecessors", "lowest"}


def sources():
    for path in sorted(glob.glob("crates/*/src/**/*.rt", recursive=True)):
        yield path, open(path).read()


def line_of(text, at):
    return text.count("\n", 0, at) + 1


def functions():
    """path, line, name, head (signature and clauses), body"""
    for path, text in sources():
        for m in re.finditer(r"^( *)(?:pub(?:\([a-z]+\))? )?(?:extern \"C\" )?fn (\w+)", text, re.M):
            end = re.search(r"^" + m.group(1) + r"(?:\{|.*\{$)", text[m.start():], re.M)
            close = re.search(r"^" + m.group(1) + r"\}", text[m.start():], re.M)
            head = text[m.start():m.start() + (end.end() if end else 0)]
            body = text[m.start() + len(head):m.start() + (close.end() if close else 0)]
            yield path, line_of(text, m.start()), m.group(2), head, body


def grep(pattern):
    for path, text in sources():
        for n, line in enumerate(text.split("\n"), 1):
            if re.search(pattern, line) and not line.strip().startswith("//"):
                yield path, n, line.strip()


def blocks(kind):
    for path, text in sources():
        for m in re.finditer(r"^(?:pub )?" + kind + r" (\w+)[^{;]*\{\n(.*?)^\}", text, re.M | re.S):
            yield path, line_of(text, m.start()), m.group(1), m.group(2)


def enum_places():
    for path, n, name, body in blocks("enum"):
        variants = [v.strip() for v in body.split("\n") if v.strip() and not v.strip().startswith("//")]
        if len(variants) <= 3 and any("(" in v for v in variants):
            yield path, n, name


def number_lines():
    return grep(r"\b(" + "|".join(REFUSALS) + r")\b")


def number_functions():
    for path, n, name, head, body in functions():
        if re.search(r"-> u32\b", head) and re.search(r"refusal", head):
            yield path, n, name


def number_fields():
    return grep(r"^\s*(pub )?(refusal|number): u32,")


def flag_types():
    for path, n, name, body in blocks("struct"):
        if re.search(r": bool,", body) and len(re.findall(r"^\s*(?:pub )?\w+:", body, re.M)) > 1:
            yield path, n, name


def sentinels():
    for path, text in sources():
        for m in re.finditer(r"^ *//.*(none is|where there is none|if there is none|if none|where none|is none|of any other byte|so far none|if it is not above|while none|once the search is over).*\n", text, re.M):
            yield path, line_of(text, m.start()), m.group(0).strip()


def loops():
    return grep(r"^\s*('\w+: )?(while|loop)\b")


def counted_loops():
    return grep(r"^\s*('\w+: )?while .*(<|>|!=) ")


def one_name():
    """Functions that have their name from another crate too, methods and the programs' main aside."""
    places = {}
    for path, n, name, head, body in functions():
        if name != "main" and "self" not in head.split(")")[0]:
            places.setdefault(name, []).append((path, n, name))
    for name, found in sorted(places.items()):
        if len({path.split("/")[1] for path, _, _ in found}) > 1:
            yield from found


def proof_files():
    for path in sorted(glob.glob("crates/*/proofs/*/**/*.antt", recursive=True)):
        yield path, 1, ""


def by_hand():
    for path, n, name, head, body in functions():
        if re.match(r"(same|equal|eq|copy|clone|compare|smaller|larger|min|max|nearer|to|from)(_|$)|.*_(number|numbers|of_number|from_number)$", name):
            yield path, n, name


def fits():
    for path, n, name, head, body in functions():
        if re.search(r"\bFits (setup|self)\b", head):
            yield path, n, name


def together(names, least):
    for path, n, name, head, body in functions():
        params = set(re.findall(r"\b(\w+): (?:&|\w)", head.split("requires")[0].split("ensures")[0]))
        if len(params & names) >= least:
            yield path, n, name


def places():
    for path, n, name, head, body in functions():
        params = head.split("requires")[0].split("ensures")[0]
        if re.search(r"\b(at|from|start|count|length|n|a): usize", params) and re.search(r"&(mut )?\[", params):
            yield path, n, name


def drivers():
    return grep(r"\bwhile \w+\.going\b|\.(completing|asking)\b")


POINTS = {
    "1 enums of at most three variants, one with a value": enum_places,
    "1 lines that name a refusal's number": number_lines,
    "1 functions that answer a refusal's number": number_functions,
    "1 fields that hold one": number_fields,
    "1 structs with a flag beside other fields": flag_types,
    "1 functions and fields with a value that stands for none, by their comments": sentinels,
    "2 functions of one name in two crates": one_name,
    "3 loops that are no for": loops,
    "3 of them with a comparison": counted_loops,
    "4 functions that compare, copy or convert, by their names": by_hand,
    "5 functions whose contract says that the setup fits": fits,
    "5 functions with three or more of the engine's tables": lambda: together(ENGINE, 3),
    "5 functions with the rival's tables": lambda: together(RIVAL, 3),
    "5 functions with three or more of the search's tables": lambda: together(SEARCH, 3),
    "6 functions with a slice and a place or a length beside it": places,
    "7 loops by a flag, and switches on the next step": drivers,
    "8 proof files of functions": proof_files,
}

if __name__ == "__main__":
    wanted = sys.argv[1:]
    for point, find in POINTS.items():
        found = list(find())
        print(f"{len(found):5} {point}")
        if any(point.startswith(w) for w in wanted):
            for place in found:
                print("      " + " ".join(str(x) for x in place))
