#!/usr/bin/env python3
"""Compares buscount with the plain C program on random traces, whole and damaged, fed in pieces of odd sizes.

Usage: compare.py BUSCOUNT C_PROGRAM [TRACES]. Prints how often each refusal number ended a trace; a difference prints
the trace and ends with status 1. The seed is fixed, so every run sees the same traces."""
import collections
import random
import subprocess
import sys


def label(rng):
    if rng.random() < 0.002:
        return rng.choice("356789")
    return rng.choice("012") if rng.random() < 0.9 else "4"


def address(rng, wide):
    """An address; its low 24 bits are any with the chance wide, else a variable's."""
    processor = rng.randrange(4) if rng.random() < 0.995 else rng.randrange(256)
    offset = rng.randrange(1 << 24) if rng.random() < wide else rng.randrange(1024)
    number = processor << 24 | offset
    text = "%x" % number if rng.random() < 0.5 else "%08X" % number
    return text


def line(rng):
    digit = label(rng)
    gap = rng.choice([" ", "\t", "  ", " \t "])
    end = rng.choice(["", "", "", "\r", " ignored", "\tff"])
    # A clear ignores its low bits, so half of the clears draw them from all 24.
    return digit + gap + address(rng, 0.5 if digit == "4" else 0.005) + end


def damaged(rng, text):
    kind = rng.randrange(10)
    odd = chr(rng.randrange(11, 127))
    if kind == 0:
        return ""
    if kind == 1:
        return text[1:]
    if kind == 2:
        return text.ljust(80, "x" if " " in text[2:] else " ")[:80]
    if kind == 3:
        return text + " " * (81 - len(text))
    if kind == 4:
        return text[0] + text[-8:]
    if kind == 5:
        return text[:2] + "0" * rng.choice([7, 8, 9]) + "1"
    if kind == 6:
        return text + odd
    if kind == 7:
        return text[0] + odd + text[2:]
    if kind == 8:
        return odd + text[1:]
    return "".join(chr(rng.randrange(1, 256)) for _ in range(rng.randrange(20)))


def trace(rng):
    lines = [line(rng) for _ in range(rng.choice([0, 1, 3, 20, 300]))]
    if lines and rng.random() < 0.7:
        place = rng.randrange(len(lines))
        lines[place] = damaged(rng, lines[place])
    text = "\n".join(lines)
    if lines and rng.random() < 0.7:
        text += "\n"
    return text.encode("latin-1")


def report(program, pieces):
    process = subprocess.Popen([program], stdin=subprocess.PIPE, stdout=subprocess.PIPE, bufsize=0)
    try:
        for piece in pieces:
            process.stdin.write(piece)
    except BrokenPipeError:
        pass
    try:
        process.stdin.close()
    except BrokenPipeError:
        pass
    return process.stdout.read()


def pieces_of(rng, text):
    size = rng.choice([1, 2, 7, 64, 5000]) if len(text) < 2000 else rng.choice([97, 5000])
    return [text[at:at + size] for at in range(0, len(text), size)]


def main():
    ours, plain, count = sys.argv[1], sys.argv[2], int(sys.argv[3]) if len(sys.argv) > 3 else 1000
    rng = random.Random(1)
    endings = collections.Counter()
    for case in range(count):
        text = trace(rng)
        got, expected = report(ours, pieces_of(rng, text)), report(plain, [text])
        if got != expected:
            sys.exit("case %d differs\n%r\n%s\n%s" % (case, text, got.decode(), expected.decode()))
        endings[int(got.split()[-2])] += 1
    print("%d traces, the same report; ended by" % count, dict(sorted(endings.items())))


main()
