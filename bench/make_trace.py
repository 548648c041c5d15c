#!/usr/bin/env python3
"""Writes a din trace of LINES lines (default 1,000,000) on standard output: reads and writes of four processors with
shared and private blocks. No clears, so that times stay comparable with earlier ones."""
import random
import sys

lines = int(sys.argv[1]) if len(sys.argv) > 1 else 1_000_000
draw = random.Random(1988)
out = []
for _ in range(lines):
    processor = draw.randrange(4)
    shared = draw.random() < 0.4
    variable = draw.randrange(32) if shared else 32 + 56 * processor + draw.randrange(56)
    label = draw.choice("001222")
    out.append("%s %02x%06x\n" % (label, processor, variable * 4))
sys.stdout.write("".join(out))
