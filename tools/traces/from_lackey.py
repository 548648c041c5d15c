#!/usr/bin/env python3
"""Makes a din trace for buscount from memory traces of valgrind's tool lackey, one file for each processor.

Usage: from_lackey.py BASE FILE...   (BASE: the address of the shared words, as nm prints it, in hexadecimal)

A line of the result is a label (0 load, 1 store) and an address whose top byte is the processor, which is the place of
its file, and whose low bytes are the offset from BASE. Accesses outside the 1,024 bytes from BASE, which are the
board's 256 variables of 4 bytes, are left out, as are instruction fetches. A modify is a load, then a store; an access
counts once for each word that it touches. The files are interleaved, one access of each in turn.

Standard error says how many accesses of each file were kept. The exit status is 1, with a sentence, if none was, if
BASE is no address, or if a file cannot be read or the trace not written."""
import itertools
import re
import sys

SIZE = 1024
LABELS = {"L": "0", "S": "1", "M": "01"}
ACCESS = re.compile(r"\s*([LSM])\s+([0-9a-fA-F]+),([0-9]+)\s*")


class File:
    """A file of lackey's, and how many of its accesses were seen and kept so far."""

    def __init__(self, name, processor, base):
        self.name, self.processor, self.base = name, processor, base
        self.seen = self.kept = 0

    def lines(self):
        with open(self.name, errors="replace") as text:
            for match in filter(None, map(ACCESS.fullmatch, text)):
                offset, size = int(match[2], 16) - self.base, int(match[3])
                words = [word for word in range(offset // 4, (offset + size - 1) // 4 + 1) if 0 <= word * 4 < SIZE]
                self.seen += 1
                self.kept += bool(words)
                for label in LABELS[match[1]]:
                    for word in words:
                        yield "%s %02x%06x" % (label, self.processor, word * 4)


def fail(sentence):
    sys.exit("from_lackey.py: " + sentence)


def address(text):
    if not re.fullmatch("(0x)?[0-9a-fA-F]+", text):
        fail("%s is no hexadecimal address; --help says more." % text)
    return int(text, 16)


def write(files):
    try:
        for turn in itertools.zip_longest(*(file.lines() for file in files)):
            for line in filter(None, turn):
                print(line)
        sys.stdout.flush()
    except OSError as error:
        sys.stdout = None
        fail("%s: %s." % (error.filename or "the trace could not be written", error.strerror))


def main():
    if "--help" in sys.argv[1:]:
        print(__doc__)
        return
    if len(sys.argv) < 3:
        fail("BASE and a file for each processor are needed; --help says more.")
    base = address(sys.argv[1])
    files = [File(name, processor, base) for processor, name in enumerate(sys.argv[2:])]
    write(files)
    for file in files:
        print("%s: %d of %d accesses kept" % (file.name, file.kept, file.seen), file=sys.stderr)
    if not any(file.kept for file in files):
        fail("no access is to the %d bytes from %x; was the program linked with -no-pie?" % (SIZE, base))


main()
