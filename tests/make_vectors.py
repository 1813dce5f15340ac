#!/usr/bin/env python3
"""Writes words made by other people's encoders, one line each: "V q R b w_0 .. w_(n-1)", lowest position first.

Labels come from Debian's `zint` (PDF417, all nine levels), reels from Debian's libfec (tests/reels.c).
The nine-symbol label is the published example of the label standard; the words after it have a single 1 for a message,
so that their checks are the generator's published coefficients. Control words come from tests/oracle.py. Run: tests/make_vectors.py > crates/vectors/stdin
"""
import os
import random
import re
import subprocess
import tempfile

import oracle

HERE = os.path.dirname(os.path.abspath(__file__))
PUBLISHED = [5, 453, 178, 121, 239, 452, 327, 657, 619]


def label(level, text):
    with tempfile.TemporaryDirectory() as folder:
        out = subprocess.run(["zint", "--verbose", "-b", "PDF417", "--secure=%d" % level, "-d", text, "-o", folder + "/x.png"],
                             capture_output=True, text=True)
    found = re.search(r"Complete CW string \((\d+)\):\n([\d ]+)", out.stdout + out.stderr)
    if not found:
        return None
    symbols = [int(x) for x in found.group(2).split()]
    assert len(symbols) == int(found.group(1))
    return symbols


def line(q, checks, first, symbols):
    return "V %d %d %d " % (q, checks, first) + " ".join(str(x) for x in reversed(symbols))


def generator(checks):
    """The coefficients of the label code's generator, highest first."""
    poly = [1]
    for j in range(1, checks + 1):
        root = pow(3, j, 929)
        poly = [(x - root * y) % 929 for x, y in zip(poly + [0], [0] + poly)]
    return poly


def control_words():
    field = oracle.FIELDS[b"16"]()
    for n, checks, first in ((15, 6, 1), (15, 4, 0), (10, 3, 2), (7, 2, 14), (15, 9, 5), (4, 3, 0), (2, 1, 0)):
        for _ in range(2):
            bay = oracle.Bay(field)
            bay.make(n, checks, first)
            bay.load(*[random.randrange(16) for _ in range(n)])
            bay.encode()
            yield line(16, checks, first, bay.word[::-1])


def main():
    random.seed(417)
    print(line(929, 4, 1, PUBLISHED))
    for level in range(9):
        print(line(929, 2 ** (level + 1), 1, generator(2 ** (level + 1))))
    for level in range(9):
        for size in (1, 7, 20, 44, 90, 150, 260, 400):
            kinds = ("ABCDEFGHIJKLMNOPQRSTUVWXYZ ", "0123456789", "abcxyzABC0123,.:-/ ")
            text = "".join(random.choice(kinds[(level + size) % 3]) for _ in range(size))
            symbols = label(level, text)
            if symbols:
                print(line(929, 2 ** (level + 1), 1, symbols))
    with tempfile.TemporaryDirectory() as folder:
        subprocess.run(["cc", "-O1", "-o", folder + "/reels", os.path.join(HERE, "reels.c"), "-lfec"], check=True)
        print(subprocess.run([folder + "/reels"], check=True, capture_output=True, text=True).stdout, end="")
    for word in control_words():
        print(word)


main()
