#!/usr/bin/env python3
"""A second bench, written apart from the first: it answers the same lines by linear algebra.

Usage: oracle.py < script > answers

Encoding solves the R check equations for the R check symbols. Correcting tries e = 0, 1, .. errors: it finds the
error positions from a linear system on the check sums, the amounts from another, and keeps a word only if all its
check sums are 0. No generator, no register, no key equation.
"""
import sys


class PrimeField:
    def __init__(self, q, a, m):
        self.q, self.a, self.m = q, a, m

    def add(self, x, y):
        return (x + y) % self.q

    def neg(self, x):
        return -x % self.q

    def mul(self, x, y):
        return x * y % self.q

    def inv(self, x):
        return pow(x, self.q - 2, self.q)


class BinaryField:
    def __init__(self, degree, modulus):
        self.q, self.a, self.m = 1 << degree, 2, (1 << degree) - 1
        self.modulus = modulus
        self.rows = [[self._mul(x, y) for y in range(self.q)] for x in range(self.q)]
        self.invs = [next((y for y in range(self.q) if self.rows[x][y] == 1), 0) for x in range(self.q)]

    def _mul(self, x, y):
        total = 0
        while y:
            if y & 1:
                total ^= x
            x <<= 1
            if x & self.q:
                x ^= self.modulus
            y >>= 1
        return total

    def add(self, x, y):
        return x ^ y

    def neg(self, x):
        return x

    def mul(self, x, y):
        return self.rows[x][y]

    def inv(self, x):
        return self.invs[x]


FIELDS = {b"929": lambda: PrimeField(929, 3, 928), b"256": lambda: BinaryField(8, 285), b"16": lambda: BinaryField(4, 19)}


def solve_linear(f, rows, rhs):
    """One solution of rows * x = rhs (free unknowns 0), or None."""
    if not rows:
        return []
    width = len(rows[0])
    m = [list(r) + [y] for r, y in zip(rows, rhs)]
    pivots, at = [], 0
    for col in range(width):
        pick = next((i for i in range(at, len(m)) if m[i][col]), None)
        if pick is None:
            continue
        m[at], m[pick] = m[pick], m[at]
        inv = f.inv(m[at][col])
        m[at] = [f.mul(inv, x) for x in m[at]]
        for i in range(len(m)):
            if i != at and m[i][col]:
                c = f.neg(m[i][col])
                m[i] = [f.add(x, f.mul(c, y)) for x, y in zip(m[i], m[at])]
        pivots.append(col)
        at += 1
    if any(not any(r[:-1]) and r[-1] for r in m):
        return None
    out = [0] * width
    for i, col in enumerate(pivots):
        out[col] = m[i][-1]
    return out


class Bay:
    def __init__(self, f):
        self.f = f
        self.code = None
        self.powers = [1]
        for _ in range(f.m - 1):
            self.powers.append(f.mul(self.powers[-1], f.a))

    def power(self, i):
        return self.powers[i % self.f.m]

    def sums(self, word):
        n, r, b = self.code
        f = self.f
        out = []
        for j in range(r):
            total = 0
            for i, w in enumerate(word):
                total = f.add(total, f.mul(w, self.power(i * (b + j))))
            out.append(total)
        return out

    def make(self, n, r, b):
        if n < 2 or n > 928:
            return 1
        if r == 0 or r >= n or r > 512:
            return 2
        if n > self.f.m:
            return 3
        if b >= self.f.m:
            return 4
        if self.code:
            return 6
        self.code, self.word, self.marks, self.told = (n, r, b), [0] * n, [False] * n, [0, 0]
        return []

    def load(self, *word):
        if not self.code:
            return 5
        if len(word) != self.code[0]:
            return 7
        if any(x >= self.f.q for x in word):
            return 10
        self.word, self.marks, self.told = list(word), [False] * self.code[0], [0, 0]
        return []

    def put(self, pos, sym):
        if not self.code:
            return 5
        if pos >= self.code[0]:
            return 9
        if sym >= self.f.q:
            return 10
        self.word[pos], self.marks[pos] = sym, False
        return []

    def mark(self, pos):
        if not self.code:
            return 5
        if pos >= self.code[0]:
            return 9
        if self.marks[pos]:
            return 11
        self.marks[pos] = True
        return []

    def clear(self):
        if not self.code:
            return 5
        self.marks = [False] * self.code[0]
        return []

    def test(self):
        if not self.code:
            return 5
        return next(([j] for j, s in enumerate(self.sums(self.word)) if s), [])

    def read(self):
        return list(self.word) if self.code else 5

    def report(self):
        return list(self.told) if self.code else 5

    def encode(self):
        if not self.code:
            return 5
        n, r, b = self.code
        bare = [0] * r + self.word[r:]
        rows = [[self.power(i * (b + j)) for i in range(r)] for j in range(r)]
        checks = solve_linear(self.f, rows, [self.f.neg(s) for s in self.sums(bare)])
        self.word, self.marks, self.told = checks + self.word[r:], [False] * n, [0, 0]
        return []

    def amounts(self, places, sums):
        n, r, b = self.code
        rows = [[self.power(i * (b + j)) for i in places] for j in range(r)]
        return solve_linear(self.f, rows, sums)

    def locate(self, e, lost, sums):
        """Positions of e unmarked errors, from the recurrence that the check sums less the marks keep."""
        f = self.f
        t = list(sums)
        for i in lost:
            t = [f.add(t[j + 1], f.neg(f.mul(self.power(i), t[j]))) for j in range(len(t) - 1)]
        rows = [t[j:j + e] for j in range(len(t) - e)]
        rhs = [f.neg(t[j + e]) for j in range(len(t) - e)]
        low = solve_linear(f, rows, rhs) if e else []
        if low is None:
            return None
        poly = low + [1]
        out = []
        for i in range(self.code[0]):
            total = 0
            for c in reversed(poly):
                total = f.add(f.mul(total, self.power(i)), c)
            if total == 0 and i not in lost:
                out.append(i)
        return out if len(out) == e else None

    def correct(self):
        if not self.code:
            return 5
        n, r, b = self.code
        f = self.f
        lost = {i for i in range(n) if self.marks[i]}
        s = len(lost)
        sums = self.sums(self.word)
        for e in range((r - s) // 2 + 1 if s <= r else 0):
            found = self.locate(e, lost, sums)
            if found is None:
                continue
            places = sorted(lost | set(found))
            wrong = self.amounts(places, sums)
            if wrong is None:
                continue
            word = list(self.word)
            for i, d in zip(places, wrong):
                word[i] = f.add(word[i], f.neg(d))
            if any(self.sums(word)):
                continue
            changed = [i for i in range(n) if word[i] != self.word[i]]
            if 2 * len([i for i in changed if i not in lost]) + s > r:
                continue
            self.told = [len(changed), s] + changed + [self.word[i] for i in changed]
            self.word, self.marks = word, [False] * n
            return []
        return 12


LETTERS = {"N": ("make", 3), "L": ("load", None), "P": ("put", 2), "M": ("mark", 1), "X": ("clear", 0), "E": ("encode", 0),
           "C": ("correct", 0), "T": ("test", 0), "W": ("read", 0), "Q": ("report", 0)}


def parse(line):
    """The letter and the numbers of a line, or None."""
    if len(line) > 6000 or not line:
        return None
    pieces = line.split(b" ")
    if len(pieces[0]) != 1 or not all(1 <= len(p) <= 5 and all(48 <= c <= 57 for c in p) for p in pieces[1:]):
        return None
    letter = chr(pieces[0][0])
    numbers = [int(p) for p in pieces[1:]]
    if letter not in LETTERS or LETTERS[letter][1] not in (None, len(numbers)):
        return None
    return letter, numbers


def answer(bay, line):
    said = parse(line)
    if said is None:
        return b"?"
    r = getattr(bay, LETTERS[said[0]][0])(*said[1])
    if isinstance(r, int):
        return b"no %d" % r
    return b" ".join([b"ok"] + [b"%d" % x for x in r])


def main():
    data = sys.stdin.buffer.read()
    lines = data.split(b"\n")
    last = lines.pop()
    if not lines or lines[0] not in FIELDS:
        sys.stdout.write("?\n")
        return
    bay = Bay(FIELDS[lines[0]]())
    for line in lines[1:]:
        sys.stdout.buffer.write(answer(bay, line) + b"\n")
    if last:
        sys.stdout.buffer.write(b"?\n")


if __name__ == "__main__":
    main()
