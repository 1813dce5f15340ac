#!/usr/bin/env python3
"""Brings the names of this repository's own definitions and lemmas to the spelling of today's Rattle.

usage: python3 tools/respell.py [ROOT]

Run once, after the toolchain's own port script. A word is in snake case (`check_sum`), a type in camel case (`ComesBack`).
Only names that specs/ and proofs/ of this repository declare are respelled, wherever they are used: in .antt files, and in the
clauses and imports of .rt files. Functions of src/, names that the prover makes (`loop-i-preserved`, `c.sum-c`), strings and
inputs stay. A name that a file takes from the toolchain's library stays in that file.
Prints each new name that already stood in a file where it comes, so that no two names fall together.
"""
import glob
import os
import re
import sys

ROOT = sys.argv[1] if len(sys.argv) > 1 else "."
NAME = r"[^\W\d_][^\s(){}.,;:@\"`|\[\]]*"
DECLARES = re.compile(r"^(\s*)((?:abbrev |unfoldable |pub |record |data )*)(" + NAME + r")\s*([({:].*)?$")
LETS = re.compile(r"\blet\s+(" + NAME + r")\s*[:=]")
ANSWERS = ("Answers.antt", "Invariants.antt", "Proof.antt")
# names of the toolchain's library
LIBRARY = re.compile(r"use (?:Rattle\.(?:std|core)|native|lib|borrow|denote|mathlib|Prim)\S*?\.\{([^}]*)\}")
ALIAS = re.compile(r"^\s*(?:pub )?(?:ghost )?use \S+ as (\S+?);?$", re.M)
# two names that would fall together with a name beside them
SPECIAL = {"In-reach": "IsInReach", "put-mid": "put_middle"}


def dashed(name):
    return "-" in name.strip("-") and not name.startswith("-")


def respelled(name):
    if name in SPECIAL:
        return SPECIAL[name]
    first = name.split("-")[0]
    if first[0].isupper() and len(first) > 1 and first[1].isalpha():
        return "".join(p[:1].upper() + p[1:] for p in name.split("-"))
    return name.replace("-", "_")


def antt_files():
    for folder in ("specs", "proofs"):
        yield from sorted(glob.glob(os.path.join(ROOT, "crates", "*", folder, "**", "*.antt"), recursive=True))


def gather():
    names, fields = set(), set()
    for path in antt_files():
        answers = os.path.basename(path) in ANSWERS
        record = None
        with open(path, encoding="utf-8") as f:
            for line in f:
                if line.lstrip().startswith("--"):
                    continue
                m = DECLARES.match(line.rstrip("\n"))
                if m and m.group(4):
                    indent, words, name = len(m.group(1)), m.group(2), m.group(3)
                    if "record " in words or "data " in words:
                        record = indent
                    elif record is not None and indent <= record:
                        record = None
                    if dashed(name) and not (answers and indent == 0 and "pub" in words):
                        names.add(name)
                        if record is not None and indent > record:
                            fields.add(name)
                for m in LETS.finditer(line):
                    if dashed(m.group(1)):
                        names.add(m.group(1))
    return names, fields


NAMES, FIELDS = gather()
TOKEN = re.compile(r"(?<![^\s(){}.,;:@\"`|\[\]«])(" + NAME + r")")


def turned(text, path):
    taken = set()
    for m in LIBRARY.finditer(text):
        taken.update(w.strip().split(" as ")[-1] for w in m.group(1).split(","))
    aliases = set(ALIAS.findall(text))
    before = {m.group(1) for m in TOKEN.finditer(text)}
    came = set()

    def one(m):
        name = m.group(1)
        if name not in NAMES or name in taken:
            return name
        start = m.start(1)
        if start and text_now[start - 1] == ".":
            left = re.search(r"([^\s(){},;:@\"`|]*)\.$", text_now[:start]).group(1)
            owner = left.split(".")[-1]
            if owner not in aliases and not left.startswith("Rattle.") and name not in FIELDS:
                return name
        new = respelled(name)
        came.add(new)
        return new

    if path.endswith(".rt"):
        out = []
        for i, part in enumerate(re.split(r"(\"(?:[^\"\\\n]|\\.)*\")", text)):
            text_now = part
            out.append(part if i % 2 else TOKEN.sub(one, part))
        result = "".join(out)
    else:
        text_now = text
        result = TOKEN.sub(one, text)
    for new in sorted(came & before):
        print(f"look: {path}: {new} stood there already")
    return result


def main():
    paths = list(antt_files()) + sorted(glob.glob(os.path.join(ROOT, "crates", "*", "src", "**", "*.rt"), recursive=True))
    changed = 0
    texts = {}
    for path in paths:
        with open(path, encoding="utf-8") as f:
            texts[path] = f.read()
    for path, text in texts.items():
        new = turned(text, path)
        if new != text:
            changed += 1
            with open(path, "w", encoding="utf-8") as f:
                f.write(new)
    print(f"respell: {len(NAMES)} names, {changed} files changed")


if __name__ == "__main__":
    main()
