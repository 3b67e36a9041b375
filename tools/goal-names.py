#!/usr/bin/env python3
"""Spells the names of goals and steps in the files that answer goals as Rattle makes them today.

usage: python3 tools/goal-names.py CRATE..     at the top of the repository

A name from the source keeps its spelling, and a word of the checker's is in snake case: `c.in-ok-place-among` becomes `c.in_ok-place_among`.
"""

import os
import re
import sys

NAME = r"[A-Za-z_][\w']*(?:-[\w']+)+"
ANSWERS = ("Answers.antt", "Invariants.antt", "Choices.antt", "Proof.antt")
WORDS = {"in-default": "in_default", "in-ok": "in_ok", "in-err": "in_err", "overflow-add": "overflow_add", "overflow-sub": "overflow_sub", "overflow-mul": "overflow_mul", "overflow-cast": "overflow_cast", "overflow-step": "overflow_step", "invariant-of": "invariant_of", "slice-bounds": "slice_bounds"}


def walk(folder, ends):
    for at, dirs, names in os.walk(folder):
        dirs[:] = sorted(d for d in dirs if d != "out")
        for name in sorted(names):
            if name.endswith(ends):
                yield os.path.join(at, name)


def read(path):
    with open(path, encoding="utf-8") as f:
        return f.read()


for crate in sys.argv[1:]:
    source = " ".join(re.sub(r"//.*", "", read(p)) for p in walk(f"crates/{crate}/src", ".rt"))
    idents = sorted({w for w in re.findall(r"[A-Za-z]\w*", source) if "_" in w}, key=len, reverse=True)
    dashed = {w.replace("_", "-"): w for w in idents} | WORDS
    one = re.compile(r"(?<![\w'])(" + "|".join(re.escape(d) for d in sorted(dashed, key=len, reverse=True)) + r")(?![\w'])")
    for path in walk(f"crates/{crate}/proofs", ANSWERS):
        text = read(path)
        imported = set()
        for m in re.finditer(r"use [\w.+]+\.\{([^}]*)\}", text):
            imported |= set(re.findall(NAME, m.group(1)))

        def respelt(m):
            name = m.group(0)
            if name in imported:
                return name
            return one.sub(lambda d: dashed[d.group(1)], name)

        new = "\n".join(l if l.startswith("use ") else re.sub(r"(?<![\w'-])" + NAME, respelt, l) for l in text.split("\n"))
        if new != text:
            with open(path, "w", encoding="utf-8") as f:
                f.write(new)
            print(path)
