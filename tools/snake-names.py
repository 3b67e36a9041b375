#!/usr/bin/env python3
"""Spells the repository's own definitions and lemmas as Rattle spells them: words in snake case, facts and records in upper camel case.

usage: python3 tools/snake-names.py [--look]     at the top of the repository

A name of ours that joins words by dashes is respelt in specs/, proofs/ and the ghost parts of src/: `month-refusal` becomes `month_refusal`, `Goes-round`
becomes `GoesRound`. The library's names, the names of goals and the words of comments and strings stay. With --look nothing is written: it prints each
name with its new spelling, and those that would fall together with a name that stands already.
"""

import os
import re
import sys

NAME = r"[A-Za-z_][\w']*(?:-[\w']+)+"
CRATES = ("calendar", "books", "readings", "tariffs", "programmes", "bill", "job", "edges")
# The files that answer goals, whose names the checker makes.
ANSWERS = ("Answers.antt", "Invariants.antt", "Choices.antt", "Proof.antt")


def new_name(name):
    words = name.split("-")
    if words[0][0].isupper():
        return words[0] + "".join(w[0].upper() + w[1:] for w in words[1:])
    return "_".join(words).lower()


def files():
    for folder, dirs, names in os.walk("crates"):
        dirs[:] = sorted(d for d in dirs if d != "out")
        for name in sorted(names):
            if name.endswith((".rt", ".antt")):
                yield os.path.join(folder, name)


def parts(path, line):
    """The line cut into pieces, each with whether a name may stand in it: not in comments, strings and bytes."""
    comment = r"//.*" if path.endswith(".rt") else r"(?:(?<=\s)|^)--(?=\s|$).*"
    cut = re.compile(comment + r"""|b?"(?:\\.|[^"\\])*"|b'(?:\\.|[^'\\])'""" if path.endswith(".rt") else comment)
    at = 0
    for m in cut.finditer(line):
        yield line[at : m.start()], True
        yield m.group(0), False
        at = m.end()
    yield line[at:], True


def names_in(path, text):
    for line in text.splitlines():
        for piece, code in parts(path, line):
            if code:
                yield from re.finditer(r"(?<![\w'-])" + NAME, piece)


def library(texts):
    """The names that the files take from the library."""
    taken = set()
    for text in texts.values():
        for m in re.finditer(r"use ([\w.+]+)\.\{([^}]*)\}", text):
            words = m.group(1).split(".")
            if not (words[0] == "Rattle" and words[1] in CRATES):
                taken |= set(re.findall(NAME, m.group(2)))
    return taken


def own_names(texts, taken):
    found = set()
    for path, text in texts.items():
        if os.path.basename(path) in ANSWERS:
            # lemmas beside the answers, and what the file takes from our own definitions
            for m in re.finditer(r"(?m)^\s*(?:pub |abbrev )*(" + NAME + r") :(?! goal\.)", text):
                found.add(m.group(1))
            for m in re.finditer(r"use Rattle\.(\w+)\.[\w.+]*\.\{([^}]*)\}", text):
                if m.group(1) in CRATES:
                    found |= set(re.findall(NAME, m.group(2)))
        else:
            found |= {m.group(0) for m in names_in(path, text)}
    return found - taken


def respelt(path, text, own):
    answers = os.path.basename(path) in ANSWERS
    def one(m):
        name = m.group(0)
        if name not in own:
            return name
        # in an answer, a name after a dot is a field of a record of ours or a name that the checker makes
        if answers and m.start() and m.string[m.start() - 1] == ".":
            return name
        return new_name(name)
    out = []
    for line in text.splitlines(keepends=True):
        for piece, code in parts(path, line):
            out.append(re.sub(r"(?<![\w'-])" + NAME, one, piece) if code else piece)
    return "".join(out)


def main():
    texts = {}
    for path in files():
        with open(path, encoding="utf-8") as f:
            texts[path] = f.read()
    taken = library(texts)
    own = own_names(texts, taken)
    words = set()
    for path, text in texts.items():
        for line in text.splitlines():
            for piece, code in parts(path, line):
                if code:
                    words |= set(re.findall(r"[A-Za-z_][\w']*", re.sub(NAME, " ", piece)))
    if "--look" in sys.argv:
        for name in sorted(own):
            print(f"{name} -> {new_name(name)}{'   stands already' if new_name(name) in words else ''}")
        return
    changed = 0
    for path, text in texts.items():
        new = respelt(path, text, own)
        if new != text:
            changed += 1
            with open(path, "w", encoding="utf-8") as f:
                f.write(new)
    print(f"{len(own)} names respelt in {changed} files")


main()
