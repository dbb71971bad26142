#!/usr/bin/env python3
"""Respells the repository's own definitions and lemmas as the toolchain's library spells its: words in snake case, types in camel case.

usage: python3 tools/respell.py        at the top of the repository, once, right after the toolchain's own scripts were run over it

A name counts as the repository's own if a file of specs/ declares it, or a file of proofs/ that holds no function's answers or invariants.
What src/ declares, strings, inputs, outputs and the names that the checker makes stay as they are. Prints what it renamed, and which names fall together.
"""

import os
import re
import sys

NAME = r"[A-Za-z][\w']*(?:-[\w']+)+"
TOKEN = re.compile(r"(?<![\w'\-])" + NAME + r"(?![\w'\-])")
DECLARED = re.compile(r"\s*(?:(?:unfoldable|abbrev|pub)\s+)*(?:(?:data|record)\s+(" + NAME + r")|(" + NAME + r")\s*:(?!=))")
# What would fall together with a word of the library that stands in the same file.
APART = {"bit-or": "bit_or_digit"}
# Files of a function's proof: their fields are names that the checker makes.
MADE = ("Answers.antt", "Invariants.antt", "Choices.antt", "Proof.antt")


def files(top, *endings):
    for folder, below, names in os.walk(os.path.join(top, "crates")):
        below[:] = sorted(b for b in below if b not in ("out", ".git"))
        for name in sorted(names):
            if name.endswith(endings):
                yield os.path.join(folder, name)


def text_of(path):
    with open(path, encoding="utf-8") as file:
        return file.read()


def own(top):
    found = set()
    for path in files(top, ".antt"):
        if os.path.basename(path) in MADE:
            continue
        for line in text_of(path).splitlines():
            match = DECLARED.match(line)
            if match:
                found.add(match.group(1) or match.group(2))
    return found


def respelled(name):
    if name in APART:
        return APART[name]
    parts = name.split("-")
    if name[0].isupper():
        return "".join(part[0].upper() + part[1:] for part in parts)
    return "_".join(parts)


def together(top, names):
    """Names that would be spelled alike, or as a word that a file with specs or proofs has already."""
    made = {}
    for name in names:
        made.setdefault(respelled(name), []).append(name)
    fallen = {new: olds for new, olds in made.items() if len(olds) > 1}
    words = {}
    for path in files(top, ".antt", ".rt"):
        for word in set(re.findall(r"[A-Za-z_][\w'\-]*", text_of(path))):
            if word in made:
                words.setdefault(word, []).append(os.path.relpath(path, top))
    return fallen, words


def main():
    top = os.getcwd()
    if not os.path.isdir(os.path.join(top, "crates")):
        print("respell: run it at the top of the repository", file=sys.stderr)
        return 2
    names = own(top)
    fallen, words = together(top, names)
    changed = 0
    for path in files(top, ".antt", ".rt"):
        old = text_of(path)
        new = TOKEN.sub(lambda m: respelled(m.group(0)) if m.group(0) in names else m.group(0), old)
        if new != old:
            with open(path, "w", encoding="utf-8") as file:
                file.write(new)
            changed += 1
    for name in sorted(names):
        print(f"{name} -> {respelled(name)}")
    for new, olds in sorted(fallen.items()):
        print(f"together: {', '.join(olds)} -> {new}")
    for word, where in sorted(words.items()):
        print(f"there already: {word} in {', '.join(where)}")
    print(f"respell: {len(names)} names, {changed} files")
    return 0


if __name__ == "__main__":
    raise SystemExit(main())
