#!/usr/bin/env python3
"""Brings this repository's own definitions and lemmas to the spelling of today's Rattle: words in snake case, types in camel case.

usage: python3 tools/respell.py     at the top of the repository, once, after the toolchain's own script of spelling

It reads specs/, proofs/, the contracts of src/ and the must-fail edits. Functions of src/, strings, inputs and outputs keep their names.
"""

import os
import re

# A lemma that would take the name of a function that it speaks of, and a constructor with a dash.
FIRST = {"numbers_of": ("numbers_of_lem", ("crates/loss_list/proofs/Has.antt", "crates/merging/proofs/Ordered.antt")), "pair_found": ("pair_found_lem", ("crates/line_reading/proofs/Reading.antt",))}
OTHERS = {"Refusal-of": "RefusalOf"}

CAMEL = re.compile(r"(?<![\w'\u2032\"])[a-z][a-z0-9]*(?:[A-Z][a-z0-9]*)+(?![\w'\u2032])")
WORD = re.compile(r"(?<![\w'-])(" + "|".join(map(re.escape, OTHERS)) + r")(?![\w'-])")


def snake(name):
    return re.sub("[A-Z]", lambda m: "_" + m.group(0).lower(), name)


def turned(line):
    return WORD.sub(lambda m: OTHERS[m.group(1)], CAMEL.sub(lambda m: snake(m.group(0)), line))


def texts():
    for folder, dirs, files in os.walk("crates"):
        dirs[:] = sorted(d for d in dirs if d != "out")
        for name in sorted(files):
            if name.endswith((".rt", ".antt", ".edit")):
                yield os.path.join(folder, name)


def main():
    for path in texts():
        with open(path, encoding="utf-8") as f:
            text = f.read()
        new = text
        for name, (to, where) in FIRST.items():
            if path in where:
                new = re.sub(r"(?<![\w'])" + name + r"(?![\w'])", to, new)
        new = "".join(turned(line) for line in new.splitlines(keepends=True))
        if new != text:
            with open(path, "w", encoding="utf-8") as f:
                f.write(new)


if __name__ == "__main__":
    main()
