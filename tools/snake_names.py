#!/usr/bin/env python3
"""Brings the repository's own words to today's spelling, once, after port.py: definitions, laws, fields and variables of specs/, proofs/ and
clauses in snake case (`newCell` is `new_cell`); types, modules, functions of src/ and exported names stay. Must-fail edits follow their texts.

usage: python3 tools/snake_names.py      at the top of the repository
"""

import glob
import re

# A law that would have the name of the definition it is about.
LAWS = {"none_left": "none_left_lem"}
LAW_FILES = ("crates/progress/proofs/TestLaws.antt", "crates/progress/proofs/has_ended/Proof.antt", "crates/program_run/proofs/ToPrintLaws.antt")
WORD = re.compile(r"(?<![\w'])[A-Za-z_][\w'*-]*")
CAMEL = re.compile(r"(?<=[A-Za-z0-9])([A-Z])")


def snake(word):
    """The parts that dashes join, each in snake case, but for those that are named as a type is."""
    parts = [CAMEL.sub(lambda m: "_" + m.group(1).lower(), p) if re.match("[a-z]", p) else p for p in word.split("-")]
    return "-".join(parts)


def words(text):
    return WORD.sub(lambda m: snake(m.group(0)), text)


def files():
    for pattern in ("specs/**/*.antt", "proofs/**/*.antt", "src/**/*.rt", "must-fail/*.edit"):
        yield from sorted(glob.glob("crates/*/" + pattern, recursive=True))


def main():
    for path in files():
        with open(path, encoding="utf-8") as f:
            old = f.read()
        text = old
        if path in LAW_FILES:
            text = WORD.sub(lambda m: LAWS.get(m.group(0), m.group(0)), text)
        text = words(text)
        if text != old:
            with open(path, "w", encoding="utf-8") as f:
                f.write(text)


if __name__ == "__main__":
    main()
