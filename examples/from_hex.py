#!/usr/bin/env python3
"""Writes the bytes of a file of hex digits to standard output, as input of the program.

    python3 examples/from_hex.py FILE | target/bin/cabinet

In each line what stands from a # on is a comment; spaces, commas and empty lines count for nothing.
"""
import sys


def bytes_of(text):
    """The bytes; a line that is no hex of whole bytes is told by its number."""
    found = []
    for number, line in enumerate(text.splitlines(), 1):
        try:
            found.append(bytes.fromhex(line.split("#")[0].replace(",", " ")))
        except ValueError:
            raise ValueError(f"line {number} has something else than pairs of hex digits: {line.strip()}")
    return b"".join(found)


if __name__ == "__main__":
    if len(sys.argv) != 2:
        sys.exit("usage: from_hex.py FILE")
    try:
        with open(sys.argv[1], encoding="utf-8") as file:
            sys.stdout.buffer.write(bytes_of(file.read()))
    except (OSError, ValueError) as problem:
        sys.exit(f"from_hex.py: {problem}")
