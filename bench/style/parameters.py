#!/usr/bin/env python3
"""Tells which functions have many parameters.

    python3 bench/style/parameters.py [COUNT]      from the top of the repository

It prints how many functions there are, and those with more than COUNT parameters (7 if none is given), the most first.
"""
import glob
import re
import sys

OPENS, CLOSES = "([{<", ")]}>"


def closing(text, at):
    """The place behind the bracket that closes the one at this place; `->` closes nothing."""
    depth = 0
    while True:
        if text[at] in OPENS:
            depth += 1
        elif text[at] in CLOSES and text[at - 1] != "-":
            depth -= 1
        at += 1
        if depth == 0:
            return at


def parts(text):
    """The parts between the commas that stand within no bracket."""
    depth, found = 0, [""]
    for before, letter in zip(" " + text, text):
        depth += (letter in OPENS) - (letter in CLOSES and before != "-")
        if letter == "," and depth == 0:
            found.append("")
        else:
            found[-1] += letter
    return [part.strip() for part in found if part.strip()]


def functions(path):
    """Each function of a file: its line, its name and its parameters."""
    with open(path, encoding="utf-8") as file:
        text = file.read()
    for found in re.finditer(r"\bfn\s+(\w+)", text):
        at = found.end()
        if text[at] == "<":
            at = closing(text, at)
        if text[at] == "(":
            yield text.count("\n", 0, found.start()) + 1, found[1], parts(text[at + 1:closing(text, at) - 1])


def main():
    """Prints the count and the list."""
    limit = int(sys.argv[1]) if len(sys.argv) > 1 else 7
    found = [(len(takes), f"{path}:{line}", name, takes) for path in sorted(glob.glob("crates/*/src/**/*.rt", recursive=True)) for line, name, takes in functions(path)]
    many = sorted((it for it in found if it[0] > limit), key=lambda it: -it[0])
    print(f"{len(found)} functions, {len(many)} with more than {limit} parameters")
    for count, place, name, takes in many:
        print(f"{count:3} {place} {name}: {', '.join(take.split(':')[0] for take in takes)}")


if __name__ == "__main__":
    main()
