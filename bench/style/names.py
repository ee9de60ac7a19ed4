#!/usr/bin/env python3
"""Tells which names of types and of files stand in several crates, and which public functions no other crate names.

    python3 bench/style/names.py      from the top of the repository

A name that stands for different things in crates beside one another, and a file whose name says nothing, are harder to find.
"""
import collections
import glob
import os
import re

TYPE = re.compile(r"^\s*(?:pub(?:\(crate\))? )?(?:struct|enum|trait|type) (\w+)", re.M)
PUBLIC = re.compile(r"^\s*pub fn (\w+)", re.M)
GHOST = re.compile(r"^\s*(?://|ghost |ensures|requires)")
SHOWN = 30


def read():
    """The files of code by crate and path."""
    for path in sorted(glob.glob("crates/*/src/**/*.rt", recursive=True)):
        with open(path, encoding="utf-8") as file:
            yield path.split("/")[1], path, file.read()


def code(text):
    """What runs: without comments, imports for contracts, and clauses."""
    return "\n".join(line for line in text.split("\n") if not GHOST.match(line))


def show(title, found):
    """The names that stand in most crates."""
    print(title)
    for name, crates in sorted(found.items(), key=lambda it: -len(it[1]))[:SHOWN]:
        if len(crates) > 1:
            print(f"{len(crates):4} {name}: {', '.join(sorted(crates))}")


def main():
    """Prints types, files and functions."""
    types, files, words, public = (collections.defaultdict(set) for _ in range(4))
    for crate, path, text in read():
        for name in TYPE.findall(text):
            types[name].add(crate)
        files[os.path.basename(path)].add(crate)
        for word in re.findall(r"\w+", code(text)):
            words[word].add(crate)
        for name in PUBLIC.findall(text):
            public[name].add((crate, path))
    show("Types in several crates:", types)
    show("Files in several crates:", {name: crates for name, crates in files.items() if name != "lib.rt"})
    alone = sorted(place + (name,) for name, places in public.items() for place in places if words[name] <= {place[0]})
    print(f"Public functions that no other crate names ({len(alone)}; laws and examples are among them):")
    for _, path, name in alone:
        print(f"     {path}: {name}")


if __name__ == "__main__":
    main()
