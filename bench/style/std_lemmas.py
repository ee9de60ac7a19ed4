#!/usr/bin/env python3
"""Tells which lemmas of proofs/ are stated in the toolchain's library too, and which are stated in more than one file.

    python3 bench/style/std_lemmas.py [FOLDER]      from the top of the repository

FOLDER has the pages of the library's lemmas (what `rt lemma` searches); if none is given, those beside the command `rt`. Two statements are the same
here where they are but for the names of what they speak of. It prints how many places state a lemma of the library, each lemma with its first place, and
then the statements of our own that stand in most files.
"""
import collections
import glob
import os
import re
import shutil
import sys

BINDER = re.compile(r"\s*[({]([^(){}]*?) : ([^(){}]*(?:\([^()]*\)[^(){}]*)*)[)}]\s*→?\s*")
NAME = re.compile(r"[A-Za-z_][\w']*")
STATEMENT = re.compile(r"\s*(?:pub )?([a-z][\w'\-]*) : (.+)$")
SHOWN = 20


def normal(statement):
    """The statement with its variables numbered in their order."""
    rest, bound = statement.strip(), []
    while found := BINDER.match(rest):
        variables = found[1].split()
        if not all(NAME.fullmatch(it) for it in variables):
            break
        bound += [(it, found[2]) for it in variables]
        rest = rest[found.end():]
    numbers = {name: f"v{k}" for k, (name, _) in enumerate(bound)}

    def renamed(text):
        return NAME.sub(lambda word: numbers.get(word[0], word[0]), text)

    head = " ".join(f"({numbers[name]}:{renamed(kind)})" for name, kind in bound)
    return " ".join(f"{head} {renamed(rest)}".split())


def stated(pattern, least):
    """The statements in some files: normal form, file, line and name, where they have so many letters."""
    for path in sorted(glob.glob(pattern, recursive=True)):
        if "/out/" in path:
            continue
        with open(path, encoding="utf-8") as lines:
            for number, line in enumerate(lines, 1):
                if (found := STATEMENT.match(line.rstrip())) and len(form := normal(found[2])) > least:
                    yield form, path, number, found[1]


def library(folder):
    """The library's statements by their normal forms."""
    return {form: (name, os.path.basename(path)) for form, path, _, name in stated(f"{folder}/**/*.md", 25)}


def default_folder():
    """Where the toolchain that the command `rt` belongs to keeps its pages of lemmas."""
    rt = shutil.which("rt") or sys.exit("std_lemmas.py: there is no rt in the path")
    top = os.path.realpath(rt)
    while top != "/":
        top = os.path.dirname(top)
        for folder in glob.glob(f"{top}/rattle/rattle/std/lemmas"):
            return folder
    return sys.exit("std_lemmas.py: name the folder of the library's lemmas")


def main():
    """Prints both lists."""
    std = library(sys.argv[1] if len(sys.argv) > 1 else default_folder())
    again, own = collections.defaultdict(list), collections.defaultdict(list)
    for form, path, number, name in stated("crates/*/proofs/**/*.antt", 25):
        if form in std:
            again[form].append((path, number, name))
        elif len(form) > 40 and "→" in form and not form.startswith("goal."):
            own[form].append((path, number, name))
    print(f"{sum(map(len, again.values()))} places state one of {len(again)} lemmas of the library again")
    for form, places in sorted(again.items(), key=lambda it: -len(it[1]))[:SHOWN]:
        print(f"{len(places):4} {std[form][0]} ({std[form][1]}): {places[0][0]}:{places[0][1]}")
    many = {form: places for form, places in own.items() if len({path for path, *_ in places}) > 1}
    print(f"{len(many)} statements of our own stand in more than one file, {sum(len(places) - 1 for places in many.values())} too many")
    for form, places in sorted(many.items(), key=lambda it: -len(it[1]))[:SHOWN]:
        print(f"{len(places):4} {form[:100]}: {places[0][0]}:{places[0][1]}")


if __name__ == "__main__":
    main()
