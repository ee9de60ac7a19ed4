#!/usr/bin/env python3
"""Tells which lines of code and proofs repeat an earlier place.

    python3 bench/style/repeats.py [LINES]      from the top of the repository

A repeat is a run of LINES lines or more (6 if none is given) that stands at two places, blanks, comments and imports aside. It prints how many lines
repeat an earlier place, and the largest repeats with their places.
"""
import collections
import glob
import re
import sys

SKIPPED = ("//", "--", "use ", "ghost use ", "pub use ")
SHOWN = 25


def read(path):
    """What a file says: its lines with single blanks, and their numbers."""
    with open(path, encoding="utf-8") as lines:
        told = ((" ".join(line.split()), number) for number, line in enumerate(lines, 1))
        return [(text, number) for text, number in told if text and not text.startswith(SKIPPED)]


def places_of(files, size):
    """Each run of so many lines that stands at two places or more, with its places."""
    places = collections.defaultdict(list)
    for name, lines in files.items():
        for at in range(len(lines) - size + 1):
            places["\n".join(text for text, _ in lines[at:at + size])].append((name, at))
    return [found for found in places.values() if len(found) > 1]


def line_at(files, place, offset):
    """The line so far from a place, or none behind the ends of its file."""
    name, at = place
    return files[name][at + offset][0] if 0 <= at + offset < len(files[name]) else None


def extended(files, found, size):
    """The length of the longest run at all these places; 0 where the line before is the same everywhere, since an earlier run has it then."""
    before = {line_at(files, place, -1) for place in found}
    if len(before) == 1 and None not in before:
        return 0
    while len(behind := {line_at(files, place, size) for place in found}) == 1 and None not in behind:
        size += 1
    return size


def says_little(files, place, size):
    """Fewer than four different lines with a word."""
    name, at = place
    return len({text for text, _ in files[name][at:at + size] if re.search(r"\w", text)}) < 4


def main():
    """Counts each repeated line once, the largest repeats first."""
    size = int(sys.argv[1]) if len(sys.argv) > 1 else 6
    paths = [path for end in ("rt", "antt") for path in glob.glob(f"crates/**/*.{end}", recursive=True) if "/out/" not in path]
    files = {path: read(path) for path in sorted(paths)}
    runs = [(extended(files, found, size), found) for found in places_of(files, size)]
    runs = sorted(((length, found) for length, found in runs if length and not says_little(files, found[0], length)), key=lambda it: -it[0] * (len(it[1]) - 1))
    counted, told = set(), []
    for length, found in runs:
        lines = {(name, at + k) for name, at in found[1:] for k in range(length)} - counted
        counted |= lines
        told.append((len(lines), length, found))
    print(f"{len(files)} files, {sum(map(len, files.values()))} lines; {len(counted)} lines repeat an earlier place")
    for fresh, length, found in sorted(told, key=lambda it: -it[0])[:SHOWN]:
        print(f"{fresh} lines: {length} x {len(found)}")
        for name, at in found[:8]:
            print(f"    {name}:{files[name][at][1]}-{files[name][at + length - 1][1]}")


if __name__ == "__main__":
    main()
