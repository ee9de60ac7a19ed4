#!/usr/bin/env python3
"""Tells how long the lines of contracts are: `ensures`, `requires` and what goes on behind them.

    python3 bench/style/clauses.py [COLUMNS]      from the top of the repository

It prints how many lines of clauses are longer than COLUMNS (200 if none is given), each with its place, the longest first, and then the crates
that have most of them.
"""
import collections
import glob
import sys

WORDS = ("ensures", "requires")


def clause_lines(path):
    """The lines of clauses of a file: their number, and their length without the indent."""
    inside = False
    with open(path, encoding="utf-8") as lines:
        for number, line in enumerate(lines, 1):
            text = line.strip()
            if text.startswith(WORDS):
                inside = True
            elif text in ("{", "{}") or text.startswith(("fn ", "pub fn ", "#[", "//")):
                inside = False
            if inside:
                yield number, len(text)


def main():
    """Prints the count, the places and the crates."""
    limit = int(sys.argv[1]) if len(sys.argv) > 1 else 200
    found = [(length, path, number) for path in sorted(glob.glob("crates/*/src/**/*.rt", recursive=True)) for number, length in clause_lines(path)]
    long = sorted((it for it in found if it[0] > limit), reverse=True)
    print(f"{len(found)} lines of clauses, {len(long)} longer than {limit} columns")
    for length, path, number in long:
        print(f"{length:5} {path}:{number}")
    counts = collections.Counter(path.split("/")[1] for _, path, _ in long)
    print(", ".join(f"{crate} {count}" for crate, count in counts.most_common()))


if __name__ == "__main__":
    main()
