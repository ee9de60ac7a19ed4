#!/usr/bin/env python3
"""Compares the column "Stands on" of docs/MAP.md with crates.txt, and tells the longest chain of crates.

    python3 bench/style/graph.py      from the top of the repository

It prints the longest chain and its length, and then each line of MAP that disagrees with crates.txt. They agree where

- each crate of crates.txt has one line in MAP, and MAP has no line of another crate;
- each crate that a line names under "Stands on" is one that its crate stands on, itself or through others;
- each crate that crates.txt lists for it is named there, or stands below one that is;
- the crates stand in the same order, under the same headings (`# Syntax` there, `## Syntax` in MAP).

The status is 0 where they agree, else 1.
"""
import functools
import re
import sys

CRATES = "crates.txt"
MAP = "docs/MAP.md"
HEAD = "| Crate | Stands on |"
NAME = re.compile(r"`(\w+)`")


def read_crates(path):
    """Each crate of crates.txt with the crates of the repository that its line lists; what the toolchain has is left out."""
    listed = {}
    with open(path, encoding="utf-8") as lines:
        for line in lines:
            line = line.split("#")[0].strip()
            if line:
                head, below = line.split(":")
                listed[head.split()[0]] = below.split()
    return {name: [low for low in below if low in listed] for name, below in listed.items()}


def read_map(path):
    """The lines of MAP's table of crates: number, crates, and the crates named under "Stands on"."""
    inside = False
    with open(path, encoding="utf-8") as lines:
        for number, line in enumerate(lines, 1):
            inside = line.startswith(HEAD) or (inside and line.startswith("|"))
            if inside and line.startswith("| `"):
                _, heads, named, *_ = line.split("|")
                yield number, NAME.findall(heads), NAME.findall(named)


def read_order(path, heading):
    """The headings and crates of a file in their order: lines that begin with `heading` or a crate's name, as `NAME:` or as MAP's tables have it."""
    order = []
    with open(path, encoding="utf-8") as lines:
        for line in lines:
            if line.startswith(heading + " "):
                order.append(line[len(heading) + 1:].strip())
            elif found := re.match(r"(?:\| `)?(\w+)(?:` \||:)", line):
                order.append(found[1])
    return order


def first_difference(crates):
    """The first heading or crate that stands at another place in MAP than in crates.txt; the first line of each is its own."""
    listed = read_order(CRATES, "#")[1:]
    mapped = [name for name in read_order(MAP, "##") if name in crates or name in listed]
    for name, other in zip(listed, mapped):
        if name != other:
            yield f"{MAP}: {other} stands where {CRATES} has {name}"
            return
    if len(listed) != len(mapped):
        yield f"{MAP} has {len(mapped)} headings and crates, {CRATES} {len(listed)}"


def all_below(crates):
    """A function from a crate to the set of those that it stands on, itself or through others."""
    @functools.lru_cache(maxsize=None)
    def below(name):
        return frozenset(crates[name]).union(*(below(low) for low in crates[name]))
    return below


def longest_chain(crates):
    """The longest list of crates, each of which crates.txt lists for the next one."""
    @functools.lru_cache(maxsize=None)
    def chain(name):
        return max((chain(low) for low in crates[name]), key=len, default=()) + (name,)
    return max((chain(name) for name in crates), key=len)


def names(crates):
    """Crates in the order of their names, as a text."""
    return ", ".join(sorted(crates))


def disagreements(crates, rows):
    """Each way in which MAP disagrees with crates.txt, as a line of text."""
    below = all_below(crates)
    seen = set()
    for number, heads, named in rows:
        unknown = [name for name in heads + named if name not in crates]
        if unknown:
            yield f"{MAP}:{number}: no crate of {CRATES}: {names(unknown)}"
        known = [name for name in named if name in crates]
        reached = set(known).union(*(below(name) for name in known))
        for head in (name for name in heads if name in crates):
            if head in seen:
                yield f"{MAP}:{number}: {head} has two lines"
            seen.add(head)
            if strangers := set(known) - below(head):
                yield f"{MAP}:{number}: {head} does not stand on {names(strangers)}"
            if missing := set(crates[head]) - reached:
                yield f"{MAP}:{number}: {head} stands on {names(missing)} too"
    for name in sorted(set(crates) - seen):
        yield f"{MAP}: {name} has no line"


def main():
    """Prints the chain and the disagreements; the status tells whether there are any."""
    crates = read_crates(CRATES)
    chain = longest_chain(crates)
    print(f"{len(chain)} crates: {' > '.join(chain)}")
    wrong = list(disagreements(crates, read_map(MAP))) + list(first_difference(crates))
    print("\n".join(wrong) if wrong else f"{MAP} agrees with {CRATES}")
    return 1 if wrong else 0


if __name__ == "__main__":
    sys.exit(main())
