#!/usr/bin/env python3
"""Gives a clone the libraries that `rt ci` built in other clones, so that `rt check` there proves no crate below once more.

    bench/libraries.py CLONE SOURCE..

For each crate whose text, and that of all crates below, is the same in CLONE and in a SOURCE that has built it, the library of
SOURCE is linked into CLONE. A SOURCE is a clone in which `rt ci` ran. The gate doesn't rest on this: it looks at no such library.
It uses the module `rtlib` beside the command `rt` of rattle-kit-13f.
"""

import functools
import os
import shutil
import subprocess
import sys
from contextlib import suppress


def toolchain():
    """The toolchain's module that knows crates and their sums. It reads the arguments of the command line when it is loaded."""
    rt = shutil.which("rt") or sys.exit("libraries.py: there is no rt in the path")
    sys.path.insert(0, os.path.dirname(os.path.realpath(rt)))
    words, sys.argv = sys.argv, sys.argv[:1]
    import rtlib

    sys.argv = words
    return rtlib


def crate_type(module):
    """The class of a crate: the one that builds libraries and sums up what they are made of, each but once: a crate asks all below it."""
    kinds = (it for it in vars(module).values() if isinstance(it, type))
    kind = next(it for it in kinds if hasattr(it, "build_rlib") and hasattr(it, "stamp"))
    kind.stamp = functools.cache(kind.stamp)
    return kind


def crates_of(kind, clone):
    """The crates of a clone by their names; one that can't be read is left out."""
    known, found = {}, {}
    with open(f"{clone}/crates.txt", encoding="utf-8") as lines:
        names = [it.split(":")[0].split()[0] for it in lines if it.strip() and not it.startswith("#")]
    for name in names:
        with suppress(SystemExit):
            found[name] = kind(f"{clone}/crates/{name}", clone, known)
    return found


def is_there(folder, sum):
    """Whether a library of this sum lies in the folder."""
    with suppress(OSError), open(f"{folder}/stamp", encoding="utf-8") as it:
        return it.read() == sum
    return False


def take(name, mine, theirs):
    """Links the library of a crate, where its text is the same and it is built; answers whether it did."""
    built = f"{theirs.folder}/out/rlib/{name}.rlib"
    sum, folder = mine.stamp(), f"{mine.folder}/out/rlib"
    if not os.path.isdir(built) or is_there(folder, sum) or sum != theirs.stamp():
        return False
    shutil.rmtree(folder, ignore_errors=True)
    os.makedirs(folder)
    subprocess.check_call(["cp", "-al", built, f"{folder}/"])
    with open(f"{folder}/stamp", "w", encoding="utf-8") as it:
        it.write(sum)
    return True


def main():
    if len(sys.argv) < 3:
        sys.exit(__doc__)
    clone, *sources = map(os.path.abspath, sys.argv[1:])
    kind = crate_type(toolchain())
    mine = crates_of(kind, clone)
    for source in sources:
        theirs = crates_of(kind, source)
        taken = [it for it in mine if it in theirs and take(it, mine[it], theirs[it])]
        print(f"{source}: {len(taken)} libraries taken")


if __name__ == "__main__":
    main()
