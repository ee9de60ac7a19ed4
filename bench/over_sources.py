#!/usr/bin/env python3
"""Checks a crate before the crates below it are proved.

    bench/over_sources.py CRATE [--built CLONE] [FLAGS..]      from the top of the repository

A library below CRATE that CLONE has built (see `libraries.py`) is taken as it is, also where its text differs from that here; each other one is taken as its
source: its statements are believed, and of its functions only those are checked that are called. So the check says what is left to prove in CRATE while the
gate is still at work below. FLAGS are those of `rt check`, as
`--only NAME` (a function by its name) or `--jobs N`. The gate doesn't rest on this. It uses the module `rtlib` beside the command `rt` of rattle-kit-13f.
"""

import argparse
import glob
import os
import shutil
import subprocess
import sys

from libraries import crate_type, toolchain


def built_in(clone):
    """The libraries that a clone has built, by their names."""
    found = glob.glob(f"{clone}/crates/*/out/rlib/*.rlib") if clone else []
    return {os.path.basename(path)[: -len(".rlib")]: path for path in found if os.path.exists(f"{path}/format")}


def with_built(words, built):
    """The words of a check, with the built library in place of each source that has one."""
    out, paths, rest = [], [], iter(words)
    for word in rest:
        if word != "--lib":
            out.append(word)
            continue
        source = next(rest)
        name = source.split(":")[0].split("=")[0]
        if name in built:
            out += ["--extern", f"{name}={built[name]}"]
            paths += ["-L", f"dependency={os.path.dirname(built[name])}"]
        else:
            out += [word, source]
    return out + paths


def main():
    """Checks the crate, and ends with the status of the check."""
    parser = argparse.ArgumentParser(description="Checks a crate before the crates below it are proved.")
    parser.add_argument("crate")
    parser.add_argument("--built", metavar="CLONE")
    known, flags = parser.parse_known_args()
    top = os.getcwd()
    crate = crate_type(toolchain())(f"{top}/crates/{known.crate}", top, {})
    words = with_built(crate.words(flags, as_source=True), built_in(known.built))
    rattle = os.path.join(os.path.dirname(os.path.realpath(shutil.which("rt"))), "rattle")
    sys.exit(subprocess.call([rattle, "check", *words], cwd=crate.folder))


if __name__ == "__main__":
    main()
