#!/usr/bin/env bash
# Prints the other verifiers that are installed, each with its version, one per line: Boogie and Dafny.
set -eu

# (Some versions know no such option, and refuse it behind a line with their version.)
version_of() { { "$1" /version 2> /dev/null || true; } | grep -Eo '[0-9]+(\.[0-9]+)+' | head -n 1; }

for peer in boogie dafny; do
    if command -v "$peer" > /dev/null; then
        version=$(version_of "$peer")
        if [ -n "$version" ]; then echo "$peer $version"; fi
    fi
done
