#!/usr/bin/env bash
# Verifies each example in 1 to 16 lanes, by the companion and, where it is there, by z3: each report has to be that of one lane.
set -eu
here=$(cd "$(dirname "${BASH_SOURCE[0]}")" && pwd)
# the program itself, proved and built first, where it isn't yet
if [ -n "${VSIL:-}" ]; then vsil=$VSIL; else vsil=$("$here/../release/where" vsil); fi
solvers=(builtin)
if command -v z3 > /dev/null; then solvers+=('z3 -in'); fi
for file in "$here"/*.vpr; do
    for solver in "${solvers[@]}"; do
        one=$("$vsil" verify --solver "$solver" "$file") || true
        for jobs in {2..16}; do
            got=$("$vsil" verify --solver "$solver" --jobs "$jobs" "$file") || true
            if [ "$got" != "$one" ]; then
                echo "$file by $solver in $jobs lanes: $got"
                exit 1
            fi
        done
    done
    echo "$file: as in one lane"
done
