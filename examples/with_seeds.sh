#!/usr/bin/env bash
# Of each example whose members are all verified each method is run with 100 seeds: no run fails. It tells how many ended, and what became of the others.
set -eu
here=$(cd "$(dirname "${BASH_SOURCE[0]}")" && pwd)
# the program itself, proved and built first, where it isn't yet
if [ -n "${VSIL:-}" ]; then vsil=$VSIL; else vsil=$("$here/../release/where" vsil); fi
for file in "$here"/*.vpr; do
    if ! "$vsil" verify "$file" > /dev/null; then
        echo "$file: not all verified"
        continue
    fi
    mapfile -t methods < <(sed -n 's/^method \([A-Za-z0-9_]*\).*/\1/p' "$file")
    outcomes=$(for method in "${methods[@]}"; do
        for ((seed = 0; seed < 100; seed++)); do "$vsil" run "$file" "$method" "$seed" || true; done
    done | sed 's/ at .*//' | sort | uniq -c | awk '{ count = $1; $1 = ""; printf "%s%d%s", sep, count, $0; sep = ", " }')
    echo "$file: $outcomes"
    if [[ $outcomes == *failed* ]]; then exit 1; fi
done
