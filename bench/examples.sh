#!/usr/bin/env bash
# Verifies each file of examples/ by the companion, and by z3 behind a pipe, where it is there. The size of a file is its lines.
set -eu
. "$(dirname "${BASH_SOURCE[0]}")/timing.sh"
vsil=$(where_vsil)

for file in "$top"/examples/*.vpr; do
    name=$(basename "$file")
    lines=$(wc -l < "$file")
    timed "verify, $name" "$lines" "$file" "$vsil" verify
    if has z3; then timed "verify by z3, $name" "$lines" "$file" "$vsil" verify --solver 'z3 -in'; fi
done
