#!/usr/bin/env bash
# Prints the canonical text of files of 5,000, 10,000, 20,000 and 40,000 methods, of about 0.5 to 4 million bytes. Beside it, what `wc`
# takes to read the same bytes.
set -eu
. "$(dirname "${BASH_SOURCE[0]}")/timing.sh"
vsil=$(where_vsil)

methods() {
    awk -v count="$1" 'BEGIN {
        for (i = 0; i < count; i++) printf "method m%d(x: Int) returns (y: Int) requires x > 0 ensures y == x { var z: Int := x y := z }\n", i
    }'
}

for count in 5000 10000 20000 40000; do
    methods "$count" > "$folder/file.vpr"
    bytes=$(wc -c < "$folder/file.vpr")
    timed "print, bytes" "$bytes" "$folder/file.vpr" "$vsil" print
    timed "wc, bytes" "$bytes" "$folder/file.vpr" wc -l
done
