#!/usr/bin/env bash
# Reads s-expressions of 1, 4 and 16 million bytes and writes declarations of about as many, and prints what each takes.
set -eu
. "$(dirname "${BASH_SOURCE[0]}")/timing.sh"
rows=$(where_rows)

for millions in 1 4 16; do
    file=$folder/$millions
    line='(assert (= v12 (+ v7 1.5)))'
    lines=$((millions * 1000000 / (${#line} + 1)))
    { printf 'sizes ('; awk -v line="$line" -v lines="$lines" 'BEGIN { for (i = 0; i < lines; i++) printf "%s ", line }'; echo ')'; } > "$file"
    timed_rows "read and write, million bytes" "$millions" "$file"
done
