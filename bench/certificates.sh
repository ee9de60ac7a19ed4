#!/usr/bin/env bash
# Checks certificates of chains of 100, 1,000 and 10,000 equations, each joined to the ones before by a step of its own: each is a row
# of vx_rows, over numerals, which need no symbols. Prints the program's seconds on each, the ratio to the one before, and the
# checker's answer.
set -eu
. "$(dirname "${BASH_SOURCE[0]}")/timing.sh"
rows=$(where_rows)
# The terms are `0 = 1` 0, 0 itself 1, i 2i, `i = i+1` 2i + 1, at the end not `0 = n` 2n + 1 and `0 = n` 2n + 2, and then the
# `0 = i` of the `term` steps.
row() {
    awk -v n="$1" 'BEGIN {
        print "row a chain"
        for (i = 0; i < n; i++) print "assert (= " i " " i + 1 ")"
        print "assert (not (= 0 " n "))"
        printf "check (certificate"
        for (i = 0; i <= n; i++) printf " (input " i ")"
        printf " (def " 2 * n + 1 " 0)"
        for (i = 1; i < n; i++) {
            if (i < n - 1) printf " (term (= 0 " i + 1 "))"
            printf " (chain 1 " 2 * i " " 2 * (i + 1) ")"
        }
        printf " (rup () ("
        for (i = 0; i <= 2 * n; i++) printf "%d ", i
        print ")))"
    }'
}
for n in 100 1000 10000; do
    row "$n" > "$folder/table"
    timed_rows "check of a certificate of a chain of equations" "$n" "$folder/table"
done
