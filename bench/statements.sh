#!/usr/bin/env bash
# Verifies files of one method each: one of 100, 400, 1600 and 6400 assignments with one check at its end, one of 100 to 1600 asserts, and
# one of 4, 8 and 12 branches in a row, which has 2^4, 2^8 and 2^12 paths of one check each. Last, one of 50, 100 and 200 asserts of sums,
# each of which the solver is asked under all facts before it, by the companion and by z3.
set -eu
. "$(dirname "${BASH_SOURCE[0]}")/timing.sh"
vsil=$(where_vsil)

assignments() {
    echo "method m(x: Int) returns (y: Int) ensures true && y == y + 0 { y := x"
    lines "$1" 'y := y + x'
    echo "}"
}

asserts() {
    echo "method m(a: Bool) requires a {"
    lines "$1" 'assert a'
    echo "}"
}

sums() {
    echo "method m(a: Int) requires 0 <= a {"
    for ((i = 1; i <= $1; i++)); do echo "var x$i: Int := a + $i assert x$i > 0"; done
    echo "}"
}

paths() {
    echo "method m(a: Bool) returns (b: Bool) requires a ensures a {"
    lines "$1" 'var c@: Bool if (c@) { b := c@ } else { }'
    echo "}"
}

measure verify assignments "assignments in one method" 100 400 1600 6400
measure verify asserts "asserts in one method" 100 400 1600
measure verify paths "branches in one method, n for 2^n paths" 4 8 12
by_both sums "asserts of sums in one method" 50 100 200
