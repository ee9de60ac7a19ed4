#!/usr/bin/env bash
# Compares the companion solver with z3, where it is there, on random stacks without numbers: equalities of three constants in both
# orders, functions, one with a Bool argument, a predicate and choices. The program asks of each stack that is few both procedures, and
# tells where they differ. Says how many of the stacks both solvers answered alike, how many the companion left unknown, and which they
# answered otherwise; of these there must be none.
# Words: the first seed, and how many.
set -eu
. "$(dirname "${BASH_SOURCE[0]}")/comparing.sh"
rows=$(where_rows)

# The numbers are those of x, 16807 x, .. modulo 2^31 - 1.
stacks() {
    awk -v from="$1" -v count="$2" '
    function below(m) { x = (16807 * x) % 2147483647; return int(x / 2147483647 * m) }
    function term(depth,  c) {
        c = below(10)
        if (depth == 0 || c < 5) return "a" below(3)
        if (c < 7) return "(f " term(depth - 1) ")"
        if (c < 8) return "(h " formula(depth - 1) " " term(depth - 1) ")"
        return "(ite " formula(depth - 1) " " term(depth - 1) " " term(depth - 1) ")"
    }
    function atom(depth,  c) {
        c = below(10)
        if (c < 2) return "p" below(2)
        if (c < 4) return "(q " term(depth) ")"
        return "(= " term(depth) " " term(depth) ")"
    }
    function formula(depth,  c) {
        c = below(10)
        if (depth == 0 || c < 5) return atom(depth)
        if (c < 7) return "(not " formula(depth - 1) ")"
        if (c < 8) return "(= " formula(depth - 1) " " formula(depth - 1) ")"
        return "(" (c < 9 ? "or" : "and") " " formula(depth - 1) " " formula(depth - 1) ")"
    }
    BEGIN {
        for (seed = from; seed < from + count; seed++) {
            x = (48271 * seed + 11) % 2147483647
            for (i = 0; i < 10; i++) below(2)
            print "(reset)\n(echo \"seed " seed "\")\n(declare-sort U 0)"
            for (i = 0; i < 3; i++) print "(declare-fun a" i " () U)"
            print "(declare-fun p0 () Bool)\n(declare-fun p1 () Bool)"
            print "(declare-fun f (U) U)\n(declare-fun q (U) Bool)\n(declare-fun h (Bool U) U)"
            for (i = 2 + below(3); i > 0; i--) print "(assert " formula(2) ")"
            if (below(5) < 2) {
                one = term(1)
                other = term(1)
                print "(assert (not (= " one " " other ")))\n(assert (or p0 (= " other " " one ")))"
            }
            print "(check-sat)"
        }
    }'
}

if has z3; then
    compare "random stacks without numbers" "${1:-1}" "${2:-2000}"
    remark "both procedures differ on $(grep -c '^ *settled otherwise$' "$folder/said" || true) stacks"
fi
