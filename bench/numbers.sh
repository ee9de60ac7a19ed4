#!/usr/bin/env bash
# Compares the companion solver with z3, where it is there, on random stacks of linear arithmetic: of each seed a stack of a few
# assertions over Int or Real, with small numbers, choices, functions, quotients and remainders. Says how many of the stacks both
# answered alike, how many the companion left unknown, and which they answered otherwise; of these there must be none. Then times chains
# of differences and sums of n numbers, beside z3.
# Words: the first seed, and how many.
set -eu
. "$(dirname "${BASH_SOURCE[0]}")/comparing.sh"
rows=$(where_rows)

# The numbers are those of x, 16807 x, .. modulo 2^31 - 1.
stacks() {
    awk -v from="$1" -v count="$2" '
    function below(m) { x = (16807 * x) % 2147483647; return int(x / 2147483647 * m) }
    function number(m,  k) {
        k = below(2 * m + 1) - m
        if (kind == "Int") return k < 0 ? "(- " (-k) ")" : k ""
        s = below(3) ? (k < 0 ? -k : k) ".0" : "(/ " (k < 0 ? -k : k) ".0 3.0)"
        return k < 0 ? "(- " s ")" : s
    }
    function constant() { return "x" below(4) }
    function term(depth,  c) {
        c = below(100)
        if (depth == 0 || c < 25) return c % 6 == 5 ? number(9) : constant()
        if (c < 50) return "(+ " term(depth - 1) " " term(depth - 1) ")"
        if (c < 60) return "(- " term(depth - 1) " " term(depth - 1) ")"
        if (c < 80) return "(* " number(4) " " term(depth - 1) ")"
        if (c < 88) return "(f " term(0) ")"
        if (c < 94) return "(ite " atom(0) " " term(0) " " term(0) ")"
        if (kind == "Real") return number(9)
        return "(" (below(2) ? "div" : "mod") " " term(0) " " (below(2) ? 3 : "(- 2)") ")"
    }
    function atom(depth,  c, left, right) {
        c = below(10)
        if (c == 0) return "p" below(2)
        if (c == 1) return "(q " term(0) ")"
        left = term(depth)
        right = term(depth)
        if (c >= 8) return "(" (c == 8 ? "<" : "<=") " " right " " left ")"
        return "(" (c < 4 ? "=" : c < 6 ? "<" : "<=") " " left " " right ")"
    }
    function formula(depth,  c) {
        c = below(10)
        if (depth == 0 || c < 4) return atom(2)
        if (c < 6) return "(not " formula(depth - 1) ")"
        if (c < 8) return "(or " formula(depth - 1) " " formula(depth - 1) ")"
        if (c == 8) return "(and " formula(depth - 1) " " formula(depth - 1) ")"
        return "(=> " formula(depth - 1) " " formula(depth - 1) ")"
    }
    BEGIN {
        for (seed = from; seed < from + count; seed++) {
            x = (48271 * seed + 11) % 2147483647
            for (i = 0; i < 10; i++) below(2)
            kind = below(3) ? "Int" : "Real"
            print "(reset)\n(echo \"seed " seed "\")"
            for (i = 0; i < 4; i++) print "(declare-fun x" i " () " kind ")"
            print "(declare-fun p0 () Bool)\n(declare-fun p1 () Bool)"
            print "(declare-fun f (" kind ") " kind ")\n(declare-fun q (" kind ") Bool)"
            for (i = 2 + below(8); i > 0; i--) print "(assert " formula(2) ")"
            print "(check-sat)"
        }
    }'
}

# Each number is at most 1 above the one before, and the last one more than n above the first.
differences() {
    awk -v n="$1" -v more="$2" 'BEGIN {
        for (i = 0; i <= n; i++) print "(declare-fun x" i " () Int)"
        for (i = 0; i < n; i++) print "(assert (<= (- x" i + 1 " x" i ") 1))"
        print "(assert (<= " n + more " (- x" n " x0)))\n(check-sat)"
    }'
}

# n numbers of at most 1 each, whose sum is n, or more.
sums() {
    awk -v n="$1" -v more="$2" 'BEGIN {
        for (i = 0; i < n; i++) {
            print "(declare-fun x" i " () Real)\n(assert (<= x" i " 1.0))"
            sum = i ? "(+ " sum " x" i ")" : "x0"
        }
        print "(assert (<= " n + more ".0 " sum "))\n(check-sat)"
    }'
}

if has z3; then compare "random stacks with numbers" "${1:-1}" "${2:-400}"; fi
for what in differences sums; do
    for more in 0 1; do
        if [ "$more" = 0 ]; then label="$what, satisfiable"; else label="$what, unsatisfiable"; fi
        for n in 10 30 100; do
            "$what" "$n" "$more" > "$folder/text"
            timed_rows "$label" "$n" "$folder/text"
            if has z3; then timed "z3, $label" "$n" "$folder/text" z3 -in; fi
        done
    done
done
