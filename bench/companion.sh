#!/usr/bin/env bash
# Times sessions of the companion solver, as scripts of `vx_rows`: chains of 1,000, 10,000 and 40,000 equations between whose ends there
# is a difference; 1,000, 4,000 and 16,000 congruent applications that a difference needs; and random clauses of three literals, 4.26
# for each atom, of three seeds. z3 is timed on the same text, where it is there. A chain's certificate has some six steps more than
# there are equations.
set -eu
. "$(dirname "${BASH_SOURCE[0]}")/timing.sh"
rows=$(where_rows)

# decided WHAT SIZE: times the companion and z3 on the text
decided() {
    timed_rows "$1" "$2" "$folder/text"
    if has z3; then timed "z3, $1" "$2" "$folder/text" z3 -in; fi
}

chain() {
    awk -v n="$1" 'BEGIN {
        print "(declare-sort U 0)"
        for (i = 0; i <= n; i++) print "(declare-fun c" i " () U)"
        for (i = 0; i < n; i++) print "(assert (= c" i " c" i + 1 "))"
        print "(assert (not (= c0 c" n ")))\n(check-sat)"
    }'
}

# a0 = b0, f b0 = f a1, a1 = b1, f b1 = f a2, and so on; f a0 differs from the last f b.
applications() {
    awk -v n="$1" 'BEGIN {
        print "(declare-sort U 0)\n(declare-fun f (U) U)"
        for (i = 0; i < n; i++) print "(declare-fun a" i " () U)\n(declare-fun b" i " () U)"
        for (i = 0; i < n; i++) {
            print "(assert (= a" i " b" i "))"
            if (i > 0) print "(assert (= (f b" i - 1 ") (f a" i ")))"
        }
        print "(assert (not (= (f a0) (f b" n - 1 "))))\n(check-sat)"
    }'
}

# The numbers are those of x, 16807 x, .. modulo 2^31 - 1.
clauses() {
    awk -v n="$1" -v x="$2" '
    function below(m) { x = (16807 * x) % 2147483647; return int(x / 2147483647 * m) }
    function literal(a) { return below(2) ? "x" a : "(not x" a ")" }
    BEGIN {
        for (i = 0; i < n; i++) print "(declare-fun x" i " () Bool)"
        for (k = 0; k < 4.26 * n; k++) {
            a = below(n)
            do b = below(n); while (b == a)
            do c = below(n); while (c == a || c == b)
            print "(assert (or " literal(a) " " literal(b) " " literal(c) "))"
        }
        print "(check-sat)"
    }'
}

for n in 1000 10000 40000; do
    chain "$n" > "$folder/text"
    decided "chain of equations" "$n"
done
for n in 1000 4000 16000; do
    applications "$n" > "$folder/text"
    decided "congruent applications" "$n"
done
for seed in 1 2 3; do
    for n in 50 100 150; do
        clauses "$n" "$seed" > "$folder/text"
        decided "random clauses of seed $seed, by atoms" "$n"
    done
done
