#!/usr/bin/env bash
# Times `vsolve` on 1,000 and 4,000 small checks, each on a level of its own, every second one refuted by congruence, and on one level
# with 500 to 4,000 declarations, an assertion behind each, and one check. z3 is timed on the same text, where it is there, and its
# answers are compared.
set -eu
. "$(dirname "${BASH_SOURCE[0]}")/timing.sh"
vsolve=$(where_vsolve)

checks() {
    awk -v n="$1" 'BEGIN {
        print "(set-option :print-success true)\n(set-logic ALL)\n(declare-sort U 0)\n(declare-fun g (U) U)"
        print "(declare-fun a () U)\n(declare-fun b () U)\n(declare-fun p () Bool)"
        for (i = 0; i < n; i++) {
            print "(push 1)\n(declare-fun c () U)\n(assert (= a c))\n(assert (= c b))"
            print i % 2 ? "(assert (not (= (g a) (g b))))" : "(assert (or p (= a b)))"
            print "(check-sat)\n(pop 1)"
        }
        print "(exit)"
    }'
}

declarations() {
    awk -v n="$1" 'BEGIN {
        print "(set-option :print-success true)\n(set-logic ALL)\n(push 1)"
        for (i = 0; i < n; i++) print "(declare-fun x" i " () Int)\n(assert (<= 0 x" i "))"
        print "(check-sat)\n(pop 1)\n(exit)"
    }'
}

# compare WRITER WHAT SIZE..: vsolve and z3 on the texts that WRITER writes, by their size
compare() {
    local writer=$1 what=$2 n
    shift 2
    for n in "$@"; do
        "$writer" "$n" > "$folder/text"
        timed "vsolve, $what" "$n" "$folder/text" "$vsolve"
        cp "$folder/out" "$folder/own"
        if has z3; then
            timed "z3, $what" "$n" "$folder/text" z3 -in
            if ! cmp -s "$folder/own" "$folder/out"; then
                echo "$what, $n: the answers differ"
                exit 1
            fi
        fi
    done
}

compare checks "small checks, a level each" 1000 4000
compare declarations "declarations on one level" 500 1000 2000 4000
