#!/usr/bin/env bash
# Verifies files with predicates: one method of 100, 400 and 1600 pairs of unfold and fold in a row, as many methods with one pair each,
# and one method that holds 100 to 6400 instances and unfolds the last one.
set -eu
. "$(dirname "${BASH_SOURCE[0]}")/timing.sh"
vsil=$(where_vsil)

cell() {
    echo "field f: Int predicate P(x: Ref) { acc(x.f) }"
}

pairs() {
    cell
    echo "method m(x: Ref) requires P(x) ensures P(x) {"
    for ((i = 0; i < $1; i++)); do echo "unfold P(x) fold P(x)"; done
    echo "}"
}

folders() {
    cell
    for ((i = 0; i < $1; i++)); do
        echo "method m$i(x: Ref) requires P(x) ensures P(x) { unfold P(x) x.f := $i fold P(x) }"
    done
}

instances() {
    cell
    echo "method m("
    for ((i = 0; i < $1; i++)); do echo "x$i: Ref, "; done
    echo "x: Ref)"
    echo "{"
    for ((i = 0; i < $1; i++)); do echo "inhale P(x$i)"; done
    echo "inhale P(x) unfold P(x) x.f := 1 fold P(x) }"
}

measure verify pairs "pairs of unfold and fold in one method" 100 400 1600
measure verify folders "methods with one such pair each" 100 400 1600
measure verify instances "instances held, the last one unfolded" 100 400 1600 6400
