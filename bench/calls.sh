#!/usr/bin/env bash
# Verifies files with calls: one method of 100, 400 and 1600 calls in a row, and as many methods with one call and one question each.
set -eu
. "$(dirname "${BASH_SOURCE[0]}")/timing.sh"
vsil=$(where_vsil)

callee() {
    echo "field f: Int method inc(x: Ref) requires acc(x.f) ensures acc(x.f) && x.f == old(x.f) + 1"
}

calls() {
    callee
    echo "method m(x: Ref) requires acc(x.f) {"
    for ((i = 0; i < $1; i++)); do echo "inc(x)"; done
    echo "}"
}

callers() {
    callee
    for ((i = 0; i < $1; i++)); do
        echo "method m$i(x: Ref) requires acc(x.f) ensures acc(x.f) && x.f == old(x.f) + 1 { inc(x) }"
    done
}

measure verify calls "calls in one method" 100 400 1600
measure verify callers "methods with one call each" 100 400 1600
