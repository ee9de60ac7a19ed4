#!/usr/bin/env bash
# Runs methods as wholes: a loop of 1250 to 10000 rounds over a heap of 1000 locations, 625 to 5000 calls within one another, and a list of 125 to
# 1000 nodes, each folded and then unfolded again.
set -eu
. "$(dirname "${BASH_SOURCE[0]}")/timing.sh"
vsil=$(where_vsil)

rounds() {
    echo "field f: Int"
    echo "method m() {"
    for ((i = 0; i < 1000; i++)); do echo "var x$i: Ref x$i := new(f) x$i.f := $i"; done
    echo "var i: Int := 0 while (i < $1) { x500.f := x500.f + 1 i := i + 1 } assert x500.f == 500 + $1 }"
}

calls() {
    echo "method down(n: Int) requires n >= 0 { if (n > 0) { down(n - 1) } }"
    echo "method m() { down($1) }"
}

nodes() {
    echo "field next: Ref"
    echo "predicate list(x: Ref) { acc(x.next) && (x.next != null ==> list(x.next)) }"
    echo "method m() {"
    echo "var x: Ref := null var n: Ref var i: Int := 0"
    echo "while (i < $1) { n := new(next) n.next := x fold list(n) x := n i := i + 1 }"
    echo "while (x != null) { unfold list(x) x := x.next } }"
}

# run_sizes WRITER WHAT SIZE..: times the run of method m of the files that WRITER writes, by their size
run_sizes() {
    local writer=$1 what=$2 count
    shift 2
    for count in "$@"; do
        "$writer" "$count" > "$folder/file.vpr"
        timed "run, $what" "$count" /dev/null "$vsil" run "$folder/file.vpr" m 1
    done
}

run_sizes rounds "rounds of a loop over 1000 locations" 1250 2500 5000 10000
run_sizes calls "calls within one another" 625 1250 2500 5000
run_sizes nodes "nodes of a list, folded and unfolded" 125 250 500 1000
