#!/usr/bin/env bash
# Verifies files of one method each: one that holds 100 to 6400 fields of one receiver and reads each, one that adds 100 to 1600 parts of
# one location, each an amount that is known, and one with as many loops in a row. Then one that reads a field of which it holds 10 to 40
# chunks, at a receiver that is equal to the last, by the companion and by z3, and one that makes 25 to 100 references of two fields.
set -eu
. "$(dirname "${BASH_SOURCE[0]}")/timing.sh"
vsil=$(where_vsil)

fields() {
    lines "$1" 'field f@: Int'
    echo "method m(x: Ref) {"
    lines "$1" 'inhale acc(x.f@)'
    lines "$1" 'assert x.f@ == x.f@'
    echo "}"
}

puts() {
    echo "field f: Int method m(x: Ref) {"
    lines "$1" 'inhale acc(x.f, 1/100000)'
    echo "}"
}

loops() {
    echo "method m(n: Int) { var i: Int"
    lines "$1" 'while (i < n) invariant true { i := i + 1 }'
    echo "}"
}

# Shares of one field at as many receivers, of which y is the last.
chunks() {
    echo "field f: Int method m(y: Ref"
    lines "$1" ', x@: Ref'
    echo ") returns (n: Int) {"
    lines "$1" 'inhale acc(x@.f, 1/1000)'
    echo "assume y == x$(($1 - 1)) n := y.f assert n == x$(($1 - 1)).f }"
}

news() {
    echo "field f: Int field g: Int method m() { var x: Ref"
    lines "$1" 'x := new(f, g)'
    echo "}"
}

measure verify fields "fields of one receiver, each read" 100 400 1600 6400
measure verify puts "parts of one location, added one by one" 100 400 1600
measure verify loops "loops in one method" 100 400 1600
by_both chunks "chunks of one field, one read at another receiver" 10 20 40
measure verify news "references of two fields, made one by one" 25 50 100
