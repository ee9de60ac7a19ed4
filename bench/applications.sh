#!/usr/bin/env bash
# Verifies, by the companion, 100, 400 and 1600 methods that apply a function once each; one method of as many applications of a function
# that reads a field, each of which has a snapshot of its own; one of as many applications of the length of one list, which tell three
# levels; one of as many lists after one another, of each of which the length is taken; and one of as many asserts of an application.
set -eu
. "$(dirname "${BASH_SOURCE[0]}")/timing.sh"
vsil=$(where_vsil)

cell() { printf 'field f: Int\nfunction g(x: Ref): Int requires acc(x.f) { x.f }\n'; }

methods() {
    cell
    for ((j = 0; j < $1; j++)); do echo "method m$j(x: Ref) requires acc(x.f) { assert g(x) == x.f }"; done
}

# one method that runs a statement so often: PARAMETERS STATEMENT COUNT LAST
one_method() {
    printf 'method m%s\n{\nvar a: Int\n' "$1"
    for ((j = 0; j < $3; j++)); do echo "$2"; done
    printf '%s\n}\n' "$4"
}

applications() {
    cell
    one_method '(x: Ref) requires acc(x.f)' 'a := g(x)' "$1" 'assert a == x.f'
}

list() {
    echo 'field next: Ref'
    echo 'predicate list(x: Ref) { acc(x.next) && (x.next != null ==> list(x.next)) }'
    echo 'function length(x: Ref): Int requires list(x) ensures result > 0 decreases list(x)'
    echo '{ unfolding list(x) in x.next == null ? 1 : 1 + length(x.next) }'
}

lengths() {
    list
    one_method '(x: Ref) requires list(x)' 'a := length(x)' "$1" 'assert a > 0'
}

lists() {
    list
    one_method '(x: Ref) requires list(x)' 'exhale list(x) inhale list(x) a := length(x)' "$1" 'assert a > 0'
}

asserts() {
    echo 'function f(n: Int): Int requires n > 0 ensures result > 0 { n }'
    one_method '(n: Int) requires n > 0' 'assert f(n) > 0' "$1" 'a := 0'
}

measure verify methods "methods that apply one function" 100 400 1600
measure verify applications "applications in one method, each of another snapshot" 100 400 1600
measure verify lengths "applications of the length of one list" 100 400 1600
measure verify lists "lists in a row, each with its length" 100 400 1600
measure verify asserts "asserts of an application" 100 400 1600
