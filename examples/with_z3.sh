#!/usr/bin/env bash
# Verifies each example by z3, and compares what is put with the text beside it; and a method of 300 loops in a row, at whose one question
# a level of assertions is open for each loop. Skipped where z3 is missing.
set -eu
here=$(cd "$(dirname "${BASH_SOURCE[0]}")" && pwd)
if ! command -v z3 > /dev/null; then
    echo "skipped: no z3"
    exit 0
fi
# the program itself, proved and built first, where it isn't yet
if [ -n "${VSIL:-}" ]; then vsil=$VSIL; else vsil=$("$here/../release/where" vsil); fi
for file in "$here"/*.vpr; do
    status=0
    got=$("$vsil" verify --solver 'z3 -in' "$file") || status=$?
    if [ "$got" != "$(cat "${file%.vpr}.z3")" ]; then
        echo "$file: $got"
        exit 1
    fi
    echo "$file: status $status, as expected"
done

# Writes the method of 300 loops.
loops() {
    echo 'method m(n: Int) { var i: Int'
    for ((count = 0; count < 300; count++)); do echo 'i := 0 while (i < n) { i := i + 1 }'; done
    echo 'assert n <= i }'
}
got=$(loops | "$vsil" verify --solver 'z3 -in')
if [ "${got%%$'\n'*}" != "method m: verified" ]; then
    echo "300 loops in a row: $got"
    exit 1
fi
echo "300 loops in a row: as expected"
