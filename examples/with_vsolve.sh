#!/usr/bin/env bash
# Runs the companion as a child: it answers one command while it waits for the next, and each example verified by it has the report that
# lies beside the example. The programs are $VSIL and $VSOLVE, or else those of the launchers.
set -eu
here=$(cd "$(dirname "${BASH_SOURCE[0]}")" && pwd)
if [ -n "${VSIL:-}" ]; then vsil=$VSIL; else vsil=$("$here/../release/where" vsil); fi
if [ -n "${VSOLVE:-}" ]; then vsolve=$VSOLVE; else vsolve=$("$here/../release/where" vsolve); fi

# One command, and no end of input: the answer comes all the same.
coproc child { "$vsolve"; }
echo '(check-sat)' >&"${child[1]}"
if ! read -r -t 10 answer <&"${child[0]}" || [ "$answer" != sat ]; then
    echo "one command, and the child waits: '${answer:-}' in place of sat"
    exit 1
fi
echo "one command, and the child waits: as expected"
echo '(exit)' >&"${child[1]}"

for file in "$here"/*.vpr; do
    got=$("$vsil" verify --solver "$vsolve" "$file") || true
    if [ "$got" != "$(cat "${file%.vpr}.z3")" ]; then
        echo "$file: $got"
        exit 1
    fi
    echo "$file: as expected"
done
