#!/usr/bin/env bash
# Verifies files of one method each, whose amounts are a parameter of type Perm: one that adds 10, 20 and 40 parts of one location, whose
# sum is then a term as deep, and one each of 60,000 parts added and of 20,000 parts taken, whose precondition
# already fails.
set -eu
. "$(dirname "${BASH_SOURCE[0]}")/timing.sh"
vsil=$(where_vsil)

# changes STATEMENT COUNT REQUIRES
changes() {
    echo "field f: Int method m(x: Ref, p: Perm) $3 requires acc(x.f, p) {"
    for ((i = 0; i < $2; i++)); do echo "$1 acc(x.f, p)"; done
    echo "}"
}

sums() { changes inhale "$1" "requires none <= p"; }

puts() { changes inhale "$1" ""; }

takes() { changes exhale "$1" ""; }

measure verify sums "unknown parts of one location, added one by one" 10 20 40
measure verify puts "additions of unknown parts behind a precondition that fails" 60000
measure verify takes "takes of unknown parts behind a precondition that fails" 20000
