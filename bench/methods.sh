#!/usr/bin/env bash
# Verifies and checks files of 100, 400 and 1600 methods over Bool and Int variables; and checks files of functions that each apply the
# next one, in a chain and in a circle, and one of as many fields as a program may have members.
set -eu
. "$(dirname "${BASH_SOURCE[0]}")/timing.sh"
vsil=$(where_vsil)

# Each applies the next one, and the last none.
chain() {
    awk -v count="$1" 'BEGIN {
        for (i = 0; i + 1 < count; i++) print "function f" i "(): Int { f" (i + 1) "() }"
        print "function f" (count - 1) "(): Int { 0 }"
    }'
}

# Each applies the next one, and the last the first: they are one group.
circle() {
    awk -v count="$1" 'BEGIN { for (i = 0; i < count; i++) print "function f" i "(n: Int): Int decreases n { f" ((i + 1) % count) "(n - 1) }" }'
}

fields() { awk -v count="$1" 'BEGIN { for (i = 0; i < count; i++) print "field f" i ": Int" }'; }

for command in verify check; do measure "$command" two_question_methods methods 100 400 1600; done
measure check chain "functions in a chain" 1000 4000 16000 64000
measure check circle "functions in a circle" 1000 4000 16000 64000
measure check fields fields 65536
