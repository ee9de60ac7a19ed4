#!/usr/bin/env bash
# Verifies one method of 100, 400 and 1600 asserts by solvers behind a pipe that answer each command at once, unsat to each
# check: one writes the replies to all that it has read in one piece, one flushes each reply, as solvers do, so that each is
# a piece of its own. What is kept of these pieces shows in the memory. With z3, where it is there, the peak is the
# larger one of the program's and of z3's.
set -eu
. "$(dirname "${BASH_SOURCE[0]}")/timing.sh"

vsil=$(where_vsil)

cat > "$folder/solver.py" <<'PY'
import os, sys
apart = sys.argv[1] == "apart"
front = b""
while data := os.read(0, 1 << 20):
    *lines, front = (front + data).split(b"\n")
    replies = [b"unsat\n" if line == b"(check-sat)" else b"success\n" for line in lines]
    for piece in replies if apart else [b"".join(replies)]:
        if piece:
            os.write(1, piece)
PY

verified() {
    local label=$1 solver=$2
    for count in 100 400 1600; do
        awk -v count="$count" 'BEGIN {
            print "method m(x: Int) {"
            for (i = 0; i < count; i++) print "assert x <= " i " || " i " < x"
            print "}"
        }' > "$folder/file.vpr"
        timed "verify by $label, asserts" "$count" "$folder/file.vpr" "$vsil" verify --solver "$solver"
    done
}

verified "replies in one piece" "python3 $folder/solver.py together"
verified "replies one by one" "python3 $folder/solver.py apart"
if has z3; then verified z3 "z3 -in"; fi
