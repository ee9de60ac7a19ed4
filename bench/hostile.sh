#!/usr/bin/env bash
# Verifies by real children that no solver should be like, a minute at most each, and compares report and status with what docs/PROMISE.md
# says of them. Prints a line for each case, and at the end how many were run; the status is 1 where one is otherwise. Needs Python 3.
set -u
. "$(dirname "${BASH_SOURCE[0]}")/programs.sh"
vsil=$(where_vsil) || exit 8
folder=$(mktemp -d)
trap 'rm -rf "$folder"' EXIT
export folder
ran=0 other=0

for name in a b c; do
    echo "method $name(b: Bool) returns (c: Bool) requires b ensures c { c := b }"
done > "$folder/three.vpr"

# One method, of whose commands one has 110 KB: a pipe has room for 64.
awk 'function sum(n) { return n == 0 ? "x" : "(" sum(n - 1) " + " sum(n - 1) ")" }
    BEGIN { print "method a(x: Int) requires x == 1 { assert 0 < " sum(14) " }" }' > "$folder/long.vpr"

# child NAME: a child by its text on standard input
child() {
    cat > "$folder/$1"
    chmod +x "$folder/$1"
}

# A right child: it reads line by line, and answers each line at once.
child right <<'SH'
#!/bin/sh
exec sed -u -e 's/^(check-sat)$/unsat/;t' -e 's/.*/success/'
SH

# The last line of a report of so many verified and faulted members.
summary() { echo "$1 verified, 0 failed, 0 resting, 0 limited, $2 faults"; }

all_verified() {
    printf 'method %s: verified\n' a b c
    summary 3 0
}

# The child of the lane of all three fails at the first question, which is a's. So a is the faulted member, by this cause, and the status is 5.
# A later member has a question too, and no child to ask: `spent`, as long as a lane is given no further child.
first_faults() {
    echo "method a: fault $1"
    printf 'method %s: fault spent\n' b c
    summary 0 3
}

# judge CASE WANTED: the report has to be what standard input has, and the status this one
judge() {
    local differs
    ran=$((ran + 1))
    if differs=$(diff - "$folder/report") && [ "$status" = "$2" ]; then
        echo "$1: as it has to be"
        return
    fi
    other=$((other + 1))
    echo "$1: OTHERWISE, with status $status, where $2 is wanted"
    if [ -n "$differs" ]; then echo "$differs"; fi
}

# by CHILD FILE: verifies the file by the child, and keeps report and status
by() {
    timeout 60 "$vsil" verify --solver "$folder/$1" "$folder/$2" > "$folder/report"
    status=$?
}

# verifies CASE CHILD
verifies() {
    by "$2" three.vpr
    judge "$1" 0 < <(all_verified)
}

# faults CASE CHILD CAUSE
faults() {
    by "$2" three.vpr
    judge "$1" 5 < <(first_faults "$3")
}

# runs NUMBER: whether the process of this number is there, and not just still to be waited for
runs() {
    local state
    state=$(sed -n 's/^State:[[:space:]]*\(.\).*/\1/p' "/proc/$1/status" 2> "$folder/no")
    [ -n "$state" ] && [ "$state" != Z ]
}

# is_gone CASE WHAT: the process that wrote its number there has to end within ten seconds
is_gone() {
    local tries number
    number=$(cat "$folder/$2")
    status=1
    for ((tries = 0; tries < 100 && status > 0; tries++)); do
        if [ -n "$number" ] && ! runs "$number"; then status=0; else sleep 0.1; fi
    done
    : > "$folder/report"
    judge "$1" 0 < /dev/null
}

verifies "a right child" right

child blanks <<'SH'
#!/bin/sh
head -c 1000000 /dev/zero | tr '\0' ' '
exec "$folder/right"
SH
verifies "1 MB of blanks, then right answers" blanks

# To every command before the first check, `success` is right; to the check it isn't, so a has the fault `reply`.
child early <<'SH'
#!/bin/sh
yes success | head -c 1000000
exec "$folder/right"
SH
faults "1 MB of success unasked" early reply

child slow <<'PY'
#!/usr/bin/env python3
import os, time

line = b""
while byte := os.read(0, 1):
    line += byte
    if byte == b"\n":
        for reply in b"unsat\n" if line == b"(check-sat)\n" else b"success\n":
            os.write(1, bytes([reply]))
            time.sleep(0.0005)
        line = b""
    time.sleep(0.0005)
PY
verifies "reads and writes byte by byte, with pauses" slow

# How many commands come before the first member.
child recorder <<'SH'
#!/bin/sh
tee "$folder/sent" | "$folder/right"
SH
by recorder three.vpr
sed '/^(push/Q' "$folder/sent" | wc -l > "$folder/preamble"
child no_input <<'SH'
#!/bin/sh
exec 0<&-
yes success | head -n "$(cat "$folder/preamble")"
exec sleep 2
SH
faults "closes its input, and then answers the preamble" no_input pipe

child no_output <<'SH'
#!/bin/sh
exec 1>&-
exec cat > /dev/null
SH
faults "closes its output" no_output pipe

child fork <<'SH'
#!/bin/sh
exec 3<&0
"$folder/right" <&3 3<&- &
SH
verifies "forks and ends, and the fork answers on" fork

child closing_fork <<'SH'
#!/bin/sh
(exec 0<&- 1>&-; exec sleep 2) &
SH
faults "forks and ends, and the fork closes the pipes" closing_fork pipe

child stays <<'PY'
#!/usr/bin/env python3
import os, signal, sys, time

with open(os.environ["folder"] + "/stays.pid", "w") as it:
    it.write(str(os.getpid()))
for name in (signal.SIGTERM, signal.SIGHUP, signal.SIGPIPE):
    signal.signal(name, signal.SIG_IGN)
for line in sys.stdin:
    print("unsat" if line == "(check-sat)\n" else "success", flush=True)
time.sleep(600)
PY
verifies "ignores the end of its input" stays
is_gone "ignores the end of its input: no process is left behind" stays.pid

# It answers all but the checks.
child silent <<'SH'
#!/bin/sh
echo $$ > "$folder/silent.pid"
exec sed -u -n -e '/^(check-sat)$/w '"$folder/asked" -e '//!s/.*/success/p'
SH
"$vsil" verify --solver "$folder/silent" "$folder/three.vpr" > "$folder/report" &
killed=$!
for ((tries = 0; tries < 600; tries++)); do
    if [ -s "$folder/asked" ]; then break; fi
    sleep 0.1
done
[ -s "$folder/asked" ] || echo "vsil has asked nothing in a minute"
kill -9 "$killed"
wait "$killed" 2> "$folder/no"
is_gone "vsil itself is killed: its child sees the end of its input, and ends" silent.pid

# It reads by 1 KB. As soon as it has read some of the long command it writes so many MB of blanks, and only then reads on.
child flood <<'PY'
#!/usr/bin/env python3
import os

def put(text):
    while text:
        text = text[os.write(1, text):]

blanks, unread = int(os.environ["megabytes"]), b""
while got := os.read(0, 1024):
    *lines, unread = (unread + got).split(b"\n")
    for line in lines:
        put(b"unsat\n" if line == b"(check-sat)" else b"success\n")
    if len(unread) >= 1000:
        put(b" " * (blanks * 1_000_000))
        blanks = 0
PY

# floods MEGABYTES WHAT WANTED VERIFIED FAULTS
floods() {
    megabytes=$1 by flood long.vpr
    judge "writes $1 MB of blanks in the midst of a command of 110 KB" "$3" < <(echo "method a: $2" && summary "$4" "$5")
}
export megabytes
floods 0 verified 0 1 0
floods 2 verified 0 1 0
floods 15 verified 0 1 0
# More than 16,777,216 bytes aren't read ahead, and then the command can't be sent.
floods 20 "fault pipe" 5 0 1

echo "$ran cases, $other otherwise"
[ "$other" = 0 ]
