#!/usr/bin/env bash
# Verifies 64 methods, whose one check takes z3 some 20 ms, by z3 in 1, 2, 4, 8 and 16 lanes, and tells how many times as fast that is as
# one lane; then, in 1 and in 16 lanes, 800 methods of two questions by a solver that answers at once, and 2000 generated methods by the
# companion: that is our own work, which more lanes don't make less. The load of the machine stands in front.
set -eu
. "$(dirname "${BASH_SOURCE[0]}")/timing.sh"

vsil=$(where_vsil)

# Six numbers from 0 to 4, of which two are the same.
hard_methods() {
    awk -v count="$1" 'BEGIN {
        split("a b c d e f", x, " ")
        for (k = 1; k <= 6; k++) {
            names = names (k > 1 ? ", " : "") x[k] ": Int"
            within = within (k > 1 ? " && " : "") "0 <= " x[k] " && " x[k] " < 5"
            for (l = 1; l < k; l++) same = same (same == "" ? "" : " || ") x[l] " == " x[k]
        }
        for (i = 0; i < count; i++) print "method m" i "(" names ") requires " within " { assert " same " }"
    }'
}

cat > "$folder/at_once" <<'SH'
#!/bin/sh
exec sed -u -e 's/^(check-sat)$/unsat/;t' -e 's/.*/success/'
SH
chmod +x "$folder/at_once"

# tell_faster WHAT SIZE WHOLE: tells what one took, and how many times as fast that is as another
tell_faster() {
    tell "$1" "$2" "$(awk -v one="$(median "$1")" -v whole="$(median "$3")" 'BEGIN { printf "%.2f times as fast as one lane", whole / one }')"
}

# by_lanes WHAT SIZE INPUT LANES.. -- COMMAND..: times a command in so many lanes, in turn
by_lanes() {
    local what=$1 size=$2 input=$3 run jobs
    local -a lanes=()
    shift 3
    while [ "$1" != -- ]; do
        lanes+=("$1")
        shift
    done
    shift
    for jobs in "${lanes[@]}"; do warm "$what, lanes: $jobs" "$input" "$@" --jobs "$jobs"; done
    for ((run = 0; run < runs; run++)); do
        for jobs in "${lanes[@]}"; do clock "$what, lanes: $jobs" "$input" "$@" --jobs "$jobs"; done
    done
    for jobs in "${lanes[@]}"; do tell_faster "$what, lanes: $jobs" "$size" "$what, lanes: ${lanes[0]}"; done
}

remark "load of $(nproc) processors: $(cut -d' ' -f1 /proc/loadavg)"
if has z3; then
    hard_methods 64 > "$folder/file.vpr"
    by_lanes "verify by z3" 64 "$folder/file.vpr" 1 2 4 8 16 -- "$vsil" verify --solver 'z3 -in'
fi
two_question_methods 800 > "$folder/file.vpr"
by_lanes "verify by a solver at once" 800 "$folder/file.vpr" 1 16 -- "$vsil" verify --solver "$folder/at_once"
by_lanes "work" 2000 /dev/null 1 16 -- "$vsil" work 2000
