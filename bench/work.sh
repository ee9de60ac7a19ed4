#!/usr/bin/env bash
# Times `work N` for 10, 100, 500 and 2000 generated methods, which the companion verifies in process. It takes turns with these, where z3
# is there: the same methods verified by z3 behind a pipe, and all that z3 was sent then, by `vsolve` alone and by z3 alone. Last, a file
# of 6400 methods that ask two questions each, likewise. Beside each stands its part of the time of z3 alone.
set -eu
. "$(dirname "${BASH_SOURCE[0]}")/timing.sh"
vsil=$(where_vsil)
vsolve=$(where_vsolve)

# turn HOW WHAT COMMAND..: warms or clocks the command and the others, one after the other
turn() {
    local how=$1 what=$2
    shift 2
    "$how" "$1, $what" "$folder/file.vpr" "$vsil" "$@"
    if has z3; then
        "$how" "verify by z3, $what" "$folder/file.vpr" "$vsil" verify --solver 'z3 -in'
        "$how" "vsolve alone, $what" "$folder/dialogue" "$vsolve"
        "$how" "z3 alone, $what" "$folder/dialogue" z3 -in
    fi
}

# tell_part WHAT SIZE WHOLE: tells what one took, and which part that is of what another took
tell_part() {
    local part=
    if [ -n "${times[$3]:-}" ]; then part=$(awk -v one="$(median "$1")" -v whole="$(median "$3")" 'BEGIN { printf "%.2f of z3 alone", one / whole }'); fi
    tell "$1" "$2" "$part"
}

# compare WHAT SIZE COMMAND..: the command of `vsil`, and the others
compare() {
    local what=$1 size=$2 run one
    shift 2
    if has z3; then record; fi
    turn warm "$what" "$@"
    for ((run = 0; run < runs; run++)); do turn clock "$what" "$@"; done
    for one in "$1" "verify by z3" "vsolve alone" "z3 alone"; do
        if [ -n "${times[$one, $what]:-}" ]; then tell_part "$one, $what" "$size" "z3 alone, $what"; fi
    done
}

for count in 10 100 500 2000; do
    "$vsil" gen "$count" > "$folder/file.vpr"
    compare "generated methods" "$count" work "$count"
done
two_question_methods 6400 > "$folder/file.vpr"
compare "methods of two questions" 6400 verify
