# shellcheck shell=bash
# What the comparisons with z3 share. Needs `vx_rows` at $rows, and a function `stacks` that writes the stacks.
. "$(dirname "${BASH_SOURCE[0]}")/timing.sh"

# An answer a line, as solvers write it.
answers() { sed -n 's/^ *refuted.*/unsat/; s/^ *model, true/sat/; s/^ *unknown.*/unknown/; /^unsat$/p; /^sat$/p; /^unknown$/p; /^seed/p'; }

# compare WHAT SEED COUNT: what the program and z3 answer to so many of the stacks that `stacks` writes, from this seed on
compare() {
    local what=$1 from=$2 count=$3
    # one run is clocked: it is the answers that are compared
    local runs=1
    stacks "$from" "$count" > "$folder/stacks"
    timed_rows "$what from seed $from, stacks" "$count" "$folder/stacks"
    cp "$folder/out" "$folder/said"
    answers < "$folder/said" > "$folder/own"
    timed "z3, $what from seed $from, stacks" "$count" "$folder/stacks" z3 -in
    answers < "$folder/out" > "$folder/theirs"
    paste -d' ' "$folder/own" "$folder/theirs" > "$folder/both"
    remark "$what from seed $from: $(awk '
        /^seed/ { next }
        $1 == "unknown" { unknown++; next }
        $1 == $2 { alike++; next }
        { other++ }
        END { print alike + 0 " answered as by z3, " unknown + 0 " unknown, " other + 0 " otherwise" }' "$folder/both")"
    # those answered otherwise
    awk '
        /^seed/ { seed = $2; next }
        $1 != "unknown" && $1 != $2 { print "seed " seed ": " $1 ", and by z3 " $2; other++ }
        END { exit other > 0 }' "$folder/both"
}
