#!/usr/bin/env bash
# What one long method costs, whose questions share their path: asserts in a row, each with a fact more, and asserts behind five forks in
# a row. By z3 and, up to 400 asserts, by cvc5, where they are there: what `vsil` takes with the solver, and what the solver takes alone on the script that it was
# sent; the bytes and assertions of the script; and what `vsil` itself takes, with each of them and with a child that answers `unsat` at once.
# Words: the sizes (100, 400 and 1600 asserts in a row).
set -eu
. "$(dirname "${BASH_SOURCE[0]}")/timing.sh"
vsil=$(where_vsil)

# asserts_in_a_row COUNT: a method of so many asserts, each behind a fact more
asserts_in_a_row() {
    awk -v count="$1" 'BEGIN {
        print "method m(x: Int) requires 0 <= x {"
        for (i = 100001; i <= 100000 + count; i++) print "  var y" i ": Int := x + " i "\n  assert y" i " >= " i
        print "}"
    }'
}

# asserts_behind_forks COUNT: a method of five forks in a row, with so many asserts behind them
asserts_behind_forks() {
    awk -v count="$1" 'BEGIN {
        print "method m(a: Bool, b: Bool, c: Bool, d: Bool, e: Bool, x: Int) requires 0 <= x {\n  var n: Int := x"
        split("a b c d e", names, " ")
        for (i = 1; i <= 5; i++) print "  if (" names[i] ") { n := n + " i " } else { n := n + 1 }"
        for (i = 100001; i <= 100000 + count; i++) print "  var y" i ": Int := n + " i "\n  assert y" i " >= " i
        print "}"
    }'
}

# A child that says `success` to all but a check, which it answers `unsat`.
cat > "$folder/agrees" <<'SH'
#!/bin/sh
while read -r line; do
    if [ "$line" = "(check-sat)" ]; then echo unsat; else echo success; fi
done
SH
chmod +x "$folder/agrees"

# A solver behind a recorder of what it is sent.
recorded() {
    printf '#!/bin/sh\ntee "%s/dialogue" | %s\n' "$folder" "$1" > "$folder/recorded"
    chmod +x "$folder/recorded"
}

# own SOLVER: prints what `vsil` itself takes with this solver: its processor seconds, and the peak of its memory
own() { "$(dirname "${BASH_SOURCE[0]}")/own.py" "$folder/file.vpr" "$vsil" verify --solver "$1"; }

# of_solver WHAT SIZE COMMAND: times `vsil` with this solver on the file, and the solver alone on what it was sent
of_solver() {
    local what=$1 size=$2 command=$3
    timed "$what, with $command" "$size" "$folder/file.vpr" "$vsil" verify --solver "$command"
    recorded "$command"
    "$vsil" verify --solver "$folder/recorded" < "$folder/file.vpr" > /dev/null || true
    remark "$what, $size: $(grep -c '^(assert' "$folder/dialogue") assertions, $(wc -c < "$folder/dialogue") bytes sent; with $command vsil itself takes $(own "$command")"
    # (a command with its words)
    # shellcheck disable=SC2086
    timed "$what, $command alone" "$size" "$folder/dialogue" $command
}

# of_all WRITER WHAT SIZE..: the files of these sizes, by each solver and by the child that agrees at once
of_all() {
    local writer=$1 what=$2 count
    shift 2
    for count in "$@"; do
        "$writer" "$count" > "$folder/file.vpr"
        if has z3; then of_solver "$what" "$count" "z3 -in"; fi
        if has cvc5 && [ "$count" -le 400 ]; then of_solver "$what" "$count" "cvc5 --incremental"; fi
        timed "$what, answered at once" "$count" "$folder/file.vpr" "$vsil" verify --solver "$folder/agrees"
        remark "$what, $count: answered at once vsil itself takes $(own "$folder/agrees")"
    done
}

# (the sizes are words)
# shellcheck disable=SC2086
of_all asserts_in_a_row "asserts in a row" ${*:-100 400 1600}
of_all asserts_behind_forks "asserts behind five forks" 25 100 400
