# shellcheck shell=bash
# What the benchmarks share: the programs, a folder for files, and what a command takes on an input: the median of its seconds over
# BENCH_RUNS runs (5), the peak of its memory, and the ratio of its seconds to those at the size before. A line with these is printed,
# and added to the file BENCH_TABLE, where that is set. Needs GNU time.
export LC_ALL=C
. "$(dirname "${BASH_SOURCE[0]}")/programs.sh"
runs=${BENCH_RUNS:-5}
folder=$(mktemp -d)
trap 'rm -rf "$folder"' EXIT
# By what is timed: the microseconds of its runs, its peak memory in kB, and its microseconds at the size before.
declare -A times=() peaks=() before=()

# warm WHAT INPUT COMMAND..: runs the command once, unclocked, for the peak of its memory
warm() {
    local what=$1 input=$2
    shift 2
    env time -f %M -o "$folder/peak" "$@" < "$input" > "$folder/out" || true
    peaks[$what]=$(tail -n 1 "$folder/peak")
    times[$what]=
}

# clock WHAT INPUT COMMAND..: runs the command once more, and keeps what it took by the clock
clock() {
    local what=$1 input=$2 start end
    shift 2
    start=${EPOCHREALTIME/[.,]/}
    "$@" < "$input" > "$folder/out" || true
    end=${EPOCHREALTIME/[.,]/}
    times[$what]+=" $((end - start))"
}

# Prints the median of what the runs of WHAT took, in microseconds.
median() {
    local one
    for one in ${times[$1]}; do echo "$one"; done | sort -n | awk '{ at[NR] = $1 } END { print at[int((NR + 1) / 2)] }'
}

# Prints microseconds as seconds.
in_seconds() { awk -v micros="$1" 'BEGIN { printf (micros < 9999500 ? "%.3f" : "%.1f"), micros / 1000000 }'; }

# tell WHAT SIZE [NOTE]: prints what the runs took, and adds it to the table
tell() {
    local what=$1 size=$2 note=${3:-} micros seconds megabytes ratio=
    micros=$(median "$what")
    seconds=$(in_seconds "$micros")
    megabytes=$(((${peaks[$what]} + 512) / 1024))
    if [ -n "${before[$what]:-}" ]; then ratio=$(awk -v now="$micros" -v before="${before[$what]}" 'BEGIN { printf ", ratio %.2f", now / before }'); fi
    echo "$what, $size: $seconds s$ratio, peak $megabytes MB${note:+, $note}"
    before[$what]=$micros
    if [ -n "${BENCH_TABLE:-}" ]; then printf '%s\t%s\t%s\t%s\t%s\n' "$(basename "$0")" "$what" "$size" "$seconds" "$megabytes" >> "$BENCH_TABLE"; fi
}

# remark TEXT: prints it, and adds it to the table
remark() {
    echo "$1"
    if [ -n "${BENCH_TABLE:-}" ]; then printf '%s\t%s\n' "$(basename "$0")" "$1" >> "$BENCH_TABLE"; fi
}

# timed WHAT SIZE INPUT COMMAND..: times a command, and tells what it took with the end of what it put
timed() {
    local what=$1 size=$2 input=$3 run
    shift 3
    warm "$what" "$input" "$@"
    for ((run = 0; run < runs; run++)); do clock "$what" "$input" "$@"; done
    tell "$what" "$size" "$(tail -n 1 "$folder/out" | cut -c1-80)"
}

# timed_rows WHAT SIZE INPUT: times `vx_rows`, the program at $rows, on rows of certificates or on a script
timed_rows() {
    as_rows < "$3" > "$folder/rows"
    # (the scripts that call this set it)
    # shellcheck disable=SC2154
    timed "$1" "$2" "$folder/rows" "$rows"
}

# measure COMMAND WRITER WHAT SIZE..: times this command of `vsil`, the program at $vsil, on the files that WRITER writes, by their size
measure() {
    local command=$1 writer=$2 what=$3 count
    shift 3
    for count in "$@"; do
        "$writer" "$count" > "$folder/file.vpr"
        # (the scripts that call this set it)
        # shellcheck disable=SC2154
        timed "$command, $what" "$count" "$folder/file.vpr" "$vsil" "$command"
    done
}

# by_both WRITER WHAT SIZE..: times `verify` on the files that WRITER writes, by the companion and, where it is there, by z3
by_both() {
    local writer=$1 what=$2 count
    shift 2
    for count in "$@"; do
        "$writer" "$count" > "$folder/file.vpr"
        timed "verify, $what" "$count" "$folder/file.vpr" "$vsil" verify
        if has z3; then timed "verify by z3, $what" "$count" "$folder/file.vpr" "$vsil" verify --solver 'z3 -in'; fi
    done
}

# lines COUNT TEXT: prints the text so many times, a line each, with the number of the line, from 0 on, in the place of each @
lines() {
    local number
    for ((number = 0; number < $1; number++)); do echo "${2//@/$number}"; done
}

# two_question_methods COUNT: writes so many methods over Bool and Int variables, which ask two questions each
two_question_methods() {
    awk -v count="$1" 'BEGIN {
        for (i = 0; i < count; i++) {
            print "method m" i "(a: Bool, x: Int) returns (y: Int) requires a && x == " i " ensures a { var z: Int := x + " i " if (a) { y := z } else { y := x } assert a }"
        }
    }'
}

# Whether there is such a command.
has() { command -v "$1" > /dev/null; }

# Keeps in the file `dialogue` what z3 is sent while it verifies the file `file.vpr`. Needs `vsil` at $vsil.
record() {
    cat > "$folder/recorded" <<'SH'
#!/bin/sh
tee "$(dirname "$0")/dialogue" | z3 -in
SH
    chmod +x "$folder/recorded"
    "$vsil" verify --solver "$folder/recorded" < "$folder/file.vpr" > /dev/null || true
}
