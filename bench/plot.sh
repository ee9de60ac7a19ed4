#!/usr/bin/env bash
# Times what verifies files of 10 to 2000 methods with three checks each, and draws it: bench/speed.tsv has the seconds, medians of
# BENCH_RUNS runs (5) that take turns, and bench/speed.svg the picture. These are timed, where they are there: `vsil` by the companion in
# process, `vsil` by z3, z3 alone on all that it was sent then, Boogie and Dafny. Each has to verify all methods. One that would take more
# than BENCH_LIMIT seconds (60), by its time at the size before, is left out from there on. Needs gnuplot.
# Words: the sizes; or `draw`, to draw bench/speed.tsv once more.
set -eu
. "$(dirname "${BASH_SOURCE[0]}")/timing.sh"
. "$(dirname "${BASH_SOURCE[0]}")/about.sh"
table=$top/bench/speed.tsv
picture=$top/bench/speed.svg
limit=${BENCH_LIMIT:-60}

# A method over Bool and Int variables in each language, word by word the same. `@` is its number.
declare -A method=(
    [viper]='method m@(a: Bool, x: Int) returns (y: Int) requires a && x == @ ensures a && y == x + x { var z: Int := x + @ if (a) { y := z } else { y := x } assert a }'
    [boogie]='procedure m@(a: bool, x: int) returns (y: int) requires a && x == @; ensures a && y == x + x; { var z: int; z := x + @; if (a) { y := z; } else { y := x; } assert a; }'
    [dafny]='method m@(a: bool, x: int) returns (y: int) requires a && x == @ ensures a && y == x + x { var z: int := x + @; if (a) { y := z; } else { y := x; } assert a; }'
)

# methods LANGUAGE COUNT: writes so many of them, a line each
methods() {
    awk -v text="${method[$1]}" -v count="$2" 'BEGIN {
        for (i = 0; i < count; i++) {
            line = text
            gsub(/@/, i, line)
            print line
        }
    }'
}

# Prints a line for each that is timed: its name, and how the picture names it.
tools() {
    printf 'vsil\tvsil by the companion\n'
    if has z3; then printf 'vsil-z3\tvsil by z3\nz3\tz3 alone, same questions\n'; fi
    "$top/bench/peers.sh" | sed 's/^boogie \([0-9]*\.[0-9]*\).*/boogie\tBoogie \1/; s/^dafny \([0-9]*\.[0-9]*\).*/dafny\tDafny \1/'
}

# run HOW TOOL: warms or clocks it on the files of one size
run() {
    case $2 in
    vsil) "$1" "$2" /dev/null "$vsil" verify "$folder/file.vpr" ;;
    vsil-z3) "$1" "$2" /dev/null "$vsil" verify --solver 'z3 -in' "$folder/file.vpr" ;;
    z3) "$1" "$2" "$folder/dialogue" z3 -in ;;
    boogie) "$1" "$2" /dev/null boogie "$folder/file.bpl" ;;
    dafny) "$1" "$2" /dev/null dafny /compile:0 "$folder/file.dfy" ;;
    esac
}

# has_verified TOOL COUNT: whether what it put says that all methods are verified
has_verified() {
    case $1 in
    vsil | vsil-z3) grep -q "^$2 verified, 0 failed, 0 resting, 0 limited, 0 faults$" "$folder/out" ;;
    z3) [ "$(grep -c '^unsat$' "$folder/out")" = "$(grep -c '^(check-sat)$' "$folder/dialogue")" ] ;;
    boogie | dafny) grep -q " finished with $2 verified, 0 errors" "$folder/out" ;;
    esac
}

# fits TOOL COUNT: whether it is expected to stay below the limit; it grows at least as the number of methods does
fits() {
    [ -z "${before[$1]:-}" ] || awk -v micros="${before[$1]}" -v of="$last" -v count="$2" -v limit="$limit" \
        'BEGIN { exit micros / 1000000 * count / of > limit }'
}

# Writes the files of so many methods, and what z3 is sent of them.
write_files() {
    methods viper "$1" > "$folder/file.vpr"
    methods boogie "$1" > "$folder/file.bpl"
    methods dafny "$1" > "$folder/file.dfy"
    if has z3; then record; fi
}

# try TOOL COUNT: runs it once, and ends all where it doesn't verify all methods
try() {
    run warm "$1"
    if ! has_verified "$1" "$2"; then
        echo "$1 doesn't verify $2 methods: $(tail -n 1 "$folder/out")" >&2
        exit 1
    fi
}

# Times the tools of which there is a time at the size before, if they fit, and adds a row of seconds: `-` for each that is left out.
row() {
    local count=$1 tool turn now=() cells=$1
    write_files "$count"
    for tool in "${names[@]}"; do
        if [ -z "${gone[$tool]:-}" ] && fits "$tool" "$count"; then now+=("$tool"); else gone[$tool]=yes; fi
    done
    for tool in "${now[@]}"; do try "$tool" "$count"; done
    for ((turn = 0; turn < runs; turn++)); do
        for tool in "${now[@]}"; do run clock "$tool"; done
    done
    for tool in "${now[@]}"; do tell "$tool" "$count"; done
    for tool in "${names[@]}"; do
        if [ -z "${gone[$tool]:-}" ]; then cells+=$'\t'$(awk -v micros="${before[$tool]}" 'BEGIN { printf "%.4f", micros / 1000000 }'); else cells+=$'\t-'; fi
    done
    echo "$cells" >> "$folder/rows"
    last=$count
}

# Times all sizes, and writes the table: what tells the run apart, each in a line behind `# `, the names of the columns, and the rows.
take() {
    local count name label labels=methods start
    start=$(load)
    while IFS=$'\t' read -r name label; do
        names+=("$name")
        labels+=$'\t'$label
    done < <(tools)
    for count in "$@"; do row "$count"; done
    {
        echo "seconds, medians of $runs runs in turn; a verifier is left out (-) where more than $limit seconds are expected"
        about "$start" "vsil=$vsil"
        "$top/bench/peers.sh" | tr ' ' '\t'
    } | sed 's/^/# /' > "$folder/table"
    { echo "$labels" && cat "$folder/rows"; } >> "$folder/table"
    cp "$folder/table" "$table"
}

# Writes the ranges of the axes for gnuplot, whole decades of seconds, and a label at the end of each line, in its colour. Labels at one
# place are moved apart.
labels() {
    grep -v '^#' "$table" | awk -F '\t' -v colours="$colours" '
        function decade(seconds,  power) { for (power = -4; 10 ^ power < seconds; power++); return power }
        NR == 1 { for (i = 2; i <= NF; i++) name[i] = $i; columns = NF; next }
        {
            for (i = 2; i <= NF; i++) if ($i != "-") {
                x[i] = $1
                y[i] = $i + 0
                if (!least || y[i] < least) least = y[i]
                if (y[i] > most) most = y[i]
            }
            if (NR == 2) first = $1
            last = $1
        }
        END {
            split(colours, colour, " ")
            low = decade(least) - 1
            high = decade(most)
            printf "set xrange [%s:%s]\nset yrange [1e%d:1e%d]\n", first * 0.85, last * 1.02, low, high
            # what a line of text takes of the height
            apart = 10 ^ ((high - low) * 0.048)
            # from the lowest to the highest
            for (k = 2; k <= columns; k++) {
                best = 0
                for (i = 2; i <= columns; i++) if (!done[i] && (!best || y[i] < y[best])) best = i
                done[best] = 1
                at = y[best]
                if (x[best] in top && at < top[x[best]] * apart) at = top[x[best]] * apart
                top[x[best]] = at
                printf "set label \"%s\" at %s,%s left offset 1,0 textcolor rgb \"%s\"\n", name[best], x[best], at, colour[best - 1]
            }
        }'
}

# Writes the plot of each column, in its colour.
lines() {
    local columns i part=plot
    columns=$(head -n 1 "$folder/data" | awk -F '\t' '{ print NF }')
    for ((i = 2; i <= columns; i++)); do
        printf "%s '%s' using 1:%d with linespoints linecolor rgb '%s' pointtype 7 pointsize 0.6 notitle" \
            "$part" "$folder/data" "$i" "$(cut -d' ' -f $((i - 1)) <<< "$colours")"
        part=,
    done
    echo
}

# Draws the table. The colours are told apart by the colour-blind too.
draw() {
    colours='#0072b2 #d55e00 #666666 #009e73 #aa4499'
    grep -v '^#' "$table" | tail -n +2 > "$folder/data"
    {
        cat <<'GNUPLOT'
set terminal svg size 820,500 font "Helvetica,15" background rgb "white"
set datafile separator "\t"
set datafile missing "-"
set logscale xy
set border 3 linecolor rgb "#444444"
set grid ytics linetype 1 linecolor rgb "#dddddd"
set tics nomirror out textcolor rgb "#222222"
set xtics (10, 30, 100, 300, 1000, 2000)
set ytics ("1 ms" 0.001, "10 ms" 0.01, "0.1 s" 0.1, "1 s" 1, "10 s" 10, "100 s" 100)
set label "Time to verify a file of methods with three checks each" at graph 0, graph 1.07 left
set xlabel "methods in the file"
set tmargin 3
set rmargin 21
GNUPLOT
        labels
        lines
    } > "$folder/commands"
    gnuplot "$folder/commands" > "$folder/picture"
    cp "$folder/picture" "$picture"
}

if [ "${1:-}" != draw ]; then
    vsil=$(where_vsil)
    names=()
    last=
    declare -A gone=()
    if [ "$#" -eq 0 ]; then set -- 10 30 100 300 1000 2000; fi
    take "$@"
fi
draw
