#!/usr/bin/env bash
# Takes all times anew: bench/TIMES.md from the scripts that time files of growing size, and bench/speed.tsv with bench/speed.svg (plot.sh).
# Proves and builds the programs first, where they aren't yet. The status is 1 where a script failed, which is named at the end.
set -eu
. "$(dirname "${BASH_SOURCE[0]}")/programs.sh"
. "$(dirname "${BASH_SOURCE[0]}")/about.sh"
scripts=(examples methods texts statements fields calls folds applications terms runs solver lanes scopes work sessions companion numbers few certificates smt)
VSIL=$(where_vsil)
VSOLVE=$(where_vsolve)
VX_ROWS=$(where_rows)
export VSIL VSOLVE VX_ROWS
runs=${BENCH_RUNS:-5}
scratch=$(mktemp -d)
trap 'rm -rf "$scratch"' EXIT
export BENCH_TABLE=$scratch/table
failed=()

# Writes the table as Markdown: a row for each thing that is timed, with its sizes side by side; then the notes.
rows_of_table() {
    awk -F '\t' '
        NF == 2 { notes = notes "\n- `" $1 "`: " $2; next }
        {
            key = $1 FS $2
            if (!(key in sizes)) { order[++count] = key; sizes[key] = $3; seconds[key] = $4; peaks[key] = $5 }
            else { sizes[key] = sizes[key] ", " $3; seconds[key] = seconds[key] ", " $4; peaks[key] = peaks[key] ", " $5 }
        }
        END {
            print "| Script | What | Sizes | Seconds | Peak MB |"
            print "|---|---|---|---|---|"
            for (i = 1; i <= count; i++) {
                key = order[i]
                split(key, part, FS)
                script = part[1] == before ? "" : "`" part[1] "`"
                before = part[1]
                print "| " script " | " part[2] " | " sizes[key] " | " seconds[key] " | " peaks[key] " |"
            }
            if (notes) print notes
        }' "$BENCH_TABLE"
}

start=$(load)
for name in "${scripts[@]}"; do
    "$top/bench/$name.sh" || failed+=("$name.sh")
done
{
    echo "# Measured times"
    echo
    echo "Written by \`bench/all.sh\`; [README.md](README.md) tells what each script does. Seconds are by the clock, medians of $runs runs."
    echo
    about "$start" "vsil=$VSIL" "vsolve=$VSOLVE" "vx_rows=$VX_ROWS" | sed 's/^/- /; s/\t/: /'
    echo
    rows_of_table
} > "$scratch/times"
cp "$scratch/times" "$top/bench/TIMES.md"
"$top/bench/plot.sh" || failed+=(plot.sh)
if [ "${#failed[@]}" -gt 0 ]; then
    echo "failed: ${failed[*]}" >&2
    exit 1
fi
