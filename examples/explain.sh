#!/usr/bin/env bash
# Tries explain on each example of a code, and compares what it prints with what follows from the stored report; then on the cases below.
# The program is $VSIL, or else the launcher of this repository.
set -u
here=$(cd "$(dirname "${BASH_SOURCE[0]}")" && pwd) || exit 1
explain=$here/../explain
program=$explain
# shellcheck source-path=SCRIPTDIR
. "$here/comparing.sh"

# What follows from the report of an example, but for the texts: a member that is verified has no line, one that rests has a warning;
# places, members and codes are those of the report, and the totals stay as they are.
expected() {
    sed -E -e '/: verified$/d' \
        -e "s/^([a-z]+ [^ :]+): failed at ([0-9:]+) (F[0-9]+) .*/$1.vpr:\2: error: \1: .. [\3]/" \
        -e "s/^([a-z]+ [^ :]+): rests on .*/$1.vpr: warning: \1: .. [rests on]/" \
        -e "s/^error at ([0-9:]+): (E[0-9]+) .*/$1.vpr:\1: error: .. [\2]/" "$1.out"
}

# What explain printed, without the texts and the places of warnings. A line in which a text is not that of a row of the tables, since it
# begins with the code or has a word in capitals left, is dropped.
without_texts() {
    grep -vwE 'error: E[0-9]+|KIND|NAME|TOKEN|EXPECTED|FOUND' |
        sed -E -e 's/: (error|warning): (((predicate|function|method) [^ :]+: )?).* \[/: \1: \2.. [/' -e 's/:[0-9:]+: warning: /: warning: /'
}

# An example, of which the file is in this folder. What is refused has status 4; each other one has a member that is not verified.
try_example() {
    local status=1 got
    case $1 in E*) status=4 ;; esac
    got=$("$explain" "$1.vpr")
    compare "$1" "status $? $(without_texts <<< "$got")" "status $status $(expected "$1")"
}

# What explain prints on a terminal, where each line ends with a carriage return.
on_terminal() { script -qec "'$explain' '$1'" /dev/null < /dev/null | tr -d '\r'; }

# Compares that with the line of the failure, the line of source, and what stands in front of the caret.
try_caret() {
    local want
    want=$(printf '%s\n    %s\n    %s^' "$3" "$4" "$5")
    compare "$1" "$(on_terminal "$2" | head -n 3)" "$want"
}

# Where the program can't be run, nothing is tried.
"${VSIL:-$here/../vsil}" check < /dev/null > /dev/null || exit 8
case ${VSIL-} in [!/]*/*) VSIL=$PWD/$VSIL ;; esac
dir=$(mktemp -d) || exit 1
trap 'rm -rf "$dir"' EXIT
cd "$here/codes" || exit 1
for file in *.vpr; do try_example "${file%.vpr}"; done

# Lines with their texts, worked out from the tables of docs/CODES.md.
none='0 verified, 0 failed, 0 resting, 0 limited, 1 faults'
one='0 verified, 1 failed, 0 resting, 0 limited, 0 faults'
try "a text with two types in it" 4 'E22.vpr:4:8: error: wrong type: expected Int, found Bool [E22]' E22.vpr
try "a text of one word's own" 4 'E09_abstract.vpr:4:1: error: the function before this token has no body [E09]' E09_abstract.vpr
try "a failure" 1 $'F02.vpr:6:3: error: method m: there might be insufficient permission [F02]\n'"$one" F02.vpr
try "a failure that is not decided" 1 $'unknown.vpr:4:10: error: method m: the assertion might not hold (undecided) [F01]\n'"$one" unknown.vpr
try "a member that rests" 1 "rests.vpr:6:3: error: predicate P: there might be insufficient permission [F02]
rests.vpr:9:1: warning: method m: depends on predicate P, which is not verified [rests on]
0 verified, 1 failed, 1 resting, 0 limited, 0 faults" rests.vpr
try "a fault" 5 $'F01.vpr:2:1: error: method m: the solver could not be started: check its name and path [fault start]\n'"$none" F01.vpr --solver nosuch
try "standard input" 4 $'<stdin>:1:1: error: unexpected `&&` [E03]' <<< '&& method m()'
try "standard input by its name" 4 $'<stdin>:1:1: error: unexpected `\\` [E03]' - <<< '\ method m()'
try "standard input with an option" 5 $'<stdin>:2:1: error: method m: the solver ended early: check its options [fault pipe]\n'"$none" - --solver true < F01.vpr
try "nothing to tell" 0 '1 verified, 0 failed, 0 resting, 0 limited, 0 faults' <<< 'method m() { }'
try "a file that isn't there" 3 'error: cannot read' nosuch.vpr
mkdir "$dir/with blanks"
cp F01.vpr "$dir/with blanks/a b.vpr"
try "a path with blanks" 1 "$dir/with blanks/a b.vpr:4:10: error: method m: the assertion might not hold [F01]"$'\n'"$one" "$dir/with blanks/a b.vpr"

# Codes.
try "a code" 0 $'E01 NotUtf8: not UTF-8\n  What to do: Save the file as UTF-8.\n  Example: examples/codes/E01.vpr' E01
compare "a code with two rows" "$("$explain" E22 | grep -c '^E22 Mismatch')" 2
compare "a fault" "$("$explain" fault pipe | head -n 1)" 'fault pipe: the solver ended early: check its options'
try "a code that there isn't" 2 '' F99 2> "$dir/said"
compare "what is said of it" "$(cat "$dir/said")" 'explain: there is no code F99'

# Carets: a byte order mark and a letter past ASCII; a tab, two such letters and a carriage return, which is shown as a blank.
printf '\357\273\277method m(\303\274: Int) { }\n' > "$dir/mark.vpr"
printf 'method m(x: Int)\n{\n\tassert /* \303\274\303\237 */ x > 0\r\n}\n' > "$dir/tab.vpr"
if command -v script > /dev/null; then
    try_caret "a caret on the first line" "$dir/mark.vpr" "$dir/mark.vpr:1:10: error: no token begins with this character [E02]" \
        'method m(ü: Int) { }' '         '
    try_caret "a caret after a tab" "$dir/tab.vpr" "$dir/tab.vpr:3:18: error: method m: the assertion might not hold [F01]" \
        $'\tassert /* üß */ x > 0 ' $'\t                '
else
    echo "carets: skipped, since there is no script"
fi
tell_count
