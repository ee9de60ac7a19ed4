# shellcheck shell=bash disable=SC2154
# What the scripts beside this one share: what came is compared with what is expected, and counted. Needs $program, which `try` runs.
good=0
bad=0

# Compares what came with what is expected; $1 says of what.
compare() {
    if [ "$2" = "$3" ]; then
        echo "$1: as expected"
        good=$((good + 1))
    else
        printf '%s: NOT as expected\n%s\nexpected:\n%s\n' "$1" "$2" "$3"
        bad=$((bad + 1))
    fi
}

# Runs the program with the arguments after the first three: what is tried, and the status and the text that are expected.
try() {
    local what=$1 status=$2 text=$3 got
    shift 3
    got=$("$program" "$@"; echo "status $?")
    compare "$what" "$got" "${text:+$text$'\n'}status $status"
}

# The last line: how many came out as expected. It fails where some did not.
tell_count() {
    echo "$good as expected, $bad not"
    [ "$bad" -eq 0 ]
}
