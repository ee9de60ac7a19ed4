# shellcheck shell=bash
# What tells a run apart: when and where it was taken, how busy the machine was, and which programs ran.

# The three means of the load, over 1, 5 and 15 minutes.
load() { cut -d' ' -f1-3 /proc/loadavg; }

processor() { echo "$(nproc) of $(sed -n 's/^model name[^:]*: *//p' /proc/cpuinfo | head -n 1)"; }

# The first sixteen digits of a program's hash, by which it is found in `release/MANIFEST`.
hash_of() { sha256sum < "$1" | cut -c1-16; }

# about LOAD NAME=PROGRAM..: a line each: what it is, a tab, and what it was; LOAD is that at the start
about() {
    local load=$1 one
    shift
    printf 'date\t%s\n' "$(date -u '+%Y-%m-%d %H:%M UTC')"
    printf 'processors\t%s\n' "$(processor)"
    printf 'load\t%s at the start, %s at the end (means of 1, 5 and 15 minutes)\n' "$load" "$(load)"
    for one in "$@"; do printf '%s\tsha256 %s..\n' "${one%%=*}" "$(hash_of "${one#*=}")"; done
    if command -v z3 > /dev/null; then printf 'z3\t%s\n' "$(z3 --version)"; fi
}
