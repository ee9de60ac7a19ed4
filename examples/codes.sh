#!/usr/bin/env bash
# Verifies each example of a code by the companion, and compares report and status with what is stored beside it; then the same for the
# texts and commands below. The program is $VSIL, or else the launcher of this repository.
set -u
here=$(cd "$(dirname "${BASH_SOURCE[0]}")" && pwd) || exit 1
top=$here/..
vsil=${VSIL:-$top/vsil}
program=$vsil
# shellcheck source-path=SCRIPTDIR
. "$here/comparing.sh"

# A file that is refused has status 4; each other example has a member that is not verified.
try_file() {
    local name status=1
    name=$(basename "$1" .vpr)
    case $name in E*) status=4 ;; esac
    try "$name" $status "$(cat "${1%.vpr}.out")" verify "$1"
}

# Two methods, with one check each.
two() { printf 'method %s(x: Int)\n{\n  assert x > 0\n}\n' a b; }

# Their report, if the first one has this fault.
faults() { printf 'method a: fault %s\nmethod b: fault spent\n0 verified, 0 failed, 0 resting, 0 limited, 2 faults\n' "$1"; }

# A method with so many checks, each of which passes.
checks() {
    printf 'method m(x: Int)\n  requires x > 0\n{\n'
    yes '  assert x > 0' | head -n "$1"
    echo '}'
}

# So many fields.
fields() { seq "$1" | sed 's/.*/field f&: Int/'; }

# So many blanks.
blanks() { head -c "$1" /dev/zero | tr '\0' ' '; }

# The codes that stand in the sources.
codes() {
    grep -rhoE '"[EF][0-9][0-9]"' "$top"/crates/{vx_report,vx_parser,vx_expressions}/src | tr -d '"' | sort -u
}

# Those of them without a row in the tables of docs/CODES.md, or without an example. E07 is never printed; E08 is tried below.
missing() {
    local code
    for code in $(codes); do
        grep -qE "^. \`${code}( [^\`]*)?\`" "$top/docs/CODES.md" || echo "$code has no row"
        case $code in E07 | E08) continue ;; esac
        [ -f "$here/codes/$code.vpr" ] || echo "$code has no example"
    done
}

# Where the program can't be run, nothing is tried.
"$vsil" check < /dev/null > /dev/null || exit 8
for file in "$here"/codes/*.vpr; do try_file "$file"; done
try "a solver that can't be started" 5 "$(faults start)" verify --solver nosuch < <(two)
try "a solver that ends" 5 "$(faults pipe)" verify --solver true < <(two)
try "a solver that repeats what it is asked" 5 "$(faults reply)" verify --solver cat < <(two)
try "100,000 checks" 0 $'method m: verified\n1 verified, 0 failed, 0 resting, 0 limited, 0 faults' verify < <(checks 100000)
try "100,001 checks" 1 $'method m: limit of 100000 checks\n0 verified, 0 failed, 0 resting, 1 limited, 0 faults' verify < <(checks 100001)
try "65,536 members" 0 ok check < <(fields 65536)
try "65,537 members" 4 "error at 65537:1: E08 TooManyMembers" check < <(fields 65537)
try "4,194,304 bytes" 0 ok check < <(blanks 4194304)
try "4,194,305 bytes" 3 "error: longer than 4194304 bytes" check < <(blanks 4194305)
try "no such file" 3 "error: cannot read" verify "$here/codes/nosuch.vpr"
try "no such command" 2 "usage: vsil [verify [FILE] [--solver TEXT] [--jobs N] [--certify] | check [FILE] | print [FILE] | gen N | work N [--jobs J] | run FILE METHOD SEED]" nosuch
if [ -c /dev/full ]; then
    "$vsil" verify "$here/codes/F01.vpr" > /dev/full
    compare "no room for the report" "status $?" "status 6"
fi
compare "a row and an example for each code" "$(missing)" ""
tell_count
