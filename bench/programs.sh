# shellcheck shell=bash
# Finds the programs themselves, so that no launcher is timed: `release/where` tells the one that a launcher would run, and proves and builds it
# first where that isn't done yet.
# VSIL, VSOLVE and VX_ROWS in the environment name programs that are used instead.
top=$(cd "$(dirname "${BASH_SOURCE[0]}")/.." && pwd)

# Prints the path of the program `vsil`.
where_vsil() {
    if [ -n "${VSIL:-}" ]; then echo "$VSIL"; else "$top/release/where" vsil; fi
}

# Prints the path of the companion, `vsolve`.
where_vsolve() {
    if [ -n "${VSOLVE:-}" ]; then echo "$VSOLVE"; else "$top/release/where" vsolve; fi
}

# Prints the path of the program of all rows, `vx_rows`.
where_rows() {
    if [ -n "${VX_ROWS:-}" ]; then echo "$VX_ROWS"; else "$top/release/where" vx_rows; fi
}

# Puts the line before its input at which `vx_rows` begins to read rows of certificates, and behind them a script.
as_rows() {
    printf '\ncertificates\n'
    cat
}
