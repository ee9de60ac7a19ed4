#!/usr/bin/env bash
# Compares the companion with z3, cvc5 and cvc4, as far as they are there, on the families of suite/families.py: our own questions, of the
# examples and of generated programs; random stacks of each theory; and families that grow. A line a family: how many questions each decides,
# the seconds of its runs, and how many answers differ. It needs z3, by which our own questions are recorded.
# Words: how many random stacks of each theory (2000), and how many generated programs (500).
set -eu
. "$(dirname "${BASH_SOURCE[0]}")/programs.sh"
"$(dirname "${BASH_SOURCE[0]}")/suite/compare.py" "$(where_vsil)" "$(where_vsolve)" "$@"
