#!/usr/bin/env bash
# Hands what it reads, rows of certificates or a script, to the program of all rows, and writes its answers.
set -eu
. "$(dirname "${BASH_SOURCE[0]}")/programs.sh"
rows=$(where_rows)
as_rows | "$rows"
