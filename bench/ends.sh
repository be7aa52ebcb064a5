#!/usr/bin/env bash
# Plays each row of rv_rows that plays texts of units, judges its journal over its units, explains the ends in it (`audit
# --explain`), and prints of each row what is said. Where ends were made by hand, `NAME.ends` beside the row has what is to be
# said; of any other row all ends have to be explained. Fails where something else is said. Then it changes the end of each
# journal that has one with scalars: the first scalar of its last such end grows by one, where that is still legal, and that
# entry has to be named. It needs rt and python3; rt builds the program, without proofs, twice or three times.
#
#     bench/ends.sh [PROGRAM]
#
# Where a program is named it is run, and nothing is built.
set -eu

for tool in python3; do
    command -v "$tool" >/dev/null || { echo "bench/ends.sh: $tool is missing" >&2; exit 127; }
done
[ $# -gt 0 ] || command -v rt >/dev/null || { echo "bench/ends.sh: rt is missing" >&2; exit 127; }
program=${1:+$(readlink -f "$1")}
top=$(dirname "$(dirname "$(readlink -f "$0")")")
PYTHONDONTWRITEBYTECODE=1 exec python3 "$top/bench/ends.py" "$top" "$program"
