#!/usr/bin/env bash
# Damages the journal of each row of rv_rows that the model in bench/model can play, in each way at each place, and compares what
# the built program (`ravenhost audit`) says of each with the model's verdict: some 186,000 journals, a process for
# each. It is no test. Options of bench/audit_damage.py may be given in place of --all. The first time it proves and builds the
# program, which takes more than half an hour. It needs python3 and rt. Statuses: 0 all alike, 1 a difference, 127 a tool is
# missing.
set -eu

python3 -c 'import sys; sys.exit(sys.version_info < (3, 11))' 2>/dev/null || {
    echo "bench/audit_damage.sh: python3 is missing, or older than 3.11" >&2
    exit 127
}
cd "$(dirname "$(readlink -f "$0")")/.."
./ravenhost --prove
[ $# -gt 0 ] || set -- --all
exec python3 -B bench/audit_damage.py "$@"
