#!/usr/bin/env bash
# Says of how many requests the built program gives the answer that the model in bench/model gives, which was written from the
# documents alone: 10,000 or more, in scripts of fixed seeds over many shapes, with loads and changes of the list among them.
# It is no test. Options of bench/model/requests.py may be given. The first time it proves and builds the program, which takes more than half an hour.
# It needs python3 and rt. Statuses: 0 all alike, 1 a difference, 127 a tool is missing.
set -eu

python3 -c 'import sys; sys.exit(sys.version_info < (3, 11))' 2>/dev/null || {
    echo "bench/requests.sh: python3 (3.11 or newer) is missing" >&2
    exit 127
}
cd "$(dirname "$(readlink -f "$0")")/.."
./ravenhost --prove
exec python3 -B bench/model/requests.py "$@"
