#!/usr/bin/env bash
# Lets the built `ravenhost run` run for so many seconds (600): 32 tasks with texts in four units, and four lines with
# handlers, while the operator ticks, raises, changes the list and loads units. Then halts it, reads its journal in pages,
# and replays that entry by entry by `ravenhost play`, which has to print the same journal; `ravenhost audit --explain`
# has to find it legal, and to explain the end of each body. Where a FILE is named the run keeps its journal there, which
# has to be the one that was read. Where TICK is given the clock follows the real one (`--tick TICK`), and each task acts once a
# period, in place of the operator's ticks. Says how much memory it took, and what stalled. Ends with 1 where something is wrong.
# It is no test. It needs python3.
#
# With --lasting a run lasts so long in place of that (bench/run_lasting.py).
#
#     bench/run_soak.sh [SECONDS [PROGRAM [FILE [TICK]]]]
#     bench/run_soak.sh SECONDS --lasting [PROGRAM]
set -eu

cd "$(dirname "$(readlink -f "$0")")/.."
if [ "${2:-}" = --lasting ]; then
    [ -n "${3:-}" ] || ./ravenhost --prove
    PYTHONDONTWRITEBYTECODE=1 exec python3 bench/run_lasting.py "$1" "${3:-crates/ravenhost/out/ravenhost}"
fi
[ -n "${2:-}" ] || ./ravenhost --prove
PYTHONDONTWRITEBYTECODE=1 exec python3 bench/run_soak.py "${1:-600}" "${2:-crates/ravenhost/out/ravenhost}" ${3:+"$3"} ${4:+"$4"}
