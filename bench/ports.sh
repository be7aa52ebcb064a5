#!/usr/bin/env bash
# Measures a call through a port beside the same call of a host under a Mutex, a hand-over between two ports beside a
# Mutex with a Condvar, and a storm of eight ports under changes of the list. It is no test. A number of calls may be
# given (500). The first time it takes some minutes to prove and build; with --try a trial is built, whose checks are in it, so that its
# times say little. It needs rt, nproc, cut and /proc.
#
#     bench/ports.sh [--try] [CALLS]
set -eu

bench=$(dirname "$(readlink -f "$0")")
. "$bench/shared/measuring.sh"
if [ "${1:-}" = --try ]; then
    needs nproc cut
    take_folder
    try_beside rv_bench
    shift
else
    enter_rv_bench ports 0
fi
machine
"$program" ports "${1:-500}"
