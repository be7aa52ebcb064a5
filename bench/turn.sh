#!/usr/bin/env bash
# Measures an act behind the turn beside the same act under a Mutex, and under a Mutex with a Condvar. It is no test.
# A number of acts a thread may be given; the first time it takes some minutes to prove and build. It needs rt, nproc, cut
# and /proc.
set -eu

bench=$(dirname "$(readlink -f "$0")")
. "$bench/shared/measuring.sh"
enter_rv_bench turn 0
machine
out/rv_bench turn "${1:-1000000}"
