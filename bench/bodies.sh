#!/usr/bin/env bash
# Measures how many statement steps a second a body's run takes, on a loop of assignments with arithmetic that asks
# nothing of a host. It is no test. A number of runs may be given, each of 99,998 steps; the first time it takes some
# minutes to prove and build. It needs rt, nproc, cut and /proc.
set -eu

bench=$(dirname "$(readlink -f "$0")")
. "$bench/shared/measuring.sh"
enter_rv_bench bodies 0
machine
out/rv_bench bodies "${1:-200}"
