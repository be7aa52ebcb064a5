#!/usr/bin/env bash
# Plays the jobs of crews of bench/thread_games again and again, the storm among them, and the games of ports whose steps stand
# in no file, beside four times as many busy threads as there are processors. It says how many rounds ended within five minutes each
# with each line as due. How often may be given (200). It proves nothing; a round that stalls has a port that was not woken, or
# a thread that waits for another one.
#
#     bench/ports_repeat.sh [ROUNDS [PROGRAM]]
#
# Without a program, by its whole path, it is built the first time, as a trial in some three minutes. It needs rt, nproc, seq, grep,
# cmp, mktemp and timeout.
set -eu

bench=$(dirname "$(readlink -f "$0")")
. "$bench/shared/measuring.sh"
needs nproc seq grep cmp mktemp timeout
take_folder
log=$folder/log
busy=()
stop() {
    rm -rf "$folder"
    for pid in "${busy[@]}"; do
        kill "$pid" 2>/dev/null || true
    done
}
trap stop EXIT
program=${2:-}
[ -n "$program" ] || try_beside thread_games
# It is given no steps: so the lines of their games aren't due.
grep -v '^@' "$bench/thread_games/stdout" >"$folder/due"
cd "$folder"
for _ in $(seq $((4 * $(nproc)))); do
    (while :; do :; done) &
    busy+=("$!")
done
wanted=${1:-200}
as_due=0
stalled=0
start=$(date +%s)
for _ in $(seq "$wanted"); do
    status=0
    timeout 300 "$program" >"$log" 2>&1 </dev/null || status=$?
    if [ "$status" -eq 124 ]; then
        stalled=$((stalled + 1))
    elif [ "$status" -eq 0 ] && cmp -s "$log" due; then
        as_due=$((as_due + 1))
    fi
done
echo "$wanted rounds in $(($(date +%s) - start)) s: $as_due as due, $stalled stalled"
[ "$as_due" = "$wanted" ]
