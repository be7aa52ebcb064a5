#!/usr/bin/env bash
# Measures the audit of a journal of 100,000 entries and of one of 1,000,000, each made by a host that carried out drawn acts:
# a step of that host alone; the same entries judged in the same process; the file judged by the built `ravenhost audit`, with
# what it touches of memory; `wc -l` and `sha256sum` of the same file. It fails only where an answer is wrong. A number of
# rounds may be given (3), of which the least counts, and then the two programs, else they are proved and built, which takes
# over half an hour the first time. Where other work has the processors too, a long run waits for them more often than a short
# one; so how the two journals' times compare is told by the processor's time as well, which leaves the waiting out. It needs
# rt, awk, GNU date (for %N), nproc, cut, /proc and sha256sum. Statuses: 0 done, 1 an answer is wrong, 127 a tool is missing.
set -eu
export LC_ALL=C

bench=$(dirname "$(readlink -f "$0")")
. "$bench/shared/measuring.sh"
needs awk nproc cut sha256sum
case $(date +%N) in '' | *[!0-9]*) missing "GNU date" ;; esac
[ -r /proc/loadavg ] || missing /proc/loadavg

take_folder
rounds=${1:-3}
if [ $# -ge 3 ]; then
    program=$(readlink -f "$2") ravenhost=$(readlink -f "$3")
else
    needs rt
    "$bench/../ravenhost" --prove
    build_beside rv_bench steps 0
    ravenhost=$bench/../crates/ravenhost/out/ravenhost
fi

wrong() {
    echo "bench/audit.sh: $1" >&2
    exit 1
}

# What a command takes in microseconds, and of that the processor's seconds, its own and the system's, in $seconds. Its
# standard input is $given, its output goes to $folder/said, its status to $status.
took() {
    local from TIMEFORMAT='%U %S'
    status=0
    from=$(date +%s%N)
    { time "$@" <"$given" >"$folder/said" 2>"$folder/fault" || status=$?; } 2>"$folder/seconds"
    micros=$((($(date +%s%N) - from) / 1000))
    seconds=$(awk '{ print $1 + $2 }' "$folder/seconds")
}

# The most memory that an audit touches, in KiB: by GNU time, else by looking at /proc while it runs.
memory_of() {
    local pid seen
    if command time -f %M true >/dev/null 2>&1; then
        command time -o "$folder/memory" -f %M "$ravenhost" audit --journal "$1" <"$folder/script" >/dev/null
        cat "$folder/memory"
        return
    fi
    "$ravenhost" audit --journal "$1" <"$folder/script" >/dev/null &
    pid=$! peak=0
    while seen=$(awk '$1 == "VmHWM:" { print $2 }' "/proc/$pid/status" 2>/dev/null); do
        [ -z "$seen" ] || peak=$seen
    done
    wait "$pid"
    echo "$peak"
}

# The least of the lines of a file.
least() {
    sort -g "$1" | head -n 1
}

"$program" script >"$folder/script"
echo "$(nproc) cores, load $(cut -d ' ' -f 1 /proc/loadavg) before the first run; the least of $rounds rounds"
for entries in 100000 1000000; do
    journal=$folder/journal
    "$program" journal "$entries" >"$journal"
    [ "$(wc -l <"$journal")" = "$entries" ] || wrong "a journal of $entries entries has $(wc -l <"$journal") lines"
    for _ in $(seq "$rounds"); do
        "$program" steps "$entries" >"$folder/said" || wrong "no $entries steps"
        awk '{ print $5 }' "$folder/said" >>"$folder/alone.$entries"
        "$program" audit "$entries" >"$folder/said" || wrong "no audit of $entries entries in process"
        awk '{ print $5 }' "$folder/said" | cut -d , -f 1 >>"$folder/steps.$entries"
        awk '{ print $8 }' "$folder/said" >>"$folder/audit.$entries"
        given=$folder/script
        took "$ravenhost" audit --journal "$journal"
        [ "$status $(cat "$folder/said")" = "0 legal $entries entries" ] ||
            wrong "status $status, and $(head -n 1 "$folder/said" "$folder/fault") of a journal of $entries entries"
        echo "$micros" >>"$folder/file.$entries"
        echo "$seconds" >>"$folder/processor.$entries"
        given=/dev/null
        took wc -l "$journal"
        echo "$micros" >>"$folder/wc.$entries"
        took sha256sum "$journal"
        echo "$micros" >>"$folder/sum.$entries"
    done
    memory_of "$journal" >"$folder/touched.$entries"
    wc -c <"$journal" >"$folder/bytes.$entries"

    # The same without its line in the middle isn't legal.
    sed "$((entries / 2))d" "$journal" >"$folder/short"
    given=$folder/script
    took "$ravenhost" audit --journal "$folder/short"
    [ "$status $(cat "$folder/said")" = "1 line $((entries / 2)): unreadable" ] ||
        wrong "status $status, and $(head -n 1 "$folder/said" "$folder/fault") of a journal without its line $((entries / 2))"

    echo "$entries entries, $(cat "$folder/bytes.$entries") bytes:"
    awk -v steps="$(least "$folder/steps.$entries")" -v alone="$(least "$folder/alone.$entries")" \
        -v audit="$(least "$folder/audit.$entries")" -v file="$(least "$folder/file.$entries")" \
        -v wc="$(least "$folder/wc.$entries")" -v sum="$(least "$folder/sum.$entries")" \
        -v touched="$(cat "$folder/touched.$entries")" -v entries="$entries" 'BEGIN {
            each = 1000 / entries
            printf "  a step alone: %.1f ns, in a process of its own %.1f ns\n", steps, alone
            printf "  an entry judged in process: %.1f ns, %.2f times a step (aim: at most 4)\n", audit, audit / steps
            printf "  an entry judged by ravenhost audit: %.1f ns, %.2f times a step, %.1f MiB touched in all\n",
                file * each, file * each / steps, touched / 1024
            printf "  beside, for each line: wc -l %.1f ns, sha256sum %.1f ns\n", wc * each, sum * each
        }'
done
awk -v small="$(least "$folder/audit.100000")" -v large="$(least "$folder/audit.1000000")" \
    -v small_file="$(least "$folder/file.100000")" -v large_file="$(least "$folder/file.1000000")" \
    -v small_seconds="$(least "$folder/processor.100000")" -v large_seconds="$(least "$folder/processor.1000000")" 'BEGIN {
        printf "ten times the entries: %.2f times the time in process, %.2f times by ravenhost audit, ",
            10 * large / small, large_file / small_file
        printf "of processor time %.2f times as much (aim: at most 10.5)\n", large_seconds / small_seconds
    }'
