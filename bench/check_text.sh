#!/usr/bin/env bash
# Measures how long the built program takes to compile a unit text of 250,000 bytes and one of 25,000 (`check`), over its
# start-up, and in how much memory. Fails where the larger takes over 0.1 seconds, over 1.5 times as long a byte as the
# smaller, or 256 MiB or more. It needs awk, GNU date (for %N) and GNU time (the program, for %M).
#
#     bench/check_text.sh [PROGRAM [OLDER]]
#
# Where a program is named it is measured, and nothing is built. Where an older one is named too, both are run in turn,
# and it is told how long the program takes on the larger text beside the older one.
set -eu

missing() {
    echo "bench/check_text.sh: $1 is missing" >&2
    exit 127
}
command -v awk >/dev/null || missing awk
case $(date +%N) in '' | *[!0-9]*) missing "GNU date" ;; esac
command time -f %M true >/dev/null 2>&1 || missing "GNU time (Debian's package time)"

program=${1:+$(readlink -f "$1")} older=${2:+$(readlink -f "$2")}
cd "$(dirname "$(readlink -f "$0")")/.."
folder=$(mktemp -d)
trap 'rm -rf "$folder"' EXIT

# A script of one unit text of nearly that many bytes: protected objects, each with ten procedures that hold statements and
# expressions of each level.
script() {
    awk -v bytes="$1" 'BEGIN {
        for (n = 1; size < bytes; n++) {
            spec = spec part
            bodies = bodies body
            part = "   protected Valve_" n " is\n"
            body = "   protected body Valve_" n " is\n"
            for (i = 1; i <= 10; i++) {
                part = part "      procedure Add_" i " (N : in out Integer);\n"
                body = body "      procedure Add_" i " (N : in out Integer) is\n         Old : constant Integer := Level;\n      begin\n"
                body = body "         if N > 5 and then not (Level * 2 - 1 = Old) then\n            Level := Level + N * (Old - 3) mod 7;\n"
                body = body "         elsif Old = 0 then Valve_1.Add_1 (N);\n         else\n"
                body = body "            for I in reverse 1 .. 10 loop exit when I > N; end loop; -- a comment\n         end if;\n      end Add_" i ";\n"
            }
            part = part "   private\n      Level : Integer := 0;\n   end Valve_" n ";\n"
            body = body "   end Valve_" n ";\n"
            size = length(spec) + length(bodies) + length(part) + length(body) + 60
        }
        printf "@unit\npackage Plant is\n%send Plant;\npackage body Plant is\n%send Plant;\n", spec, bodies
    }'
}

# The wall time of a run of a program on a script, in microseconds.
took() {
    local from
    from=$(date +%s%N)
    "$1" check <"$2" >/dev/null
    echo $((($(date +%s%N) - from) / 1000))
}

# The least wall times of twenty runs of the program and of as many of the older one, in turn, on a script.
least() {
    local best='' older_best='' now
    for _ in 1 2 3 4 5 6 7 8 9 10 11 12 13 14 15 16 17 18 19 20; do
        now=$(took "$program" "$1")
        if [ -z "$best" ] || [ "$now" -lt "$best" ]; then best=$now; fi
        if [ -n "$older" ]; then
            now=$(took "$older" "$1")
            if [ -z "$older_best" ] || [ "$now" -lt "$older_best" ]; then older_best=$now; fi
        fi
    done
    echo "$best ${older_best:-0}"
}

script 250000 >"$folder/large"
script 25000 >"$folder/small"
: >"$folder/empty"
if [ -z "$program" ]; then
    ./ravenhost --prove
    program=crates/ravenhost/out/ravenhost
fi
read -r start older_start <<<"$(least "$folder/empty")"
read -r large older_large <<<"$(least "$folder/large")"
read -r small older_small <<<"$(least "$folder/small")"
large=$((large - start)) small=$((small - start)) older_large=$((older_large - older_start)) older_small=$((older_small - older_start))
if [ "$small" -lt 1 ]; then small=1; fi
memory=$({ command time -f %M "$program" check <"$folder/large" >/dev/null; } 2>&1) || {
    echo "bench/check_text.sh: $memory" >&2
    exit 1
}
bytes=$(wc -c <"$folder/large") fewer=$(wc -c <"$folder/small")
echo "start-up $start us, $bytes bytes in $large us, $fewer bytes in $small us"
echo "time a byte: $((large * fewer * 10 / small / bytes)) tenths of that of the smaller; memory $memory KiB"
if [ -n "$older" ]; then
    if [ "$older_large" -lt 1 ]; then older_large=1; fi
    echo "the older program: $older_large us and $older_small us; the larger text takes $((large * 100 / older_large)) hundredths of its time"
fi
[ "$large" -le 100000 ] && [ $((large * fewer * 2)) -le $((small * bytes * 3)) ] && [ "$memory" -lt 262144 ]
