#!/usr/bin/env bash
# Refuses each allocation of bench/refusal_rows in turn: a program that makes each call of the libraries that can answer want
# of memory, and prints a line for each. In each run one call alone must say that it is out of memory, and nothing changed, and
# all others must say that they are done. Over all runs each call must have said so at least once, but for those that take no
# memory, which must not. Prints how often each did. The program isn't part of the gate: this script has rt prove and build it, the
# first time, beside the crates. It needs rt, and a C compiler for a library of a few lines that stands before malloc. The program
# may be given instead. Statuses: 0 all as it should be, 1 not so, 127 a tool is missing.
set -eu

bench=$(dirname "$(readlink -f "$0")")
. "$bench/shared/measuring.sh"
needs cc awk timeout
take_folder
stdout=$bench/refusal_rows/stdout

# Calls that take no memory: a machine has none of its own, a pass is cut off one that has the place for it, a note is read off a
# pass, and a crew takes the room for the ports that come back when it starts their threads.
none="Machine::reserve Pass::split Control::note Crew::new Crew::join_all"

build_allocations

if [ $# -gt 0 ]; then program=$(readlink -f "$1"); else build_beside refusal_rows; fi

# Prints the call that found no memory, where it is one and all others are done.
cat >"$folder/one.awk" <<'AWK'
NR == FNR { due[++lines] = $0; next }
$0 == due[FNR] { next }
{
    call = $0
    if (!sub(/: out of memory$/, "", call) || call ": done" != due[FNR] || found++) exit wrong = 1
    said = call
}
END {
    if (wrong || FNR != lines || found != 1) exit 1
    print said
}
AWK

number=0
while true; do
    number=$((number + 1)) status=0
    # By env, so that the program alone is refused, and not timeout.
    timeout 60 env REFUSED="$number" LD_PRELOAD="$allocations" "$program" \
        >"$folder/written" 2>"$folder/error" 9>"$folder/none" </dev/null || status=$?
    if [ -s "$folder/none" ]; then break; fi
    if [ "$status" -ne 0 ] || ! awk -f "$folder/one.awk" "$stdout" "$folder/written" >>"$folder/said"; then
        echo "allocation $number refused: status $status, and not just one call says so"
        diff -a "$stdout" "$folder/written" || true
        cat "$folder/error"
        exit 1
    fi
done
cmp "$folder/written" "$stdout"
[ "$status" -eq 0 ]

wrong=0
while IFS= read -r line; do
    call=${line%: done}
    count=$(grep -cxF -- "$call" "$folder/said" || true)
    printf '%6d %s\n' "$count" "$call"
    takes=1
    for word in $none; do
        if [ "$call" = "$word" ]; then takes=0; fi
    done
    if [ "$takes" -eq 1 ] && [ "$count" -eq 0 ]; then
        echo "$call never found no memory"
        wrong=1
    fi
    if [ "$takes" -eq 0 ] && [ "$count" -ne 0 ]; then
        echo "$call took memory"
        wrong=1
    fi
done <"$stdout"
echo "$(wc -l <"$stdout") calls, $((number - 1)) allocations, each refused: one call says so, all others are done"
exit "$wrong"
