#!/usr/bin/env bash
# Tries what a newcomer meets: the launcher in a fresh clone where nothing is proved. It is no test of the gate, since each of
# the two trials that it builds takes some minutes. Parts may be named: `trials` (by the trial that is kept), `untried`,
# `proving` (beside a proof, which is then ended), `started` (stand-ins for programs), `unkept` (a trial by a kit that can keep
# none); `ending` is `proving` without its trial. Where the clone's program is proved already (`bench/first_look.sh --proved`),
# the words of command lines are compared with those of the program itself. Needs git, python3 and rt. Status 0: all is as due.
set -u

cd "$(dirname "$(readlink -f "$0")")/.." || exit 2
top=$PWD folder=$(mktemp -d)
trap 'kill $(jobs -p) 2>/dev/null; rm -rf "$folder"' EXIT
faults=0

# due NAME STATUS OUT LAST: what the last run must have given; OUT is a file; LAST is the last line on standard error.
due() {
    local last
    last=$(tail -n 1 "$folder/err")
    if [ "$status" = "$2" ] && cmp -s "$folder/out" "$3" && [[ "$last" == $4 ]]; then
        echo "as due: $1"
    else
        faults=$((faults + 1))
        echo "NOT AS DUE: $1: status $status, due $2; last line: $last"
        diff "$folder/out" "$3" | head -5
    fi
}

# run WORDS..: the launcher, standard input from $folder/in.
run() {
    "$launcher" "$@" <"$folder/in" >"$folder/out" 2>"$folder/err"
    status=$?
}

# The words of each command line that choose nothing, beside the program's own.
compare_words() {
    local words program=$top/crates/ravenhost/out/ravenhost
    for words in "" --help "play --help" "check --help" "run --help" "help play" -h "help"; do
        # shellcheck disable=SC2086
        (cd "$top/crates/ravenhost/out" && ./ravenhost $words) >"$folder/due" 2>&1
        # shellcheck disable=SC2086
        "$top/ravenhost" $words 2>&1 | awk '/^Of the script/ { exit } { print }' | sed -e :a -e '/^\n*$/{$d;N;ba' -e '}' >"$folder/told"
        if cmp -s "$folder/due" "$folder/told"; then
            echo "as due: words of '$words'"
        else
            faults=$((faults + 1))
            echo "NOT AS DUE: words of '$words'"
            diff "$folder/told" "$folder/due" | head -5
        fi
    done
}

# A script, and the journal that it has to print: the loads, and what README.md shows beside the script.
first_command() {
    printf '1 operator load Plant -> accepted 0\n2 operator load Nav -> accepted 0\n' >"$folder/journal"
    sed -n '/its journal:$/,/^Entry 4 /s/^    .*  \([0-9][0-9]* .*->.*\)$/\1/p' README.md >>"$folder/journal"
    cp examples/first.raven "$folder/in"
}

# The milliseconds since the first of the epoch.
millis() {
    date +%s%3N
}

# What is answered by the trial that is kept: the first start builds it, and the next ones take a moment.
trials() {
    local begun=$SECONDS
    first_command
    run play
    due "play, in $((SECONDS - begun)) s" 0 "$folder/journal" "$told"
    begun=$(millis)
    run play
    due "play again, in $(($(millis) - begun)) ms (200, four idle cores)" 0 "$folder/journal" "$told"

    cp examples/checked.raven "$folder/in"
    run check
    printf 'unit Plant: ok\nunit Nav: ok\nshape Gauges: ok\nlist: ok 2 lines\n' >"$folder/checked"
    due "check" 0 "$folder/checked" "$told"

    printf '@list\nallow * *\n' >"$folder/in"
    run check
    due "a refused script" 1 "$folder/nothing" 'script line 1: list BadWord at line 1'

    cp examples/first.raven "$folder/in"
    run audit --script --journal "$folder/journal"
    due "an audit over what was played" 0 <(echo "legal 6 entries") "$told"

    : >"$folder/in"
    run play --nonsense
    due "a flag that there isn't" 2 "$folder/nothing" "For more information, try '--help'."

    python3 -c '
print("@host.toml\ncapacity = 1048576\n@list\nallow * * *\n@steps")
print("operator tick 1\n" * 60000, end="")' >"$folder/in"
    python3 -c '
print("1 operator list [allow * * *] -> accepted 0")
for n in range(2, 60002): print(n, "operator tick 1 -> accepted 0")' >"$folder/ticked"
    run play
    due "output past the limit of a trial that isn't kept" 0 "$folder/ticked" "$told"

    "$launcher" play <"$folder" >"$folder/out" 2>"$folder/err"
    status=$?
    due "a folder as standard input" 4 "$folder/nothing" "ravenhost: *"

    printf '@list\nallow * * *\n@run\ntick 1\nquit\n' >"$folder/in"
    run run
    due "a run" 0 <(printf 'accepted 0\nentries 3\n') "$told"
    ended_by_signal
}

# A run whose input stays open ends by SIGTERM, with its last line.
ended_by_signal() {
    local starter
    mkfifo "$folder/commands"
    "$launcher" run <"$folder/commands" >"$folder/out" 2>"$folder/err" &
    starter=$!
    exec 5>"$folder/commands"
    printf '@list\nallow * * *\n@run\ntick 1\n' >&5
    for _ in $(seq 100); do [ -s "$folder/out" ] && break; sleep 0.1; done
    kill -TERM "$starter"
    wait "$starter"
    status=$?
    exec 5>&-
    due "a run that SIGTERM ends" 0 <(printf 'accepted 0\nentries 3\n') "$told"
}

# A kit that can keep no trial: its `rt doc` names no page.
unkept() {
    local real
    real=$(command -v rt)
    mkdir "$folder/other"
    printf '#!/bin/sh\n[ "$1" != doc ] || exit 1\nexec "%s" "$@"\n' "$real" >"$folder/other/rt"
    chmod +x "$folder/other/rt"
    rm -rf "$folder/clone/crates/ravenhost/out/trial"
    first_command
    PATH=$folder/other:$PATH run run
    due "run, where no trial is kept" 126 "$folder/nothing" 'ravenhost: run asks for the proved program*'
    PATH=$folder/other:$PATH run play
    due "play by a trial that isn't kept" 0 "$folder/journal" "$told"
}

# What is answered with no trial.
untried() {
    local path
    path=$(dirname "$(command -v bash)"):$(dirname "$(command -v awk)")
    : >"$folder/in"
    run
    due "no words" 2 "$folder/nothing" "For more information, try '--help'."
    run --version
    due "the version" 0 <(echo "ravenhost 1.0.0 (trial, $(rt version))") ''
    (PATH=$path && command -v rt >/dev/null) || {
        rm -rf "$folder/clone/crates/ravenhost/out/trial"
        PATH=$path run play
        due "no rt" 127 "$folder/nothing" "ravenhost: nothing is proved, a trial has to be built, and rt isn't on PATH: *the Rattle kit*"
    }
}

# The processes that work in the clone, or name a file of it.
at_work() {
    local process
    for process in /proc/[0-9]*; do
        case $(readlink "$process/cwd" 2>/dev/null) in "$folder/clone"*) echo "${process#/proc/}" && continue ;; esac
        ! tr '\0' '\n' 2>/dev/null <"$process/cmdline" | grep -qF "$folder/clone" || echo "${process#/proc/}"
    done
}

# Starts a proof, and gives it some seconds.
start_proof() {
    "$launcher" --prove >"$folder/proving" 2>&1 &
    proof=$!
    sleep 20
}

# Ends it, and looks whether it ended what it started.
end_proof() {
    local left
    [ -n "$(at_work)" ] || { faults=$((faults + 1)) && echo "NOT AS DUE: --prove started nothing"; }
    kill "$proof"
    wait "$proof" 2>/dev/null
    sleep 2
    left=$(at_work | tr '\n' ' ')
    if [ -z "$left" ]; then
        echo "as due: --prove ends all that it started"
    else
        faults=$((faults + 1))
        echo "NOT AS DUE: --prove left processes: $left"
    fi
}

# While the program is being proved, another start answers by the trial that is kept.
proving() {
    start_proof
    first_command
    run play
    due "play while --prove runs" 0 "$folder/journal" "$told"
    end_proof
}

# The same without the trial.
ending() {
    start_proof
    end_proof
}

# A program that is older than a source isn't run, and one that is younger is: the proved one before the trial.
started() {
    local program=$folder/clone/crates/ravenhost/out/ravenhost trial=$folder/clone/crates/ravenhost/out/trial/ravenhost
    mkdir -p "${trial%/*}"
    # (`run` is given words of the launcher's own behind its first)
    printf '#!/bin/sh\necho proved "$1"\n' >"$program"
    chmod +x "$program"
    echo "rattle-kit" >"$program.kit"
    : >"$folder/in"
    run run
    due "a proved program" 0 <(echo "proved run") ''
    run --version
    due "its version" 0 <(echo "ravenhost 1.0.0 (proved, rattle-kit)") ''
    sleep 1
    touch "$folder/clone/crates/rv_text/src/lib.rt"
    sleep 1
    printf '#!/bin/sh\necho trial "$1"\n' >"$trial"
    chmod +x "$trial"
    run run
    due "a source newer than it" 0 <(echo "trial run") "$told"
    touch "$program"
    run run
    due "a proved program beside a trial" 0 <(echo "proved run") ''
    run run --trial
    due "the trial beside it" 0 <(echo "trial run") "$told"
    rm "$program" "$program.kit" "$trial"
}

: >"$folder/nothing"
if [ "${1:-}" = --proved ]; then
    compare_words
    exit $((faults > 0))
fi

git clone -q "$top" "$folder/clone" || exit 2
launcher=$folder/clone/ravenhost
told='ravenhost: not proved: a trial*'
if [ $# -eq 0 ]; then set -- trials proving untried unkept started; fi
for part in "$@"; do
    case $part in trials | untried | proving | ending | started | unkept) "$part" ;; *) echo "bench/first_look.sh: no part is named $part" && exit 2 ;; esac
done
echo "faults: $faults"
exit $((faults > 0))
