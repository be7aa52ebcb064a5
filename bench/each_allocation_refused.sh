#!/usr/bin/env bash
# Refuses each allocation of the built program in turn, and looks at what becomes of it:
# - `check --explain`, on examples/checked.raven and on unit texts of rv_rows: those that are taken, and for each fault of names
#   and types one that is refused;
# - `play --all`, on examples and on a row with settings: calls, hand-overs, drops, changes of the list, bodies by `go`;
# - `audit`, on rows: journals that are legal and that aren't, over shapes, unit texts and devices;
# - `audit --journal`, with and without `--torn`, on rows whose journal is a file;
# - `run`, on commands to a host without threads, on a device, a raised line and a loaded task, and on examples/plant.raven.
# Of all but `run` each must end with status 3, want of memory, and must have written a front of the whole output; where only the
# explanation of a fault wants memory, the fault is told with status 1. A `run` must
# end in a minute, with status 3, or with 0 and its last line. Each line must be an answer, `nomemory` among them; and `audit`
# must find the journal that it printed legal. Without threads a run that ends with 0 has answered each command with one line.
# Some of `check`, `play`, `audit`, `run` may be named, or scripts be given for `check --explain` alone, and before them
# `--program PATH`, a proved program, else it is proved first; and `--jobs N`, so many processes at once that share the allocations of a
# script. It needs a C compiler, for a library of a few lines that stands before malloc. Statuses: 0 all as it should be, 1 not so, 127
# a tool is missing.
set -eu
bench=$(dirname "$(readlink -f "$0")")
. "$bench/shared/measuring.sh"
take_folder
build_allocations
program="" jobs=1
while true; do
    case ${1:-} in
        --program) program=$(readlink -f "$2") && shift 2 ;;
        --jobs) jobs=$2 && shift 2 ;;
        *) break ;;
    esac
done
cd "$bench/.."

fail() {
    echo "$1"
    exit 1
}

# Runs the program on a script with the allocation of this number refused, and keeps what came. Its words follow.
refuse() {
    local script=$1 number=$2
    shift 2
    status=0
    timeout 60 env REFUSED="$number" LD_PRELOAD="$allocations" "$program" "$@" <"$script" \
        >"$folder/written" 2>"$folder/error" 9>"$folder/none" || status=$?
}

# Has each job do its share of the allocations of a script, in a folder of its own, and counts all. The function that does a share
# follows, with its words; the number of the job is put before these.
share_out() {
    local share=$1 whole=$folder/whole told=$folder/told started=() job ended=0
    shift
    for job in $(seq "$jobs"); do
        mkdir -p "$folder/$job"
        (folder=$folder/$job && "$share" "$job" "$@") &
        started+=($!)
    done
    for job in "${started[@]}"; do wait "$job" || ended=1; done
    [ "$ended" -eq 0 ] || exit 1
    count "$(cat "$folder"/[0-9]*/end | sort -n | head -n 1)"
}

# Whether a fault was told as it should be, with its status and all output, and only its explanation was cut short.
lacks_explanation() {
    [ "$status" -eq "$1" ] && [ "$1" -eq 1 ] && cmp -s "$folder/written" "$whole" &&
        [ "$(head -n 1 "$folder/error")" = "$(head -n 1 "$told")" ]
}

# A job's share of the allocations over one script, of which this status is due. The words of the command line follow.
refuse_share() {
    local number=$1 script=$2 due=$3 status
    shift 3
    while true; do
        refuse "$script" "$number" "$@"
        if [ -s "$folder/none" ]; then break; fi
        [ "$status" -eq 3 ] || lacks_explanation "$due" || fail "$* < $script: allocation $number refused: status $status"
        cmp -s -n "$(stat -c %s "$folder/written")" "$folder/written" "$whole" ||
            fail "$* < $script: allocation $number refused: other output"
        number=$((number + jobs))
    done
    cmp "$folder/written" "$whole"
    [ "$status" -eq "$due" ]
    echo "$number" >"$folder/end"
}

# Refuses each allocation over one script in turn. The words of the command line follow.
refuse_each() {
    local script=$1 status=0
    shift
    "$program" "$@" <"$script" >"$folder/whole" 2>"$folder/told" || status=$?
    share_out refuse_share "$script" "$status" "$@"
}

# One script more, each of whose allocations but the last, which didn't come, was refused.
count() {
    scripts=$((scripts + 1)) all=$((all + $1 - 1))
}

# Says how many there were since the last time.
tell() {
    echo "$1: $scripts scripts, $all allocations, each refused: $2"
    scripts=0 all=0
}

# The units that a run may load, as sections: those before `@run`, and those of its commands `load`.
units_of() {
    awk '/^@run$/ { runs = 1; next }
        !runs && /^@/ { keeps = $0 != "@list" }
        !runs && keeps
        runs && /^load$/ { print "@unit"; loads = 1; next }
        runs && /^@end$/ { loads = 0 }
        runs && loads' "$1"
}

# How many lines of a run aren't of its journal.
answers() {
    grep -cvE '^[0-9]+ ' "$1"
}

# Whether there is one answer more: that of a page of the journal, of which else only its lines are written.
lacks_page() {
    [ "$(answers "$folder/written")" -eq $(($1 + 1)) ] && grep -qx nomemory "$folder/written"
}

# Whether what a run wrote is such as it should be. Of a run without threads it is known how many answers it gives.
look_at_run() {
    local script=$1 wanted=$2
    ! grep -vE "$answer" "$folder/written" || fail "other words"
    case $status in
        0)
            tail -n 1 "$folder/written" | grep -qE '^entries [0-9]+$' || fail "status 0 without the last line"
            [ -z "$wanted" ] || [ "$(answers "$folder/written")" -eq "$wanted" ] || lacks_page "$wanted" ||
                fail "another number of answers"
            ;;
        3) grep -qE '^ravenhost: (out of memory|no thread can be started)$' "$folder/error" || fail "status 3 without its words" ;;
        *) fail "status $status" ;;
    esac
    { units_of "$script"; echo @journal; grep -E '^[0-9]+ ' "$folder/written" || true; } >"$folder/audited"
    "$program" audit <"$folder/audited" >"$folder/verdict" || fail "$(cat "$folder/verdict")"
}

# A job's share of the allocations of a run.
refuse_share_of_run() {
    local number=$1 script=$2 wanted=$3 status
    while true; do
        refuse "$script" "$number" run
        if [ -s "$folder/none" ]; then break; fi
        (look_at_run "$script" "$wanted") || fail "run < $script: allocation $number refused"
        number=$((number + jobs))
    done
    look_at_run "$script" "$wanted"
    echo "$number" >"$folder/end"
}

# Refuses each allocation of a run in turn. With a second word it has no threads.
refuse_each_of_run() {
    local script=$1 wanted=""
    "$program" run <"$script" >"$folder/whole" 2>/dev/null
    [ -z "${2:-}" ] || wanted=$(answers "$folder/whole")
    share_out refuse_share_of_run "$script" "$wanted"
}

[ -n "$program" ] || { ./ravenhost --prove && program=$PWD/crates/ravenhost/out/ravenhost; }
data=crates/rv_rows/data
scripts=0 all=0 front="status 3 and a front of the output"
answer='^(accepted 0|full|halted|badline|raised|unattached|bad command|list BadWord at line 1|nomemory|no thread [A-Za-z0-9_.]+|entries [0-9]+|[0-9]+ .* -> .*)$'

# `check --explain`, where no scripts are given on those that the head names.
of_check() {
    local fault
    set -- examples/checked.raven "$data"/names_ok_*.raven "$data"/types_accepted_*.raven
    for fault in "names "{Unknown,Duplicate,NotVisible,WrongKind,EndName} \
        "types "{Mismatch,NotStatic,ConstantWritten,BadMode,TooLarge,BadChoice}; do
        first=$(grep -l ": $fault at" "$data"/*.fault | grep -v /audit_ | head -1)
        set -- "$@" "${first%.fault}.raven"
    done
    for script in "$@"; do refuse_each "$script" check --explain; done
    tell "check --explain" "$front, or the fault alone"
}

of_play() {
    local script
    for script in examples/{first,hand_over,list_edits,revoked_while_queued,bodies}.raven "$data"/full_journal_and_halt.raven; do
        refuse_each "$script" play --all
    done
    tell "play --all" "$front"
}

of_audit() {
    local name
    for name in legal entry_not_due without_last_line_feed unit_texts unit_texts_wrong_answer devices full_journal; do
        refuse_each "$data/audit_$name.raven" audit
    done
    tell audit "$front"

    for name in legal entry_not_due without_last_line_feed; do
        refuse_each "$data/audit_file_$name.raven" audit --journal "$data/audit_file_$name.file"
    done
    name=$data/audit_file_without_last_line_feed
    refuse_each "$name.raven" audit --journal "$name.file" --torn
    tell "audit --journal" "$front"
}

of_run() {
    cat >"$folder/quiet.raven" <<'RAVEN'
@host.toml
capacity = 40
@unit
package Plant is
   protected Valve is
      function Get return Integer;
   private
      Level : Integer := 0;
   end Valve;
end Plant;
package body Plant is
   protected body Valve is
      function Get return Integer is begin return Level; end Get;
   end Valve;
end Plant;
@list
allow * * *
@run
tick 3
append deny Nav Plant.Valve Get
replace 1 allow Nav Plant.Valve *
remove 2
remove 9
append allow Nav
raise 4
load
package More is
   protected Gauge is
      procedure Set (N : in Integer);
   private
      Level : Integer := 0;
   end Gauge;
end More;
package body More is
   protected body Gauge is
      procedure Set (N : in Integer) is begin Level := N; end Set;
   end Gauge;
end More;
@end
halt
tick 1
wait
journal 1
quit
RAVEN
    cat >"$folder/manned.raven" <<'RAVEN'
@host.toml
capacity = 64
[[device]]
unit = "Dev"
task = "Main"
priority = 15
object = "Plant.Valve"
operation = "Get"
calls = 1
RAVEN
    # (the plant of a row of the gate)
    sed '/^@list$/,$d' crates/run_rows/data/lines_raised.run >>"$folder/manned.raven"
    cat >>"$folder/manned.raven" <<'RAVEN'
@list
allow * * *
@run
tick 1
raise 4
append deny Nav Plant.Valve Get
load
package Nav is
   task Pilot;
end Nav;
package body Nav is
   task body Pilot is begin null; end Pilot;
end Nav;
@end
quit
RAVEN
    refuse_each_of_run "$folder/quiet.raven" without_threads
    refuse_each_of_run "$folder/manned.raven"
    refuse_each_of_run examples/plant.raven
    tell run "status 3, or nomemory and the last line, and a legal journal"
}

case ${1:-} in
    check | play | audit | run) for part in "$@"; do "of_$part"; done ;;
    "") for part in check play audit run; do "of_$part"; done ;;
    *)
        for script in "$@"; do refuse_each "$script" check --explain; done
        tell "check --explain" "$front, or the fault alone"
        ;;
esac
