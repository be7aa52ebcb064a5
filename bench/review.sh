#!/usr/bin/env bash
# Has a built ravenreview say which entries of the examples' journals were refused, who waited, who may call what, how often lines
# decided, what another list would have decided, and who was at what when, and compares that with bench/review:
#   bench/review.sh RAVENREVIEW RAVENHOST
# Each example is played by RAVENHOST; its units, and what sets up its host, are given to RAVENREVIEW beside the journal, once in a file
# and once in a section. Then come filters, a journal that isn't legal, and each status. Ends with 1 where anything differs.
set -u
here=$(cd "$(dirname "$0")/.." && pwd)
review=$1 host=$2
work=$(mktemp -d) || exit
trap 'rm -rf "$work"' EXIT
bad=0

differs() {
    echo "review: $1" >&2
    bad=1
}

# What of a script an audit takes.
units_of() {
    awk '/^@/ { on = $1 == "@shape" || $1 == "@unit" || $1 == "@host.toml" } on' "$1"
}

# expect STATUS NAME WORD..: runs the subcommand that is asked on standard input, and compares what it says.
asked=refusals
expect() {
    local wanted=$1 name=$2 ended
    shift 2
    "$review" "$asked" "$@" >"$work/said" 2>"$work/told"
    ended=$?
    [ "$ended" = "$wanted" ] || differs "$name: status $ended, not $wanted"
    cmp -s "$work/said" "$here/bench/review/$name" || differs "$name: $(diff "$work/said" "$here/bench/review/$name" | head -n 3)"
}

# Has a script played, and keeps its journal, its units, and both in one.
play() {
    "$host" play <"$1" >"$work/journal" 2>/dev/null || differs "$1 isn't played"
    units_of "$1" >"$work/units"
    { cat "$work/units"; echo @journal; cat "$work/journal"; } >"$work/whole"
}

# Compares a timeline with the rows that are drawn from the journal's text alone.
rows() {
    "$here/bench/review/rows_of.py" "$work/journal" "$work/said" "$@" >"$work/rows" || differs "rows of the timeline: $(head -n 3 "$work/rows")"
}

xml() {
    python3 -c 'import sys, xml.dom.minidom; xml.dom.minidom.parse(sys.argv[1])' "$work/said" || differs "the picture isn't well-formed XML"
}

# Has the timeline of what was played last drawn in both forms, and compares them so.
drawn() {
    "$review" timeline --journal "$work/journal" <"$work/units" >"$work/said" || differs "the timeline: status $?"
    rows "$@"
    "$review" timeline --svg --journal "$work/journal" <"$work/units" >"$work/said" || differs "the picture: status $?"
    xml
    rows "$@"
}

for script in "$here"/examples/*.raven; do
    name=$(basename "$script" .raven)
    for asked in refusals waits access hits; do
        case $asked in refusals) said=$name ;; *) said=${asked}_$name ;; esac
        [ -f "$here/bench/review/$said" ] || continue
        play "$script"
        expect 0 "$said" --journal "$work/journal" <"$work/units"
        expect 0 "$said" <"$work/whole"
    done
    [ ! -f "$here/bench/review/$name" ] || drawn
done
play "$here/examples/interrupt.raven"
drawn Int_3=Press.Guard Int_5=Press.Bell
cat "$here/examples/new/plant.raven" "$here/examples/new/steps.raven" >"$work/plant.raven"
play "$work/plant.raven"
drawn

play "$here/bench/review/waiting.raven"
asked=waits
expect 0 waits --journal "$work/journal" <"$work/units"
expect 0 waits <"$work/whole"
expect 0 waits_since_tick --since tick:7 --journal "$work/journal" <"$work/units"
expect 0 waits_by --by nav.pilot --journal "$work/journal" <"$work/units"
expect 0 waits_of --of plant.ready --journal "$work/journal" <"$work/units"
# By a file of times: beside the entries, and since an instant, of another offset, which is that of entry 6.
times=$here/bench/review/waiting.times
expect 0 waits_timed --times "$times" --journal "$work/journal" <"$work/units"
expect 0 waits_timed --times "$times" <"$work/whole"
"$review" waits --since entry:6 --journal "$work/journal" <"$work/units" >"$work/since"
"$review" waits --since 2026-11-30T15:20:02+01:00 --times "$times" --journal "$work/journal" <"$work/units" |
    sed 's/ ([^)]*Z)//g' | cmp -s - "$work/since" || differs "waits since an instant"
expect 2 nothing --since 2026-11-30T14:20:02Z --journal "$work/journal" <"$work/units"
expect 2 nothing --since 2026-13-30T14:20:02Z --times "$times" --journal "$work/journal" <"$work/units"
expect 4 nothing --times "$work/none" --journal "$work/journal" <"$work/units"
expect 1 nothing --times "$here/bench/review/waits" --journal "$work/journal" <"$work/units"
sort -r "$times" >"$work/backwards"
expect 1 nothing --times "$work/backwards" --journal "$work/journal" <"$work/units"
sed 's/accepted 0$/accepted 1/' "$work/journal" >"$work/wrong"
expect 1 waits_not_legal --journal "$work/wrong" <"$work/units"

# What stands behind an entry, and that there is none of a greater number.
asked=state
for number in 0 7 17 26; do
    expect 0 "state_$number" "$number" --journal "$work/journal" <"$work/units"
    expect 0 "state_$number" "$number" <"$work/whole"
done
expect 2 nothing 27 --journal "$work/journal" <"$work/units"
expect 2 nothing --journal "$work/journal" <"$work/units"
expect 2 nothing ten --journal "$work/journal" <"$work/units"
expect 1 waits_not_legal 7 --journal "$work/wrong" <"$work/units"

# Why an entry was answered so, and what became of it: calls that wait, are handed over, released and dropped, their ends, a delay, a list.
asked=explain
for number in 1 2 4 6 7 9 14 16 17 23 24 25 26; do
    expect 0 "explain_$number" "$number" --journal "$work/journal" <"$work/units"
    expect 0 "explain_$number" "$number" <"$work/whole"
done
expect 0 explain_9_timed 9 --times "$times" --journal "$work/journal" <"$work/units"
expect 2 nothing 0 --journal "$work/journal" <"$work/units"
expect 2 nothing 27 --journal "$work/journal" <"$work/units"
expect 1 waits_not_legal 7 --journal "$work/wrong" <"$work/units"

# Who was at what when, as letters and as a picture.
asked=timeline
drawn
expect 0 timeline --journal "$work/journal" <"$work/units"
expect 0 timeline --text <"$work/whole"
expect 0 timeline_by --by nav.aux --from 9 --to 17 --journal "$work/journal" <"$work/units"
expect 0 timeline_of --of plant.valve --to 4 --journal "$work/journal" <"$work/units"
expect 0 timeline_behind --from 27 --journal "$work/journal" <"$work/units"
expect 0 timeline.svg --svg --journal "$work/journal" <"$work/units"
expect 0 timeline_low.svg --svg --by nav.low --from 17 --journal "$work/journal" <"$work/units"
xml
expect 0 timeline_behind.svg --svg --from 27 --journal "$work/journal" <"$work/units"
xml
expect 2 nothing --text --svg --journal "$work/journal" <"$work/units"
expect 2 nothing --from ten --journal "$work/journal" <"$work/units"
expect 1 waits_not_legal --svg --journal "$work/wrong" <"$work/units"

play "$here/bench/review/granting.raven"
asked=access
expect 0 access --journal "$work/journal" <"$work/units"
expect 0 access <"$work/whole"
expect 0 access_by --by interrupts --journal "$work/journal" <"$work/units"
expect 0 access_of --by nav --of plant.ready.set_true --journal "$work/journal" <"$work/units"
expect 2 nothing --since tick:1 --journal "$work/journal" <"$work/units"
expect 0 against --against "$here/bench/review/stricter.list" --journal "$work/journal" <"$work/units"
expect 0 against --against "$here/bench/review/stricter.list" <"$work/whole"
expect 0 against_of --of Plant.Valve.Set --against "$here/bench/review/stricter.list" --journal "$work/journal" <"$work/units"
expect 0 no_difference --against "$here/bench/review/granting.list" --journal "$work/journal" <"$work/units"
expect 0 no_difference --of Plant.Ready --against "$here/bench/review/stricter.list" --journal "$work/journal" <"$work/units"
asked="who"
expect 0 who plant.valve.set --journal "$work/journal" <"$work/units"
expect 0 who.json --json plant.valve.set --journal "$work/journal" <"$work/units"
# Rows as JSON say what they say as text.
as_text() {
    python3 "$here/bench/review/rows_as_text.py" <"$work/said" | cmp -s - "$here/bench/review/$1" || differs "$1 as JSON isn't what it is as text"
}
as_text who
asked=access
expect 0 access.json --json --journal "$work/journal" <"$work/units"
as_text access
expect 0 against.json --json --against "$here/bench/review/stricter.list" --journal "$work/journal" <"$work/units"
as_text against
expect 0 nothing --json --against "$here/bench/review/granting.list" --journal "$work/journal" <"$work/units"

# Each rule by which an entry of the examples is refused: the line that decided is the one that `refusals` names.
for script in "$here"/examples/*.raven "$here"/bench/review/*.raven; do
    name=$(basename "$script" .raven)
    [ -f "$here/bench/review/explain_refused_$name" ] || continue
    play "$script"
    "$review" refusals --journal "$work/journal" <"$work/units" >"$work/refused" 2>/dev/null
    while read -r number line; do
        "$review" explain "$number" --journal "$work/journal" <"$work/units" >"$work/one" || differs "explain $number of $name"
        case $line in *"-> not granted: "*)
            grep -qF -- "not granted: ${line##*-> not granted: }" "$work/one" || differs "explain $number of $name: another line than refusals" ;;
        esac
        cat "$work/one"
    done <"$work/refused" >"$work/said"
    cmp -s "$work/said" "$here/bench/review/explain_refused_$name" ||
        differs "explain_refused_$name: $(diff "$work/said" "$here/bench/review/explain_refused_$name" | head -n 3)"
done

# Each journal as lines of JSON, of which its bytes can be made again.
for script in "$here"/examples/*.raven "$here"/bench/review/*.raven; do
    name=$(basename "$script" .raven)
    "$host" play <"$script" >/dev/null 2>&1 || continue
    play "$script"
    "$review" export --journal "$work/journal" <"$work/units" >"$work/lines" || differs "export of $name"
    "$review" export <"$work/whole" | cmp -s - "$work/lines" || differs "export of $name in a section"
    python3 "$here/bench/review/journal_of.py" <"$work/lines" | cmp -s - "$work/journal" ||
        differs "export of $name: the journal can't be made of it again"
done
play "$here/bench/review/waiting.raven"
asked=export
expect 0 export --journal "$work/journal" <"$work/units"
"$review" export --times "$times" --journal "$work/journal" <"$work/units" >"$work/lines" || differs "export with times"
python3 -c 'import json, sys
for line in sys.stdin:
    fields = json.loads(line)
    time = fields.pop("time", None)
    print(json.dumps(fields, separators=(",", ":")) if time or fields["entry"] > 25 else "no time")' <"$work/lines" |
    cmp -s - "$here/bench/review/export" || differs "export with times"
python3 "$here/bench/review/journal_of.py" <"$work/lines" | cmp -s - "$work/journal" || differs "export with times: the journal can't be made of it again"
sed 's/accepted 0$/accepted 1/' "$work/journal" >"$work/wrong"
expect 1 waits_not_legal --journal "$work/wrong" <"$work/units"

# The plant of the examples: a call that waits and is handed over, the end that does that, a call that still waits, and one that is refused.
cat "$here/examples/new/plant.raven" "$here/examples/new/steps.raven" >"$work/plant.raven"
play "$work/plant.raven"
for number in 5 18 22 26; do
    "$review" explain "$number" --journal "$work/journal" <"$work/units" || differs "explain $number of the plant"
done >"$work/said"
cmp -s "$work/said" "$here/bench/review/explain_plant" || differs "explain_plant: $(diff "$work/said" "$here/bench/review/explain_plant" | head -n 3)"

play "$here/examples/window.raven"
asked=whatif
expect 0 whatif_window "$here/bench/review/stricter.list" --journal "$work/journal" <"$work/units"
play "$here/examples/queue_of_two.raven"
expect 0 whatif_queue_of_two "$here/bench/review/stricter.list" --journal "$work/journal" <"$work/units"
expect 0 whatif_queue_of_two "$here/bench/review/stricter.list" <"$work/whole"
expect 0 whatif_by --by nav.pilot "$here/bench/review/stricter.list" --journal "$work/journal" <"$work/units"
expect 0 whatif_nothing "$here/bench/review/same.list" --since tick:1 --journal "$work/journal" <"$work/units"
expect 1 nothing "$here/bench/review/waits" --journal "$work/journal" <"$work/units"
expect 4 nothing "$work/none" --journal "$work/journal" <"$work/units"
expect 2 nothing --journal "$work/journal" <"$work/units"
asked=hits
expect 0 hits_by_task --by nav.pilot --journal "$work/journal" <"$work/units"
expect 0 hits_since_entry --since entry:9 --journal "$work/journal" <"$work/units"
expect 0 hits_of_operation --of plant.valve.set --journal "$work/journal" <"$work/units"
sed 's/refused 5 line 0/refused 4 line 0/' "$work/journal" >"$work/wrong"
expect 1 not_legal --journal "$work/wrong" <"$work/units"
asked=refusals

script=$here/examples/queue_of_two.raven
"$host" play <"$script" >"$work/journal" 2>/dev/null
units_of "$script" >"$work/units"
expect 0 since_entry --since entry:10 --journal "$work/journal" <"$work/units"
expect 0 since_late_tick --since tick:1 --journal "$work/journal" <"$work/units"
expect 0 by_task --by nav.pilot --journal "$work/journal" <"$work/units"
expect 0 of_operation --of PLANT.VALVE.WAIT --journal "$work/journal" <"$work/units"
expect 0 of_other --of Plant.Gauge --journal "$work/journal" <"$work/units"
sed 's/refused 5 line 0/refused 4 line 0/' "$work/journal" >"$work/wrong"
expect 1 not_legal --journal "$work/wrong" <"$work/units"
{ cat "$work/journal"; printf '15 Nav.'; } >"$work/torn"
expect 1 torn_untold --journal "$work/torn" <"$work/units"
expect 0 queue_of_two --torn --journal "$work/torn" <"$work/units"
expect 1 nothing --journal "$work/journal" <"$work/journal"
expect 2 nothing --since yesterday --journal "$work/journal" <"$work/units"
expect 2 nothing --torn <"$work/units"
expect 4 nothing --journal "$work/none" <"$work/units"
[ "$bad" = 0 ] && echo "review: all as expected"
exit "$bad"
