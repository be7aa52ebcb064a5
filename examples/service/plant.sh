#!/usr/bin/env bash
# Runs a plant as a service, under systemd (ravenhost-plant.service beside this) or by hand:
#
#     plant.sh [FOLDER [SCRIPT]]     FOLDER, else $STATE_DIRECTORY, else the current one, has the pipe and the journals;
#                                    SCRIPT has your plant: settings, units, lists, and a line @run; without it that of ../plant.raven runs
#
# RAVENHOST names the program, where it isn't on PATH; the script ./ravenhost of the sources is one too.
# Operator: send commands into the pipe by that script, which lets in one message at a time, as in
#     ./ravenhost send FOLDER/commands 'append deny Feed Plant.Tank Fill'
#     ./ravenhost send FOLDER/commands load team.raven
# or, of one line and alone, by  echo quit >FOLDER/commands  .
# The answers come on standard output, notes on standard error; under systemd:  journalctl -fu ravenhost-plant
# The journal:  tail -f FOLDER/journal.DATE; judged over the units of the script that ran, by the script ./ravenhost:
#     ./ravenhost audit --script --journal FOLDER/journal.DATE FOLDER/script.DATE
# The end: SIGTERM (systemctl stop), or the command quit. It ends also where this script is killed.
# Status 0: it was ended. 1: the script was refused, or is cut off, so that it lacks its line @run and nothing was started. 5: it ended by
# itself, since its journal has no room left.
set -u
unset CDPATH
here=$(dirname "$(readlink -f "${BASH_SOURCE[0]}")")
script=
if [ -n "${2:-}" ]; then
    if [ ! -f "$2" ] || [ ! -r "$2" ]; then echo "plant.sh: $2 can't be read" >&2 && exit 4; fi
    script=$(readlink -f "$2")
fi
folder=${1:-${STATE_DIRECTORY:-.}}
cd -- "$folder" 2>/dev/null || { echo "plant.sh: the folder $folder can't be entered" >&2 && exit 4; }
date=$(date +%Y%m%dT%H%M%S)

# A copy of the script, up to its line @run, beside the journal that it is to be judged with; the commands behind it come by the pipe.
# Of the example: with room for a day or two, and with tasks that act once a second in place of once a millisecond. Of a script that
# was cut off, before its last deny, the copy has no line @run: --sections-end has nothing start then.
{
    if [ -n "$script" ]; then
        sed $'/^@run\r\\?$/q' "$script"
    else
        printf '@host.toml\ncapacity = 1048576\n'
        sed -e 's/Milliseconds (1)/Milliseconds (1000)/' -e '/^@run$/q' "$here/../plant.raven"
    fi
} >"script.$date" || exit 4

# This script holds both pipes open: that of commands doesn't end when an operator's echo does.
rm -f commands stop
mkfifo -m 620 commands && mkfifo -m 600 stop || exit 4
exec 3<>commands 4<>stop
trap 'echo >&4' TERM INT HUP

(
    trap '' TERM INT HUP
    exec "${RAVENHOST:-ravenhost}" run --journal "journal.$date" --tick 1000 --notes always --stop-by stop \
        --sections-end --halt-below 16 --end-status "script.$date"
) <commands 3>&- 4>&- &

# A signal ends the wait early, and not the run.
wait $!
status=$?
while [ "$status" -gt 128 ] && kill -0 $! 2>/dev/null; do
    wait $!
    status=$?
done
exit "$status"
