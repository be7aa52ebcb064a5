#!/usr/bin/env bash
# Measures how long a program takes for requests that a task's text makes, by one `go N` and by N lines of `go`: requests alone, and
# requests with 1,000 turns of a loop before each call. Fails where an answer is missing, or where ten times as many requests with
# such turns take more than 12 times as long, by the least of five plays of each. The program is the built one, which is proved first,
# unless one is named. It needs python3.
#
#     bench/go.sh [PROGRAM]
set -eu

python3 -c 'import resource, subprocess, tempfile' 2>/dev/null || {
    echo "bench/go.sh: python3, or its module resource, is missing" >&2
    exit 127
}
program=
if [ $# -gt 0 ]; then program=$(readlink -f "$1"); fi
cd "$(dirname "$(readlink -f "$0")")/.."
if [ -z "$program" ]; then ./ravenhost --prove; fi
exec python3 - "${program:-crates/ravenhost/out/ravenhost}" <<'EOF'
import os, subprocess, sys, tempfile

UNIT = """@host.toml
budget = 10000
@unit
package Plant is
   protected Tank is
      procedure Fill (N : in Integer);
   private
      Level : Integer := 0;
   end Tank;
   task Filler;
end Plant;
package body Plant is
   protected body Tank is
      procedure Fill (N : in Integer) is begin Level := (Level + N) mod 1000; end Fill;
   end Tank;
   task body Filler is
      Turn : Integer;
   begin
      loop
         Turn := 0;
         while Turn < %d loop Turn := Turn + 1; end loop;
         Tank.Fill (7);
      end loop;
   end Filler;
end Plant;
@list
allow Plant Plant.Tank *
@steps
"""
# Of the entries two are those of the load and of the list.
OTHERS = 2


def seconds(turns, count, lines, plays=1):
    """Plays so many requests so often, by one `go` a line or by one line, and returns the least processor's time in seconds."""
    took = min(played(turns, count, lines) for _ in range(plays))
    by = "as many lines" if lines else "one line"
    print(f"{count} requests by {by}, {turns} turns before each call: {took:.3f} s", flush=True)
    return took


def played(turns, count, lines):
    """The processor's time of one play, in seconds."""
    steps = "Plant.Filler go\n" * count if lines else f"Plant.Filler go {count}\n"
    with tempfile.TemporaryFile() as script:
        script.write((UNIT % turns + steps).encode())
        script.seek(0)
        child = subprocess.Popen([sys.argv[1], "play"], stdin=script, stdout=subprocess.PIPE)
        journal = child.stdout.read()
        _, status, used = os.wait4(child.pid, 0)
    entries = journal.count(b" -> ")
    if status != 0 or entries != count + OTHERS:
        sys.exit(f"bench/go.sh: status {status}, {entries} of {count + OTHERS} entries")
    return used.ru_utime + used.ru_stime


for lines in (False, True):
    for count in (1, 1000, 4000):
        seconds(0, count, lines)
    few, many = seconds(1000, 400, lines, 5), seconds(1000, 4000, lines, 5)
    print(f"ten times as many take {many / few:.1f} times as long")
    if many > 12 * few:
        sys.exit("bench/go.sh: that is more than 12 times")
EOF
