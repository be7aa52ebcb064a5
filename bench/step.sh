#!/usr/bin/env bash
# Measures a step of a host (a call of a function, and its end): on a new host, with one and with 512 lines of the list, these
# with windows and without, with one and with 64 units, with queues of up to eight callers; on a host of the largest journal, new and after a million entries;
# beside a push of 64 bytes, a lock, and where gnatmake is there the same call under GNAT's Ravenscar with ceilings; a change
# of a whole list; what a host of the largest journal touches; and, where ravenhost is built, a script of 16 MiB of changes of
# the list. Then it counts allocations: a step must take none, of whatever kind, with whatever answer. It is no test but of
# that. A number of rounds may be given, of which the least counts. The first time it takes some minutes to prove and build.
# It needs rt, python3 (3.9 or newer) and a C compiler. Statuses: 0 done, 1 a step takes memory or isn't answered as is due,
# 127 a tool is missing.
set -eu

bench=$(dirname "$(readlink -f "$0")")
. "$bench/shared/measuring.sh"
python3 -c 'import resource, sys; sys.exit(sys.version_info < (3, 9))' 2>/dev/null || missing "python3 (3.9 or newer)"
needs cc id seq
top=$bench/..
enter_rv_bench room 0
echo "user $(id -u) (GNAT's ceilings cost what they cost only as root, 0), $(machine)"
out/rv_bench table "${1:-5}" >"$folder/table"
# A process of its own for each, so that no memory of an earlier host is taken again.
for _ in $(seq "${1:-5}"); do
    out/rv_bench far 0 >>"$folder/far"
done

# The same call under GNAT: a function of a protected object with a ceiling, without a host.
if command -v gnatmake >/dev/null; then
    mkdir "$folder/gnat"
    cat >"$folder/gnat/gnat.adc" <<'ADA'
pragma Profile (Ravenscar);
ADA
    cat >"$folder/gnat/plant.ads" <<'ADA'
package Plant is
   protected Valve with Priority => 20 is
      function Get return Integer;
   private
      Level : Integer := 0;
   end Valve;
end Plant;
ADA
    cat >"$folder/gnat/plant.adb" <<'ADA'
package body Plant is
   protected body Valve is
      function Get return Integer is (Level);
   end Valve;
end Plant;
ADA
    cat >"$folder/gnat/call.adb" <<'ADA'
with Ada.Real_Time; use Ada.Real_Time;
with Ada.Text_IO;
with GNAT.OS_Lib;
with Plant;
procedure Call with Priority => 15 is
   Calls : constant := 100_000;
   Least : Time_Span := Time_Span_Last;
   Sum   : Integer := 0;
begin
   for Batch in 1 .. 20 loop
      declare
         Start : constant Time := Clock;
         Taken : Time_Span;
      begin
         for I in 1 .. Calls loop
            Sum := Sum + Plant.Valve.Get;
         end loop;
         Taken := Clock - Start;
         if Taken < Least then
            Least := Taken;
         end if;
      end;
   end loop;
   Ada.Text_IO.Put_Line (Integer'Image (Sum) & Long_Float'Image (Long_Float (To_Duration (Least)) * 1.0E9 / Long_Float (Calls)));
   --  Under the profile no task ends, nor does the one of the environment.
   GNAT.OS_Lib.OS_Exit (0);
end Call;
ADA
    if (cd "$folder/gnat" && gnatmake -q -O2 -gnat2012 call.adb) >"$folder/log" 2>&1; then
        timeout 60 "$folder/gnat/call" | cut -d ' ' -f 3- >"$folder/gnat.ns"
    else
        cat "$folder/log" >&2
    fi
fi

python3 - "$folder" "$top" <<'EOF'
import os, resource, subprocess, sys, time

folder, top = sys.argv[1:]
heads, *rows = [line.split()[1:] for line in open(f"{folder}/table")]
least = {head: min(float(row[place]) for row in rows) for place, head in enumerate(heads)}
far = [line.split() for line in open(f"{folder}/far")]
least.update({head: min(float(row[place]) for row in far) for place, head in enumerate(["new", "far"])})


def told(what, head, beside, aim=""):
    ratio = f"{least[head] / least[beside]:>7.2f}" if beside else " " * 7
    print(f"{what:<68} {least[head]:>8.1f} ns {ratio}  {aim}")


print(f"the least of {len(rows)} rounds of 20 batches, and its ratio to the first line of its part")
print("on memory that was used before:")
told("a step: one unit, one line, a new host", "step", "step", "aim: at most 100 ns")
told("the same with request and answer moved, and not lent", "moved", "step")
told("a step where queues may have eight callers", "eight", "step", "aim: within 1.1")
told("a step with 64 units, 256 objects of 16 operations", "units", "step", "aim: within 1.3")
told("a step with 512 lines, of which the first decides", "lines", "step", "aim: within 1.3")
told("a step with 512 lines, each with a window of its own", "windows", "lines", "aim: within 1.3 of the line before")
told("a step with 64 units and 512 lines", "both", "step")
told("a push of 64 bytes into reserved memory", "push", "step")
print("on memory that nothing has touched, so that the system gives it page by page:")
told("a step of a new host of 1,048,576 entries", "new", "new")
told("a step of the same host after 1,000,000 entries", "far", "new", "aim: within 1.3")
told("a push of 64 bytes into reserved memory", "touch", "new")
print("beside:")
told("a Mutex taken, a number written, and let go", "lock", None)
if os.path.exists(f"{folder}/gnat.ns"):
    least["gnat"] = float(open(f"{folder}/gnat.ns").read())
    told("a call of a function under GNAT's Ravenscar with ceilings", "gnat", "step", "(for us two steps)")
else:
    print("gnatmake isn't there: no call under GNAT")
print(f"a whole list of 512 lines set over 64 units, 256 objects of 16 operations: {least['list'] / 1e6:.1f} ms (aim: 50), "
      f"with 512 windows {least['timed'] / 1e6:.1f} ms")

subprocess.run(["out/rv_bench", "room", "0"], stdout=subprocess.DEVNULL, check=True)
peak = resource.getrusage(resource.RUSAGE_CHILDREN).ru_maxrss / 1024
print(f"a new host of 1,048,576 entries, with the program: {peak:.0f} MiB touched (aim: 64)")

program = f"{top}/crates/ravenhost/out/ravenhost"
if os.access(program, os.X_OK):
    line = b"operator replace 1 allow * * *\n"
    head = b"@host.toml\ncapacity = 1048576\n@list\nallow * * *\n@steps\n"
    script = head + line * ((16_777_216 - len(head)) // len(line))
    start = time.monotonic()
    journal = subprocess.run([program, "play"], input=script, stdout=subprocess.PIPE, check=True).stdout
    seconds = time.monotonic() - start
    print(f"a script of {len(script):,} bytes of changes of the list: {journal.count(b'->'):,} entries in {seconds:.1f} s")
else:
    print("ravenhost isn't built: no script of changes of the list")
EOF

build_allocations
# Runs a part of the program with a small number and with a large one: each time as many as were asked for have to go as is
# due, and both runs have to make as many allocations.
count() {
    local part=$1 few=$2 many=$3 what=$4 first="" times written
    for times in "$few" "$many"; do
        COUNTED=1 LD_PRELOAD=$allocations out/rv_bench "$part" "$times" >"$folder/written" 9>"$folder/count" || true
        written=$(cat "$folder/written")
        if [ "$written" != "$times" ]; then
            echo "$what, $times times: ${written:-none} went as is due"
            exit 1
        fi
        if [ ! -s "$folder/count" ]; then
            echo "$what: nothing was counted"
            exit 1
        fi
        first=${first:-$(cat "$folder/count")}
    done
    if [ "$(cat "$folder/count")" != "$first" ]; then
        echo "$what: $few times make $first allocations, $many times $(cat "$folder/count"): a step takes memory"
        exit 1
    fi
    echo "$what: $few times make $first allocations, and $many times as many: no step takes memory"
}
count step 1000 500000 "a call with its end"
count kinds 10 20000 "a round of steps of each kind, each with the answers that it gets while there is room"
# What a host carries out but once: 100 hosts are made each time, on so many of which it is carried out.
count dropped 10 100 "on a host of its own: two queued callers are dropped, and resume, one of them on the halted host"
count quit 10 100 "on a host of its own: quits that are misuse, those of all tasks, and what a task gets that has quit"
count halted 10 100 "on a host of its own: the halt, what it keeps out, and the ends of the bodies under way"
count resumed 10 100 "on a host of its own: the halt, and resumes of those whose wait is over and of one whose isn't"
count full 10 100 "on a host of its own: bodies until a start is full, what else is full then, and what still has room"
