#!/usr/bin/env python3
"""Looks at the address space and the resident memory of `ravenhost run`, as Linux tells them, and ends with 1 where they are more than
is wanted.

    bench/actors_memory.py [PROGRAM]    the program is crates/ravenhost/out/ravenhost where none is named

A run of 74 actors, which are 64 tasks and ten lines, beside one without an actor: the address space (VmSize, and at most VmPeak) is to be at
most 1 GiB more. All tasks have called a body of some statements, each line was raised once, and all actors are alive when it is looked at. The
same with one actor, for what an actor takes.

A run of 16 tasks whose texts are among the deepest that may be written (`deepest_texts.py`): each calls through its 16 objects to the
deepest body and back, then waits, so that all have touched their stacks. What is resident (VmHWM) is to be at most 256 MiB, and what the
same texts take whose tasks only wait is told beside. Needs /proc.
"""
import os
import re
import subprocess
import sys
import time

import deepest_texts

TOP = os.path.dirname(os.path.dirname(os.path.abspath(__file__)))
LIMIT = 300  # seconds
PAGE = "bad command\n"  # the answer to a word that is no command
TASKS, LINES, DEEP = 64, 10, 16
WAITS = "delay until Clock + Milliseconds (1000000);"
DEEPEST = {name: text for name, text in deepest_texts.texts() if name in ("form_most", "place_declaration", "mixed_forms_and_statements", "procedures")}


def plant(tasks, lines):
    """A unit with an object that so many tasks call, each of which then waits, and handlers of so many lines."""
    handlers = "".join(f"      procedure Ring_{k} with Attach_Handler => Int_{k};\n" for k in range(lines))
    rings = "".join(f"      procedure Ring_{k} is begin Count := Count + 1; end Ring_{k};\n" for k in range(lines))
    declared = "".join(f"   task T{k} with Priority => 5;\n" for k in range(tasks))
    bodies = "".join(f"   task body T{k} is\n   begin\n      Tank.Put (3);\n      {WAITS}\n   end T{k};\n" for k in range(tasks))
    return ("@host.toml\ncapacity = 4096\n@unit\nwith Ada.Real_Time; use Ada.Real_Time;\nwith Ada.Interrupts.Names; use Ada.Interrupts.Names;\npackage Plant is\n"
            "   protected Tank with Interrupt_Priority => 40 is\n      procedure Put (N : in Integer);\n" + handlers + "   private\n      Count : Integer := 0;\n   end Tank;\n" + declared
            + "end Plant;\npackage body Plant is\n   protected body Tank is\n      procedure Put (N : in Integer) is\n      begin\n         for Turn in 1 .. N loop\n"
            "            Count := Count + (Turn * 2 - 1) mod 7;\n         end loop;\n      end Put;\n" + rings + "   end Tank;\n" + bodies + "end Plant;\n@list\nallow * * *\n@run\n")


def deep(text, is_called):
    """Units of 16 tasks with this text, which call all through it, or don't, and then wait."""
    units = []
    for number in range(1, DEEP + 1):
        # (without a suspension object that none of these uses: 16 units of 16 objects are all that a host has)
        unit = re.sub(r"\bP\b", f"P{number}", text.unit.replace("   Lamp : Suspension_Object;\n", ""))
        head, begin, tail = unit.rpartition("begin ")
        call, end = tail.split(" end T;", 1)
        units.append(f"@unit\n{head}{begin}{call if is_called else ''} {WAITS} end T;{end}")
    return "".join(units) + "@list\nallow * * *\n@run\n"


def sizes(process):
    """What /proc says of a process, in bytes."""
    with open(f"/proc/{process}/status", encoding="ascii") as status:
        return {name: int(count) * 1024 for name, count in re.findall(r"^(Vm\w+|Threads):\s+(\d+)", status.read(), re.M)}


def seen(program, script, commands, is_there):
    """What a run takes once its journal has what is wanted; it has to end with 0."""
    checked = subprocess.run([program, "check", "--script"], input=script, capture_output=True, text=True, check=False)
    if checked.returncode:
        sys.exit(f"bench/actors_memory.py: a script of its own is refused: {checked.stderr[-400:]}")
    run = subprocess.Popen([program, "run"], stdin=subprocess.PIPE, stdout=subprocess.PIPE, stderr=subprocess.PIPE, text=True)
    until, journal = time.monotonic() + LIMIT, ""
    run.stdin.write(script + commands)
    is_first = True
    while is_first or not is_there(journal):
        if time.monotonic() > until or run.poll() is not None:
            run.kill()
            sys.exit(f"bench/actors_memory.py: what is wanted didn't come: {journal[-400:]} {run.communicate()[1][-400:]}")
        time.sleep(0 if is_first else 0.1)
        page, is_first = ".", False
        while page:
            run.stdin.write(f"journal {journal.count(chr(10)) + 1}\nmark\n")
            run.stdin.flush()
            page = ""
            while (line := run.stdout.readline()) not in (PAGE, ""):
                page += line if re.match(r"\d+ \S", line) else ""
            journal += page
    found = sizes(run.pid)
    run.stdin.write("quit\n")
    run.stdin.close()
    status = run.wait(LIMIT)
    if status:
        sys.exit(f"bench/actors_memory.py: status {status}: {run.stderr.read()[-400:]}")
    return found


def mib(count):
    return f"{count / 1048576:.1f} MiB"


def main():
    if len(sys.argv) > 2 or sys.argv[1:2] in (["-h"], ["--help"]):
        print(__doc__, file=sys.stderr)
        return 2
    program = os.path.abspath(sys.argv[1]) if sys.argv[1:] else os.path.join(TOP, "crates/ravenhost/out/ravenhost")
    if not os.access(program, os.X_OK):
        print(f"bench/actors_memory.py: there is no program {program}", file=sys.stderr)
        return 127
    missed, found = [], {}
    for tasks, lines in ((0, 0), (1, 0), (TASKS, LINES)):
        raised = "".join(f"raise {k}\n" for k in range(lines))
        found[tasks + lines] = seen(program, plant(tasks, lines), raised, lambda text: text.count(" -> delayed") == tasks and len(re.findall(r"Int_\d end .* -> done", text)) == lines)
        of = found[tasks + lines]
        print(f"{tasks + lines} actors: {mib(of['VmSize'])} of address space, {mib(of['VmPeak'])} at most; {mib(of['VmRSS'])} resident, {mib(of['VmHWM'])} at most", flush=True)
    size, most, resident = (found[TASKS + LINES][name] - found[0][name] for name in ("VmSize", "VmPeak", "VmRSS"))
    more = max(size, most)
    print(f"{TASKS + LINES} actors take {mib(size)} of address space, {mib(most)} at most (1 GiB), and {mib(resident)} of resident memory more than none")
    if more > 1 << 30:
        missed.append("address space")
    for name, text in DEEPEST.items():
        waits, calls = (seen(program, deep(text, is_called), "", lambda journal: journal.count(" -> delayed") == DEEP) for is_called in (False, True))
        print(f"{DEEP} tasks of {name}: {mib(calls['VmRSS'])} resident, {mib(calls['VmHWM'])} at most (256 MiB); whose tasks only wait: {mib(waits['VmRSS'])}, {mib(waits['VmHWM'])} at most", flush=True)
        if calls["VmHWM"] > 256 << 20:
            missed.append(name)
    print(f"{len(missed)} are more than is wanted{': ' + ', '.join(missed) if missed else ''}")
    return 1 if missed else 0


if __name__ == "__main__":
    sys.exit(main())
