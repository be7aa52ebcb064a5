#!/usr/bin/env python3
"""Plays scripts whose journal grows past the capacity, since the operator archives all entries between the requests of four tasks, and
audits what they wrote: of 200,000 requests and of ten times as many. The same with changes of a line of the list in place of requests,
20,000 and ten times as many: lists that no entry needs any more are to take no memory. Fails where a request is refused for want of
room, where an audit doesn't say that all entries are legal, or where the longer one takes over 1 MiB more memory at its most; `play`
keeps its script, so there the script's growth counts four times beside. It needs a program: the proved one, or the one that is named.

    bench/archives.py [PROGRAM]
"""
import os
import subprocess
import sys
import tempfile
from pathlib import Path

TOP = Path(__file__).resolve().parents[1]
CAPACITY = 4096
TASKS = 4
BY_ROUND = 250  # acts of a task between two archives
MIB = 1024  # getrusage tells KiB


def text_of(rounds: int) -> str:
    """The sections of a script with so many rounds, each of all tasks, with an archive of all entries behind it."""
    tasks = [f"T{number}" for number in range(1, TASKS + 1)]
    bodies = "".join(f"   task body {task} is\n   begin\n      loop\n         Box.Put (1);\n      end loop;\n   end {task};\n" for task in tasks)
    unit = "package P is\n   protected Box is\n      procedure Put (N : in Integer);\n   private\n      X : Integer := 0;\n   end Box;\n" \
        + "".join(f"   task {task};\n" for task in tasks) + "end P;\npackage body P is\n   protected body Box is\n" \
        + "      procedure Put (N : in Integer) is\n      begin\n         X := N;\n      end Put;\n   end Box;\n" + bodies + "end P;\n"
    steps, entries = [], 2
    for _ in range(rounds):
        steps += [f"P.{task} go {BY_ROUND}" for task in tasks]
        entries += TASKS * BY_ROUND
        steps.append(f"operator archive {entries}")
        entries += 1
    return f"@host.toml\ncapacity = {CAPACITY}\nbudget = 1000000\n@unit\n{unit}@list\nallow * * *\n@steps\n" + "\n".join(steps) + "\n"


def changes_of(rounds: int) -> str:
    """The sections of a script with so many rounds, each of changes of lines of a list of eight, with an archive of all entries behind it."""
    unit = "package P is\n   protected Box is\n      procedure Put (N : in Integer);\n   private\n      X : Integer := 0;\n   end Box;\nend P;\n" \
        + "package body P is\n   protected body Box is\n      procedure Put (N : in Integer) is\n      begin\n         X := N;\n      end Put;\n" \
        + "   end Box;\nend P;\n"
    steps, entries = [], 2
    for number in range(rounds):
        steps += [f"operator replace {1 + change % 8} {('allow', 'deny')[(number + change) % 2]} U{change} * *" for change in range(BY_ROUND)]
        entries += BY_ROUND
        steps.append(f"operator archive {entries}")
        entries += 1
    lines = "\n".join(f"allow L{line} * *" for line in range(8))
    return f"@host.toml\ncapacity = {CAPACITY}\n@unit\n{unit}@list\n{lines}\n@steps\n" + "\n".join(steps) + "\n"


def done(command: list[str], script: Path, output: Path) -> tuple[int, int]:
    """The status of a command, and the most memory that it had, in KiB."""
    with script.open("rb") as given, output.open("wb") as told:
        child = subprocess.Popen(command, stdin=given, stdout=told)
        _, status, usage = os.wait4(child.pid, 0)
    return os.waitstatus_to_exitcode(status), usage.ru_maxrss


def main() -> int:
    if len(sys.argv) > 2:
        print(__doc__, file=sys.stderr)
        return 2
    program = sys.argv[1] if sys.argv[1:] else str(TOP / "crates/ravenhost/out/ravenhost")
    if not Path(program).exists():
        print(f"bench/archives.py: there is no {program}", file=sys.stderr)
        return 127
    faults = 0
    cases = [("requests", text_of, TASKS * BY_ROUND, (200_000, 2_000_000)), ("list changes", changes_of, BY_ROUND, (20_000, 200_000))]
    with tempfile.TemporaryDirectory() as folder:
        script, plant, journal, verdict = (Path(folder) / name for name in ("script", "plant", "journal", "verdict"))
        for what, text_with, by_round, counts in cases:
            peaks, lengths = [], []
            for count in counts:
                rounds = count // by_round
                text = text_with(rounds)
                script.write_text(text)
                plant.write_text(text[:text.index("@list\n")])
                entries = 2 + count + rounds
                played = done([program, "play", "--all"], script, journal)
                with journal.open("rb") as lines:
                    wrong = sum(1 for line in lines if line.startswith(b"- "))
                audited = done([program, "audit", "--journal", str(journal)], plant, verdict)
                said = verdict.read_text().strip()
                right = played[0] == 0 and not wrong and audited[0] == 0 and said == f"legal {entries} entries"
                faults += not right
                peaks.append((played[1], audited[1]))
                lengths.append(len(text))
                print(f"{count} {what}: play {played[1] / MIB:.1f} MiB, audit {audited[1] / MIB:.1f} MiB, {said}, {wrong} refused")
            kept = 4 * (lengths[1] - lengths[0]) / MIB
            for (short, long), command, more in zip(zip(*peaks), ("play", "audit"), (kept, 0)):
                if long > short + MIB + more:
                    faults += 1
                    print(f"{command}: {(long - short) / MIB:.1f} MiB more for ten times as many {what}")
    print(f"{faults} faults")
    return 1 if faults else 0


if __name__ == "__main__":
    sys.exit(main())
