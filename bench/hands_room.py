"""The room that a run keeps for its operator's list changes (`run --operator-room`), and what is told where it doesn't."""
import re
import subprocess
import time
from typing import Any

SECONDS = 240
CLOCK = """with Ada.Real_Time;
package {name} is
   task T with Priority => 5;
end {name};
package body {name} is
   task body T is
      X : Ada.Real_Time.Time := Ada.Real_Time.Clock;
   begin
      loop
         X := Ada.Real_Time.Clock;
      end loop;
   end T;
end {name};
"""


def script(capacity: int, units: int, lists: str = "@list\nallow * * *\n") -> bytes:
    """So many units that read the clock for ever, in a journal of a capacity."""
    return (f"@host.toml\ncapacity = {capacity}\nbudget = 1000000\n" + "".join("@unit\n" + CLOCK.format(name=f"Evil{number}") for number in range(units)) + lists + "@run\n").encode()


# What 100 entries for each of so many units of a task, a list and so many list changes need.
def needed(units: int, kept: int, lists: int = 1) -> int:
    return 3 * 100 * units + units + units + lists + kept + 1


def behind_all(hands: Any, words: list[str], sections: bytes, commands: bytes, spent: int) -> subprocess.CompletedProcess[bytes]:
    """What a run prints whose commands come once its units have spent so many entries in all, which is all that they may."""
    journal = hands.folder / "spent.journal"
    journal.unlink(missing_ok=True)
    with subprocess.Popen([hands.launcher, *words, "--journal", journal], stdin=subprocess.PIPE, stdout=subprocess.PIPE, stderr=subprocess.PIPE) as run:
        assert run.stdin
        run.stdin.write(sections)
        run.stdin.flush()
        until = time.monotonic() + SECONDS
        while time.monotonic() < until and not (journal.exists() and journal.read_bytes().count(b".T clock") >= spent):
            time.sleep(0.1)
        out, told = run.communicate(commands, timeout=SECONDS)
    return subprocess.CompletedProcess(words, run.returncode, out, told)


def room_that_is_kept(hands: Any) -> None:
    """A run whose capacity doesn't hold its quotas and the operator's room starts nothing; one that just holds them takes all list changes that are kept."""
    for units, kept in ((1, 1), (3, 64), (2, 512)):
        least = needed(units, kept)
        words = ["run", "--quota", "100", *(["--operator-room", str(kept)] if kept != 64 else [])]
        small = hands.asked(words, script(least - 1, units) + b"quit\n")
        hands.due(f"a capacity that is one too small for {units} units and {kept} changes", (small.returncode, small.stdout) == (1, b""), small)
        hands.due(f"and told ({units} units)", f" come to {least:,} entries; the capacity is {least - 1:,}\n".encode() in small.stderr, small.stderr)
        changes = b"append deny Elsewhere * *\nremove 2\n" * (kept // 2) + b"append deny Elsewhere * *\n" * (kept % 2)
        done = behind_all(hands, words, script(least, units), changes + b"quit\n", 100 * units)
        hands.due(f"the least capacity for {units} units takes {kept} changes", done.returncode == 0 and done.stdout.startswith(b"accepted 0\n" * kept), (done.returncode, done.stdout[-200:], done.stderr))
        spent = [b"quota: Evil%d has spent its 100 entries; what it asks behind them is answered full" % number for number in range(units)]
        hands.due(f"who has spent its quota is told without notes ({units} units)", all(line in done.stderr for line in spent), done.stderr)
    whole = hands.asked(["run", "--quota", "100"], script(needed(1, 64, 2), 1, "@list\nallow * * *\n@list\ndeny A * *\n") + b"quit\n")
    hands.due("each list of the sections counts", whole.returncode == 0, whole)
    whole = hands.asked(["run", "--quota", "100"], script(needed(1, 64, 2) - 1, 1, "@list\nallow * * *\n@list\ndeny A * *\n") + b"quit\n")
    hands.due("and one entry fewer is too small", whole.returncode == 1, whole)


def ticks_that_leave_room(hands: Any) -> None:
    """A clock that is followed stands still where more ticks would leave less than is kept, which a note says once; list changes go on."""
    with subprocess.Popen([hands.launcher, "run", "--quota", "100", "--operator-room", "8", "--tick", "1", "--notes", "always"], stdin=subprocess.PIPE, stdout=subprocess.PIPE,
                          stderr=subprocess.PIPE) as run:
        assert run.stdin and run.stdout and run.stderr
        run.stdin.write(script(needed(1, 8) + 20, 1))
        run.stdin.flush()
        said = b""
        while b"the clock stands still" not in said:
            line = run.stderr.readline()
            assert line, said
            said += line
        out, told = run.communicate(b"append deny A * *\n" * 8 + b"journal 1\nquit\n", timeout=SECONDS)
    hands.due("eight list changes behind the last tick", (run.returncode, out.startswith(b"accepted 0\n" * 8)) == (0, True), (run.returncode, out[:200]))
    hands.due("it is told once", (said + told).count(b"the clock stands still") == 1, said + told)
    entries = re.search(rb"^entries (\d+)$", out, re.MULTILINE)
    hands.due("the ticks are those that fit", entries is not None and int(entries.group(1)) <= needed(1, 8) + 20, out[-100:])


def commands_that_leave_less(hands: Any) -> None:
    """A load that leaves less than is kept is answered full, and loads nothing; ticks that do are told before they are answered."""
    unit = CLOCK.format(name="More").encode()
    commands = b"load\n" + unit + b"@end\ntick 5\nappend deny A * *\njournal 1\nquit\n"
    for least, (answer, count) in ((needed(2, 64) - 1, (b"full\n", 1)), (needed(2, 64), (b"accepted 0\n", 0))):
        for notes in ("always", "never"):
            done = hands.asked(["run", "--quota", "100", "--notes", notes], script(least, 1) + commands)
            hands.due(f"a load in a capacity of {least} with --notes {notes}", done.stdout.startswith(answer + b"accepted 0\naccepted 0\n"), done.stdout[:200])
            hands.due(f"its unit is loaded or not (capacity {least}, --notes {notes})", done.stdout.count(b"operator load More ->") == 1 - count, done.stdout[-300:])
            told = done.stderr.count(b"note: this load is answered full: three times the quota of 100 for each of 2 units, ")
            hands.due(f"it is told (capacity {least}, --notes {notes})", told == (count if notes == "always" else 0), done.stderr)
    done = hands.asked(["run", "--quota", "100", "--notes", "always"], script(needed(1, 64), 1) + b"tick 5\nquit\n")
    hands.due("ticks that leave less are told", done.stderr.count(b"note: less room is kept for list changes behind this tick: ") == 1, done.stderr)
    ample = hands.asked(["run", "--quota", "100", "--notes", "always"], script(4096, 1) + commands)
    hands.due("where they leave enough nothing is told", b"note: " not in ample.stderr, ample.stderr)


# A unit with a protected object, which a task calls.
CALLS = """package {name} is
   protected Box with Priority => 20 is
      procedure Poke;
   end Box;
   task T with Priority => 5;
end {name};
package body {name} is
   protected body Box is
      procedure Poke is
      begin
         null;
      end Poke;
   end Box;
   task body T is
   begin
      Box.Poke;
   end T;
end {name};
"""


def least_lasting(units: int) -> int:
    """The least capacity of a run that lasts with so many units of a task and a protected object each: the halt, what each task owes, an entry, and an archive."""
    return 1 + units * (1 + max(min(units, 16), 2)) + 2


def lasting_units(capacity: int, units: int) -> bytes:
    return (f"@host.toml\ncapacity = {capacity}\n" + "".join("@unit\n" + CALLS.format(name=f"Unit{number}") for number in range(units)) + "@list\nallow * * *\n@run\n").encode()


def loads_while_a_run_lasts(hands: Any) -> None:
    """In a run that lasts a load is answered full where the capacity isn't enough with its unit; before it all units of the script count, also those that no room
    was left for."""
    unit = b"load\n" + CALLS.format(name="More").encode() + b"@end\n"
    for number, (capacity, answer) in enumerate(((least_lasting(4) - 1, b"full\n"), (least_lasting(4), b"accepted 0\n"))):
        words = ["run", "--lasting", "--notes", "always", "--journal", str(hands.folder / f"lasting{number}.journal")]
        done = hands.asked(words, lasting_units(capacity, 3) + unit + b"tick 1\nquit\n")
        hands.due(f"a load while a run of capacity {capacity} lasts", (done.returncode, done.stdout.startswith(answer + b"accepted 0\n")) == (0, True), done)
        told = b"note: this load is answered full: --lasting takes a capacity of %d or more for these units, " % least_lasting(4)
        hands.due(f"and told, where it isn't let in (capacity {capacity})", (told in done.stderr) == (answer == b"full\n"), done.stderr)
    for capacity in (16, least_lasting(9) - 1):
        journal = hands.folder / f"crowded{capacity}.journal"
        done = hands.asked(["run", "--lasting", "--journal", str(journal)], lasting_units(capacity, 9) + b"quit\n")
        hands.due(f"nine units in a capacity of {capacity}", (done.returncode, done.stdout) == (1, b""), done)
        hands.due(f"are all counted (capacity {capacity})", f"takes a capacity of {least_lasting(9)} or more for these units".encode() in done.stderr, done.stderr)
    done = hands.asked(["run", "--lasting", "--journal", str(hands.folder / "roomy.journal")], lasting_units(least_lasting(9), 9) + b"quit\n")
    hands.due("and the least capacity is enough", done.returncode == 0, done)


def words_that_are_vain(hands: Any) -> None:
    """A quota that says nothing, a number below 0, an empty script, and a stream that fails, each told."""
    for words, why in ((["audit", "--quota", "9"], b"'--quota <N>' needs '--explain'"), (["run", "--operator-room", "9"], b"'--operator-room <K>' needs '--quota <N>'"),
                       (["run", "--grace", "-5"], b"  tip: no flag takes a number below 0\n")):
        done = hands.asked(words, b"")
        hands.due(f"{words}", done.returncode == 2 and why in done.stderr and b"use '-- -5'" not in done.stderr, done)
    empty = hands.folder / hands.file("empty", b"")
    for words in (["play"], ["check"], ["run"]):
        done = hands.asked([*words, str(empty), "--notes", "always"], b"")
        hands.due(f"{words} of an empty file", b" is empty\n" in done.stderr, done)
    done = hands.asked(["play"], b"@list\nallow * * *\n", streams=">/dev/full")
    hands.due("a full output is named", (done.returncode, b"ravenhost: standard output" in done.stderr) == (4, True), done)


ROOM_CASES = (room_that_is_kept, ticks_that_leave_room, commands_that_leave_less, loads_while_a_run_lasts, words_that_are_vain)
