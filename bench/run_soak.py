"""What bench/run_soak.sh runs: see there."""
import random
import re
import subprocess
import sys
import tempfile
import time

from run_pipe import Run, expect, expect_that, faults, numbered, ticks_in

MOST_TICKS = 3000  # so that the script that replays the journal is no longer than a script may be
TEAMS = "ABCD"
TASKS = 8
LOADS = 50
SEED = 16
LINES = 4
SLOWEST = 10  # the longest that an answer may take, in seconds
MOST_SCRIPT = 16 * 1024 * 1024  # the longest script, in bytes
LAG = 5  # how many periods of a real clock a task may be behind it
MOST_BYTES = 200  # how much memory may grow an entry: the journal's, which is reserved, comes into use as it fills

PLANT = """with Ada.Synchronous_Task_Control; with Ada.Interrupts.Names;
package P is
   R : Ada.Synchronous_Task_Control.Suspension_Object;
   protected V with Priority => 20 is
      function G return Integer;
      procedure S (N : in Integer);
      entry W (N : out Integer);
   private
      Open : Boolean := False;
      X    : Integer := 0;
   end V;
   protected L with Interrupt_Priority => 40 is
      function G return Integer;
%s   private
      X : Integer := 0;
   end L;
end P;
package body P is
   protected body V is
      function G return Integer is begin return X; end G;
      procedure S (N : in Integer) is
      begin
         X := (X + N) mod 1000; Open := X mod 3 = 0;
      end S;
      entry W (N : out Integer) when Open is
      begin
         N := X; Open := False;
      end W;
   end V;
   protected body L is
      function G return Integer is begin return X; end G;
%s   end L;
end P;
""" % ("".join(f"      procedure H{k} with Attach_Handler => Ada.Interrupts.Names.Int_{k};\n" for k in range(LINES)),
       "".join(f"      procedure H{k} is begin X := (X + {k + 1}) mod 1000; end H{k};\n" for k in range(LINES)))

ACTION = """   protected body O is
      procedure G (K : in Integer) is
         Y : Integer;
      begin
         case K is
            when 1 | 4 => Y := P.V.G;
            when 2 | 6 => Y := P.L.G;
            when others => P.V.S (K + 1);
         end case;
      exception
         when others => null;
      end G;
   end O;
"""
PACED = """   task body T%d is
      T : Ada.Real_Time.Time := Ada.Real_Time.Clock;
   begin
      loop
         %s
         T := T + Ada.Real_Time.Milliseconds (%d);
         delay until T;
      end loop;
   end T%d;
"""
WAITING = """   task body T7 is
      Y : Integer;
   begin
      loop
         %s
      end loop;
   end T7;
"""


def team(name, pace):
    """Eight tasks that act once a pace of ticks on an object of their own, whose body calls the plant. The last task of A waits in
    the plant's entry, that of B on its suspension object, which that of C sets."""
    specs = "".join(f"   task T{n} with Priority => {10 + n};\n" for n in range(TASKS))
    bodies = "".join(PACED % (n, f"O.G ({n});", pace, n) for n in range(TASKS - 1))
    set_true = "Ada.Synchronous_Task_Control.Set_True (P.R);"
    wait = "Ada.Synchronous_Task_Control.Suspend_Until_True (P.R);"
    bodies += {"A": WAITING % "P.V.W (Y);", "B": WAITING % wait, "C": PACED % (7, set_true, pace, 7)}.get(name, PACED % (7, "O.G (7);", pace, 7))
    return (f"with Ada.Real_Time; with Ada.Synchronous_Task_Control; with P;\npackage {name} is\n   protected O with Priority => 18 is\n"
            f"      procedure G (K : in Integer);\n   end O;\n{specs}end {name};\npackage body {name} is\n{ACTION}{bodies}end {name};\n")


def guest(number):
    """A unit that is loaded while others run: each second one has a task, which calls the plant and ends."""
    task, body = ("   task T;\n", "   task body T is Y : Integer; begin Y := P.V.G; O.G; end T;\n") if number % 2 else ("", "")
    return (f"with P;\npackage N{number} is\n   protected O is\n      procedure G;\n   private\n      X : Integer := 0;\n   end O;\n{task}"
            f"end N{number};\npackage body N{number} is\n   protected body O is\n      procedure G is begin X := X + 1; end G;\n   end O;\n"
            f"{body}end N{number};\n")


def memory(process):
    """The memory that the process has in use, in KiB."""
    with open(f"/proc/{process.pid}/status") as status:
        return int(re.search(r"VmRSS:\s+(\d+)", status.read())[1])


class Soak:
    def __init__(self, program, seconds, words, follows=0):
        self.seconds, self.random, self.follows = seconds, random.Random(SEED), follows
        self.texts = {"P": PLANT, **{name: team(name, follows or 1) for name in TEAMS}}
        script = "@host.toml\ncapacity = 1048576\nbudget = 1000000\n"
        script += "".join("@unit\n" + text for text in self.texts.values()) + "@list\nallow * * *\n@run\n"
        self.run = Run(program, script, words=words)
        self.denied = self.loaded = self.ticks = 0
        self.raised = [0] * LINES
        self.slowest = 0.0
        self.memory = []

    def ask(self, command):
        start = time.monotonic()
        answer = self.run.ask(command)
        self.slowest = max(self.slowest, time.monotonic() - start)
        return answer

    def change_list(self):
        """A right taken away, or given back."""
        if self.denied and self.random.random() < 0.6:
            expect("remove", self.ask("remove 2"), "accepted 0")
            self.denied -= 1
            return
        operation = self.random.choice(["P.V S", "P.V G", "P.L G", "P.V *" if self.denied == 0 else "P.L *"])
        subject = self.random.choice("BCD")
        expect("append", self.ask(f"append deny {subject} {operation}"), "accepted 0")
        self.denied += 1

    def load(self):
        self.loaded += 1
        name, text = f"N{self.loaded}", guest(self.loaded)
        self.texts[name] = text
        self.run.send("load\n" + text)
        expect("load", self.ask("@end"), "accepted 0")

    def drive(self):
        ticks = min(MOST_TICKS, max(100, int(self.seconds * 50)))
        pause, start = self.seconds / ticks, time.monotonic()
        for tick in range(1, ticks + 1):
            if not self.follows:
                expect("tick", self.ask("tick 1"), "accepted 0")
            line = self.random.randrange(LINES)
            expect("raise", self.ask(f"raise {line}"), "raised")
            self.raised[line] += 1
            if self.random.random() < 0.1:
                self.change_list()
            if self.loaded < LOADS * tick // ticks:
                self.load()
            if tick % max(1, ticks // 20) == 0:
                self.memory.append(memory(self.run.process))
            if faults:
                return
            time.sleep(max(0.0, start + tick * pause - time.monotonic()))
        self.ticks = ticks

    def settle(self, start):
        """Waits until the journal doesn't grow any more. Gives its lines from this one on."""
        lines, still = [], 0
        while still < 20:
            pages = self.run.pages(start + len(lines))
            still = 0 if pages else still + 1
            lines += pages
            if not pages:
                time.sleep(0.1)
        return lines


def steps_of(journal, texts):
    """A script whose steps are the entries of a journal, in their order."""
    opened = None
    for line in journal:
        _, actor, rest = line.split(" ", 2)
        request = rest.rsplit(" -> ", 1)[0]
        if request.startswith("load "):
            opened = None
            yield "@unit\n" + texts[request[5:]]
        elif request.startswith("list ["):
            opened = None
            yield "@list\n" + "".join(row + "\n" for row in request[6:-1].split("; ") if row)
        else:
            if not opened:
                opened = True
                yield "@steps\n"
            yield f"{actor} {request}\n"


def replayed(program, journal, texts):
    """Whether `play` prints the same journal."""
    script = "@host.toml\ncapacity = 1048576\n" + "".join(steps_of(journal, texts))
    print(f"replay: {len(script.encode())} bytes of script")
    if len(script.encode()) > MOST_SCRIPT:
        print("which is longer than a script may be: the audit alone judges it")
        return
    done = subprocess.run([program, "play"], input=script.encode(), stdout=subprocess.PIPE, stderr=subprocess.PIPE)
    lines = done.stdout.decode().splitlines()
    expect("play of the journal", (done.stderr.decode(), done.returncode), ("", 0))
    for mine, due in zip(journal, lines):
        if mine != due:
            expect("an entry", mine, due)
            return
    expect("entries replayed", len(lines), len(journal))


def judged(program, journal, texts):
    """Whether `audit` finds the journal legal, with all its entries, and the end of each body what its text means."""
    script = "@host.toml\ncapacity = 1048576\n" + "".join("@unit\n" + text for text in texts.values())
    with tempfile.NamedTemporaryFile("w", encoding="utf-8") as file:
        file.writelines(line + "\n" for line in journal)
        file.flush()
        done = subprocess.run([program, "audit", "--explain", "--journal", file.name], input=script.encode(), stdout=subprocess.PIPE, stderr=subprocess.PIPE)
    said = (done.stdout.decode(), done.stderr.decode(), done.returncode)
    legal, _, ends = said[0].partition("\n")
    expect("audit of the journal", (legal, *said[1:]), (f"legal {len(journal)} entries", "", 0))
    expect("ends of bodies", re.sub(r"\d+", "N", ends), "ends N explained\n")
    print(f"audit: {legal}; {ends.strip()}")


def all_went_on(journal, ticks):
    """Each paced task acted to the end: it delayed to a time past so many ticks. So did those that wait: the one in the entry was woken
    in the last twentieth of the journal, and the one on the suspension object behind the last Set_True. (Beside other work the ticks
    may be over before most tasks have caught up.)"""
    last = {}
    for line in journal:
        if " delay " in line:
            actor, request = line.split(" ", 2)[1:]
            last[actor] = int(request.split(" ")[1])
    expect("tasks that delay", len(last), len(TEAMS) * TASKS - 2)
    for actor, until in last.items():
        expect_that(f"{actor} stalled", until > ticks, f"its last delay is to {until} of {ticks}")
    last_set = max((number for number, line in enumerate(journal, 1) if " C.T7 call P.R Set_True -> accepted" in line), default=len(journal))
    for actor, due in (("A.T7", len(journal) * 19 // 20), ("B.T7", last_set)):
        woken = [number for number, line in enumerate(journal, 1)
                 if f" {actor} resume -> woken" in line or f" {actor} call P.R Suspend_Until_True -> accepted" in line]
        expect_that(f"{actor} stalled", woken and woken[-1] > due, f"it was woken {len(woken)} times, at last by entry {woken[-1:]}, due behind {due} of {len(journal)}")


def all_fired(journal, raised):
    """Each line fired as often as it was raised."""
    for line, due in enumerate(raised):
        expect(f"how often Int_{line} fired", sum(f" Int_{line} fire -> started" in entry for entry in journal), due)


def main():
    seconds, program, file = float(sys.argv[1]), sys.argv[2], sys.argv[3] if len(sys.argv) > 3 else None
    follows = int(sys.argv[4]) if len(sys.argv) > 4 else 0
    words = (*(("--journal", file) if file else ()), *(("--tick", str(follows)) if follows else ()))
    soak = Soak(program, seconds, words, follows)
    first = memory(soak.run.process)
    soak.drive()
    # Where the clock goes on by itself the journal grows to the halt.
    before = [] if follows else soak.settle(1)
    expect("halt", soak.ask("halt"), "accepted 0")
    journal = before + soak.settle(len(before) + 1)
    if follows:
        before = journal[:[line.split(" ", 1)[1] for line in journal].index("operator halt -> accepted 0")]
        soak.ticks = sum(ticks_in(before)) - LAG * follows
        expect_that("ticks that follow the clock", sum(ticks_in(before)) > seconds * 1000 - LAG * follows, sum(ticks_in(before)))
    all_went_on(before, soak.ticks)
    all_fired(before, soak.raised)
    last = memory(soak.run.process)
    out, err, status = soak.run.end()
    expect("quit", (out, err, status), (f"entries {len(journal)}\n", "", 0))
    numbered("the journal", journal)
    if file:
        with open(file) as kept:
            expect_that("what stands in the file is the journal", kept.read().splitlines() == journal)
    print(f"{soak.ticks} ticks, {soak.loaded} loads, {len(journal)} entries, of them {sum(' refused ' in line for line in journal)} refusals")
    print(f"the slowest answer took {soak.slowest:.3f} s")
    grown = (soak.memory[-1] - soak.memory[0]) * 1024 // max(1, len(journal)) if soak.memory else 0
    print(f"memory grew by {grown} bytes an entry")
    print(f"memory: {first} KiB at first, {', '.join(map(str, soak.memory))} at each twentieth, {last} at last")
    expect_that("the slowest answer", soak.slowest < SLOWEST, f"{soak.slowest:.3f} s")
    expect_that("the growth of memory", grown < MOST_BYTES, f"{grown} bytes an entry")
    if not faults:
        replayed(program, journal, soak.texts)
        judged(program, journal, soak.texts)
    print(f"{len(faults)} faults")
    return 1 if faults else 0


if __name__ == "__main__":
    sys.exit(main())
