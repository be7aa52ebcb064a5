#!/usr/bin/env python3
"""How many instructions two builds of the program take for the same work, and in what ratio: by callgrind, so to be repeated exactly.

    bench/instructions.py OLD NEW [--only WORD]         rows whose name has WORD

OLD and NEW are programs that were built alike, as the kept trials of two checkouts (crates/ravenhost/out/trial/ravenhost): a trial's
checks of sums and indices are in both. A row's work is done at two sizes; what is told is the difference, for one step, entry, byte
or change. Rows with an exponent tell how the whole grows as the size doubles. The last rows are times: of a new host of 1,048,576
entries, and of the answers of `run --journal` beside four busy tasks. It needs valgrind.
"""
import argparse
import math
import os
import re
import statistics
import subprocess
import sys
import tempfile
import time
from pathlib import Path
from typing import Callable, NamedTuple

PLANT = """@unit
package Plant is
   protected Tank with Priority => 20 is
      procedure Fill (By : in Integer);
      function Seen return Integer;
   private
      Level : Integer := 0;
   end Tank;
   task Pump with Priority => 10;
{tasks}end Plant;

package body Plant is
   protected body Tank is
      procedure Fill (By : in Integer) is
      begin
         if Level > 1000 then
            Level := 0;
         else
            Level := Level + By;
         end if;
      end Fill;

      function Seen return Integer is
      begin
         return Level;
      end Seen;
   end Tank;

   task body Pump is
   begin
      loop
         Tank.Fill (1);
      end loop;
   end Pump;
{bodies}end Plant;
"""
PUMPING = "      loop\n         Tank.Fill (1);\n      end loop;\n"
SHAPE = """@shape
unit Plant
protected Tank 20
scalar 0 1000000 0
procedure Fill in 0 1000
@shape
unit Nav
task Pilot 10
"""
GRANTS = "@list\nallow * * *\n"


def plant(busy: int = 0) -> str:
    """The plant, with so many more tasks that fill its tank, and count to 200 between two calls."""
    names = [f"Busy_{n}" for n in range(busy)]
    return PLANT.format(
        tasks="".join(f"   task {name} with Priority => 10;\n" for name in names),
        bodies="".join(f"\n   task body {name} is\n   begin\n      loop\n         for Turn in 1 .. 200 loop\n            null;\n         end loop;\n"
                       f"         Tank.Fill (1);\n      end loop;\n   end {name};\n" for name in names))


def settings(capacity: int, budget: int = 1_000_000) -> str:
    return f"@host.toml\ncapacity = {capacity}\nbudget = {budget}\n"


def steps_script(calls: int) -> str:
    """A call and its end, so many times."""
    pair = "Nav.Pilot call Plant.Tank Fill {0}\nNav.Pilot end {0} : return\n"
    return settings(1_000_000) + SHAPE + GRANTS + "@steps\n" + "".join(pair.format(n % 1000) for n in range(calls))


def texts_script(requests: int) -> str:
    """What a text asks, so many requests."""
    return settings(1_000_000) + plant() + GRANTS + f"@steps\nPlant.Pump go {requests}\n"


def long_text(lines: int) -> str:
    """A unit text of so many statements, 34 bytes each."""
    parts = "".join(f"            Level := Level + {n % 10} - Other;\n" for n in range(lines))
    return ("@unit\npackage Long is\n   protected Tank is\n      procedure Fill;\n   private\n      Level : Integer := 0;\n      Other : Integer := 0;\n"
            "   end Tank;\nend Long;\n\npackage body Long is\n   protected body Tank is\n      procedure Fill is\n      begin\n"
            + parts + "      end Fill;\n   end Tank;\nend Long;\n")


def varied_text(objects: int) -> str:
    """A unit text of so many objects, with the declarations and statements that people write."""
    heads, bodies = [], []
    for n in range(objects):
        heads.append(f"   protected Valve_{n} with Priority => 20 is\n      procedure Put (Item : in Integer);\n      entry Take (Item : out Integer);\n"
                     f"      function Full return Boolean;\n   private\n      Stored : Integer := 0;\n      Available : Boolean := False;\n   end Valve_{n};\n")
        bodies.append(f"   protected body Valve_{n} is\n      procedure Put (Item : in Integer) is\n         Twice : Integer := Item * 2;\n      begin\n"
                      "         for Turn in 1 .. 3 loop\n            if Twice > Stored and then not Available then\n               Stored := Twice - Turn;\n"
                      "            else\n               Stored := (Stored + Item) / 2;\n            end if;\n         end loop;\n         Available := True;\n"
                      "      end Put;\n\n      entry Take (Item : out Integer) when Available is\n      begin\n         Item := Stored;\n"
                      "         Available := False;\n      end Take;\n\n      function Full return Boolean is\n      begin\n         return Available;\n"
                      f"      end Full;\n   end Valve_{n};\n")
    return "@unit\npackage Varied is\n" + "".join(heads) + "end Varied;\n\npackage body Varied is\n" + "\n".join(bodies) + "end Varied;\n"


def many_units(units: int) -> str:
    """So many units, each checked over all before it, and with the one before."""
    found = []
    for n in range(units):
        withs = f"with Unit_{n - 1};\n" if n else ""
        found.append(f"@unit\n{withs}package Unit_{n} is\n   protected Cell with Priority => 20 is\n      procedure Put (Item : in Integer);\n   private\n"
                     f"      Kept : Integer := 0;\n   end Cell;\n   task Worker with Priority => 10;\nend Unit_{n};\n\npackage body Unit_{n} is\n"
                     "   protected body Cell is\n      procedure Put (Item : in Integer) is\n      begin\n         Kept := Item;\n      end Put;\n   end Cell;\n\n"
                     f"   task body Worker is\n   begin\n      {f'Unit_{n - 1}.' if n else ''}Cell.Put (1);\n   end Worker;\nend Unit_{n};\n")
    return "".join(found)


def local_declarations(count: int) -> str:
    return ("@unit\npackage Long is\n   protected Tank is\n      procedure Fill;\n   private\n      Level : Integer := 0;\n   end Tank;\nend Long;\n\n"
            "package body Long is\n   protected body Tank is\n      procedure Fill is\n" + "".join(f"L{n}:constant Integer:=1;\n" for n in range(count))
            + "      begin\n         Level := L0;\n      end Fill;\n   end Tank;\nend Long;\n")


def chained_constants(count: int) -> str:
    chain = "".join(f"C{n}:constant Integer:={f'C{n - 1}' if n else '7'};\n" for n in range(count))
    return (f"@unit\npackage Long is\n{chain}   protected Tank is\n      procedure Fill;\n   private\n      Level : Integer := C{count - 1};\n   end Tank;\nend Long;\n\n"
            "package body Long is\n   protected body Tank is\n      procedure Fill is\n      begin\n         Level := 1;\n      end Fill;\n   end Tank;\nend Long;\n")


def shapes_of_64() -> str:
    """64 units of four objects each."""
    return "".join(f"@shape\nunit Unit_{n}\ntask Worker 10\n" + "".join(f"protected Cell_{k} 20\nscalar 0 9 0\nprocedure Put in 0 9\nfunction Get 0 9\n" for k in range(4))
                   for n in range(64))


def lines_of_512(verb: str) -> str:
    """A list of 512 lines over these units."""
    return "@list\n" + "".join(f"{verb} Unit_{n % 64} Unit_{(n * 7) % 64}.Cell_{n % 4} Put\n" for n in range(512))


def changes_script(changes: int, window: str = "") -> str:
    """One line of 512 changed, so many times, over 64 units of four objects each."""
    asked = "".join(f"operator replace 256 {('deny', 'allow')[n % 2]} Unit_3 Unit_9.Cell_1 Put{window}\n" for n in range(changes))
    return settings(4_096) + shapes_of_64() + lines_of_512("allow") + "@steps\n" + asked


def windows_script(changes: int) -> str:
    """The same of a line with a window."""
    return changes_script(changes, " from 5 until 10")


def lists_script(lists: int) -> str:
    """A list of 512 lines set whole, so many times."""
    return settings(4_096) + shapes_of_64() + "".join(lines_of_512(("deny", "allow")[n % 2]) for n in range(lists))


class Programs:
    """Both programs, and where to work."""

    def __init__(self, old: Path, new: Path, folder: Path) -> None:
        self.each, self.folder = (old, new), folder

    def counted(self, program: Path, words: list[str], script: str) -> int:
        """The instructions of a start."""
        out = self.folder / "callgrind.out"
        done = subprocess.run(["valgrind", "--tool=callgrind", f"--callgrind-out-file={out}", program, *words], input=script.encode(), capture_output=True, check=False)
        found = re.search(rb"Collected : (\d+)", done.stderr)
        if not found or b"script line" in done.stderr:
            sys.exit(f"{program} {' '.join(words)}: {done.stderr.decode(errors='replace')[-400:]}")
        return int(found[1])

    def journal(self, script: str) -> str:
        return subprocess.run([self.each[0], "play"], input=script.encode(), capture_output=True, check=True).stdout.decode()


class Row(NamedTuple):
    """Work at two sizes: the words and the script of a size, and what one of it is."""

    name: str
    one: str
    sizes: tuple[int, int]
    work: Callable[[Programs, int], tuple[list[str], str]]
    grows: bool = False


def judged(words: list[str]) -> Callable[[Programs, int], tuple[list[str], str]]:
    def work(programs: Programs, size: int) -> tuple[list[str], str]:
        return words, plant() + "@journal\n" + programs.journal(texts_script(size))
    return work


def asked(words: list[str], script: Callable[[int], str]) -> Callable[[Programs, int], tuple[list[str], str]]:
    return lambda _programs, size: (words, script(size))


ROWS = (
    Row("play, a step", "step", (1_000, 3_000), lambda _p, size: (["play"], steps_script(size // 2))),
    Row("play, a request of a text", "request", (1_000, 3_000), asked(["play"], texts_script)),
    Row("audit, an entry", "entry", (1_000, 3_000), judged(["audit"])),
    Row("audit --explain, an entry", "entry", (1_000, 3_000), judged(["audit", "--explain"])),
    Row("check, a statement", "statement", (1_000, 3_000), asked(["check"], long_text)),
    Row("check, an object of a varied text", "object", (50, 200), asked(["check"], varied_text)),
    Row("check, 64 units, each over all before", "unit", (32, 64), asked(["check"], many_units), True),
    Row("check, local declarations", "declaration", (4_000, 8_000), asked(["check"], local_declarations), True),
    Row("check, chained constants", "constant", (4_000, 8_000), asked(["check"], chained_constants), True),
    Row("one of 512 lines changed", "change", (4, 12), asked(["play"], changes_script)),
    Row("one of 512 lines changed, with a window", "change", (4, 12), asked(["play"], windows_script)),
    Row("a list of 512 lines set whole", "list", (4, 12), asked(["play"], lists_script)),
)


def tell_row(programs: Programs, row: Row) -> None:
    """Prints what one of a row's work takes by both programs."""
    small, large = row.sizes
    per, grown = [], []
    for program in programs.each:
        counts = [programs.counted(program, *row.work(programs, size)) for size in row.sizes]
        per.append((counts[1] - counts[0]) / (large - small))
        empty = programs.counted(program, ["check"], "")
        grown.append(math.log((counts[1] - empty) / (counts[0] - empty), large / small))
    exponents = f"; exponent {grown[0]:.2f} and {grown[1]:.2f}" if row.grows else ""
    print(f"{row.name}: {per[0]:,.0f} and {per[1]:,.0f} instructions for each {row.one}, {per[1] / per[0]:.3f}{exponents}", flush=True)


def running(program: Path, script: str, words: list[str], capacity: int, folder: Path) -> int:
    """The instructions of a run whose task fills the journal."""
    file, out = folder / "run.journal", folder / "callgrind.out"
    file.unlink(missing_ok=True)
    with subprocess.Popen(["valgrind", "--tool=callgrind", f"--callgrind-out-file={out}", program, "run", *words], stdin=subprocess.PIPE,
                          stdout=subprocess.DEVNULL, stderr=subprocess.PIPE) as started:
        assert started.stdin and started.stderr
        started.stdin.write(script.encode())
        started.stdin.flush()
        last = -1
        while file.exists() is False or file.stat().st_size != last or last < capacity * 20:
            last = file.stat().st_size if file.exists() else -1
            time.sleep(1)
        started.stdin.write(b"quit\n")
        started.stdin.close()
        told = started.stderr.read()
    found = re.search(rb"Collected : (\d+)", told)
    return int(found[1]) if found else sys.exit(told.decode(errors="replace")[-400:])


def tell_run(programs: Programs) -> None:
    """Prints what an entry of a task takes in `run --journal`."""
    per = []
    for program in programs.each:
        counts = [running(program, settings(size) + plant() + GRANTS + "@run\n", ["--journal", str(programs.folder / "run.journal"), "--sync", "never"], size, programs.folder)
                  for size in (4_000, 12_000)]
        per.append((counts[1] - counts[0]) / 8_000)
    print(f"run --journal, a task's entry: {per[0]:,.0f} and {per[1]:,.0f} instructions for each entry, {per[1] / per[0]:.3f}", flush=True)


def least(program: Path, script: str, times: int) -> float:
    """The least time of so many starts, in milliseconds of the processor."""
    found = []
    for _ in range(times):
        before = os.times()
        subprocess.run([program, "play"], input=script.encode(), stdout=subprocess.DEVNULL, check=True)
        after = os.times()
        begun = time.monotonic()
        subprocess.run([program, "play"], input=script.encode(), stdout=subprocess.DEVNULL, check=True)
        found.append(min(time.monotonic() - begun, 10 + after.elapsed - before.elapsed))
    return min(found) * 1000


def tell_new_host(programs: Programs) -> None:
    """Prints how long a new host of 1,048,576 entries takes beside one of 16."""
    times = [least(program, settings(1_048_576), 40) - least(program, settings(16), 40) for program in programs.each]
    print(f"a new host of 1,048,576 entries: {times[0]:.2f} and {times[1]:.2f} ms, {times[1] / times[0] if times[0] > 0 else math.nan:.2f} (least of 40)", flush=True)


def waits(program: Path, folder: Path) -> list[float]:
    """How long each of a hundred answers of a busy run took, in milliseconds."""
    file = folder / "busy.journal"
    file.unlink(missing_ok=True)
    found = []
    with subprocess.Popen([program, "run", "--journal", file], stdin=subprocess.PIPE, stdout=subprocess.PIPE, stderr=subprocess.DEVNULL) as started:
        assert started.stdin and started.stdout
        started.stdin.write((settings(1_048_576) + plant(4).replace(PUMPING, "      null;\n", 1) + "@list\nallow * * *\n@run\n").encode())
        for _ in range(100):
            begun = time.monotonic()
            started.stdin.write(b"tick 1\n")
            started.stdin.flush()
            started.stdout.readline()
            found.append((time.monotonic() - begun) * 1000)
            time.sleep(0.002)
        started.stdin.write(b"quit\n")
        started.stdin.close()
        started.stdout.read()
    return sorted(found)


def tell_answers(programs: Programs) -> None:
    """Prints how long answers take beside four busy tasks."""
    for name, program in zip(("old", "new"), programs.each):
        found = waits(program, programs.folder)
        print(f"answers of run --journal beside four busy tasks, {name}: median {statistics.median(found):.2f} ms, 90th {found[89]:.2f}, 99th {found[98]:.2f}, "
              f"longest {found[99]:.2f}", flush=True)


def main() -> int:
    parser = argparse.ArgumentParser(description="Counts instructions of two builds.", usage="bench/instructions.py OLD NEW [--only WORD]")
    parser.add_argument("old", type=Path)
    parser.add_argument("new", type=Path)
    parser.add_argument("--only", metavar="WORD", default="")
    given = parser.parse_args()
    with tempfile.TemporaryDirectory() as folder:
        programs = Programs(given.old.resolve(), given.new.resolve(), Path(folder))
        for row in ROWS:
            if given.only in row.name:
                tell_row(programs, row)
        for name, tell in (("run --journal, a task's entry", tell_run), ("a new host", tell_new_host), ("answers", tell_answers)):
            if given.only in name:
                tell(programs)
    return 0


if __name__ == "__main__":
    sys.exit(main())
