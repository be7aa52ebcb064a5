#!/usr/bin/env python3
"""How often an explanation says what was meant, of errors that a person made by hand.

    bench/errors_by_hand.py [PROGRAM] [--missed]

errors_by_hand.txt has them: in unit texts, lists, settings, steps, commands and shapes of examples/, each with a pattern of what has to
be said. Each script is looked at by `check --script --explain`, and counts where its fault's sentence, or one behind `also:`, has the
pattern. With --missed each other one is shown. Without PROGRAM the proved program of this checkout is asked, else its trial that is kept.
What is drawn, and beside GNAT, is in errors.py. Statuses: 0 done, 1 an error can't be made, or is no fault, 2 usage.
"""
import re
import subprocess
import sys
from collections import Counter
from pathlib import Path

TOP = Path(__file__).resolve().parents[1]
NEW = TOP / "examples" / "new"
BIN = """@unit
package P is
   task Arm with Priority => 12;
   protected Bin is
      procedure Put (N : in Integer);
      entry Take;
   private
      Available : Boolean := False;
      C : Integer := 0;
   end Bin;
end P;
package body P is
   protected body Bin is
      procedure Put (N : in Integer) is
      begin
         if N > 0 then
            C := N;
         elsif N = 0 then
            C := 1;
         end if;
         Available := True;
      end Put;
      entry Take when Available is
      begin
         Available := False;
      end Take;
   end Bin;
   task body Arm is
   begin
      Bin.Put (1);
   end Arm;
end P;
"""


def text(*parts: Path) -> str:
    return "".join(part.read_text(encoding="utf-8") for part in parts)


def scripts() -> dict[str, str]:
    plant = NEW / "plant.raven"
    return {"plant": text(plant), "steps": text(plant, NEW / "steps.raven"), "commands": text(plant, NEW / "commands.raven"),
            "bodies": text(TOP / "examples" / "bodies.raven"), "press": text(TOP / "examples" / "interrupt.raven"),
            "shapes": text(TOP / "examples" / "queue_of_two.raven"), "bin": BIN}


def kind(old: str, whole: str) -> str:
    """The section that the error stands in."""
    if old.startswith("@"):
        return "openings"
    openings = re.findall(r"^@(\S+)", whole[:whole.index(old) + 1], re.M)
    return {"unit": "unit texts", "list": "lists", "host.toml": "settings", "steps": "steps", "run": "commands", "shape": "shapes"}[openings[-1]]


def main() -> int:
    words = [it for it in sys.argv[1:] if it != "--missed"]
    out = TOP / "crates" / "ravenhost" / "out"
    programs = words or [place for place in (out / "ravenhost", out / "trial" / "ravenhost") if place.exists()][:1]
    if len(programs) != 1 or words[:1] == ["--help"]:
        print(__doc__, file=sys.stderr)
        return 2
    whole, faults = scripts(), 0
    made, said = Counter(), Counter()
    for line in (Path(__file__).with_suffix(".txt")).read_text(encoding="utf-8").splitlines():
        if line.startswith("#"):
            continue
        script, old, new, due = line.split("\t")
        old, new = (it.replace("\\n", "\n") for it in (old, new))
        if old not in whole[script]:
            print(f"{script} has no {old!r}")
            faults += 1
            continue
        done = subprocess.run([programs[0], "check", "--script", "--explain", "--notes", "never", "--color", "never"],
                              input=whole[script].replace(old, new, 1), capture_output=True, text=True, check=False)
        sentences = [it.strip() for it in done.stderr.splitlines() if re.match(r"\s*= |also: ", it)]
        if done.returncode != 1 or not sentences:
            print(f"{script}: {new!r} for {old!r} is no fault that is explained: {done.returncode}")
            faults += 1
            continue
        where = kind(old, whole[script])
        made[where] += 1
        if any(re.search(due, it) for it in sentences):
            said[where] += 1
        elif "--missed" in sys.argv:
            print(f"{new.strip()!r}, due {due}:\n    " + "\n    ".join(sentences))
    for where, count in made.items():
        print(f"{where:12}{count:5} errors, {said[where]:4} with what was meant")
    print(f"{'all':12}{sum(made.values()):5} errors, {sum(said.values()):4} with what was meant")
    return 1 if faults else 0


if __name__ == "__main__":
    sys.exit(main())
