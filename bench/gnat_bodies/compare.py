#!/usr/bin/env python3
"""Compares what bodies do in `ravenhost play` with what they do in an Ada program that GNAT compiles.

    compare.py [--bodies N] [--seed S] [--keep FOLDER] [--program PATH] [--try]

Draws N bodies (500 where it isn't given), each called several times. The built program plays the scripts, or the one of a PATH; with
--try `rt try` does, before any proof. Statuses: 0 no call differs, 1 one does, 2 usage, 127 a tool is missing.
"""

import argparse
import collections
import shutil
import subprocess
import sys
import tempfile
from pathlib import Path

import programs
from units import BODIES_OF_AN_OBJECT, OBJECTS_OF_A_UNIT, draw_unit

TOP = Path(__file__).resolve().parents[2]
sys.path.insert(0, str(TOP / "bench"))
import trial

# 60 tasks and 33 objects, of at most 64 and 256.
UNITS_OF_A_SCRIPT = 3
# Each operation is checked for overflow by itself; warnings tell nothing here, since drawn bodies raise on purpose.
FLAGS = ("-q", "-gnat2012", "-gnato11", "-gnatws", "-O0")


def missing(tool):
    print(f"bench/gnat_bodies.sh: {tool} is missing", file=sys.stderr)
    sys.exit(127)


def run(words, folder, **more):
    done = subprocess.run(words, cwd=folder, stdout=subprocess.PIPE, stderr=subprocess.PIPE, text=True, check=False, **more)
    if done.returncode != 0:
        sys.exit(f"{' '.join(words)} ended with status {done.returncode}\n{done.stdout[-4000:]}{done.stderr[-4000:]}")
    return done.stdout


def compiled(units, folder):
    """What the Ada program of these units prints."""
    sources = folder / "ada"
    sources.mkdir()
    (folder / "all.ada").write_text("".join(programs.ada_files(units)))
    run(["gnatchop", "-q", "-w", str(folder / "all.ada"), str(sources)], folder)
    run(["gnatmake", *FLAGS, "compared.adb"], sources)
    return run([str(sources / "compared")], folder, timeout=600).splitlines()


def played(scripts, folder, program, by_try):
    """The journals of scripts."""
    if not by_try:
        return [run([str(program), "play"], folder, input=script) for script in scripts]
    journals = trial.written({f"script_{number}": script.encode() for number, script in enumerate(scripts)}, ["play"], 300)
    return ["\n".join(journals[f"script_{number}"].decode().splitlines()) for number in range(len(scripts))]


def without_overruns(due, given):
    """Both lists without an object's calls from the first on that passes the limit of steps, which Ada doesn't have."""
    lost, kept = set(), []
    for one, other in zip(due, given):
        owner = one.split(" ")[0]
        if other.endswith(": overrun"):
            lost.add(owner)
        if owner not in lost:
            kept.append((one, other))
    return kept, len(due) - len(kept)


def main():
    parser = argparse.ArgumentParser(usage="gnat_bodies.sh [--bodies N] [--seed S] [--keep FOLDER] [--program PATH] [--try]")
    parser.add_argument("--bodies", type=int, default=500)
    parser.add_argument("--seed", type=int, default=1)
    parser.add_argument("--keep", type=Path)
    parser.add_argument("--program", type=Path, default=TOP / "ravenhost")
    parser.add_argument("--try", dest="by_try", action="store_true")
    given = parser.parse_args()
    for tool in ("gnatmake", "gnatchop", *(("rt",) if given.by_try else ())):
        shutil.which(tool) or missing(tool)
    of_a_unit = BODIES_OF_AN_OBJECT * OBJECTS_OF_A_UNIT
    units = [draw_unit(given.seed, f"U_{number}") for number in range(1, -(-given.bodies // of_a_unit) + 1)]
    with tempfile.TemporaryDirectory() as temporary:
        folder = given.keep or Path(temporary)
        folder.mkdir(parents=True, exist_ok=True)
        due = compiled(units, folder)
        groups = [units[start : start + UNITS_OF_A_SCRIPT] for start in range(0, len(units), UNITS_OF_A_SCRIPT)]
        journals = played([programs.script(group) for group in groups], folder, given.program.absolute(), given.by_try)
    said = [line for journal in journals for line in programs.lines_of_journal(journal)]
    sys.exit(tell(due, said))


def tell(due, said):
    if len(due) != len(said):
        print(f"{len(due)} calls in Ada, {len(said)} in the journals")
        return 1
    kept, lost = without_overruns(due, said)
    differing = [(one, other) for one, other in kept if one != other]
    for one, other in differing[:10]:
        print(f"GNAT:      {one}\nravenhost: {other}")
    ends = collections.Counter(one.rsplit(" : ", 1)[1] for one, _ in kept)
    bodies = {tuple(one.split(" ")[:2]) for one, _ in kept}
    print(f"{len(bodies)} bodies, {len(kept)} calls ({', '.join(f'{count} {end}' for end, count in ends.most_common())}): {len(differing)} differ; "
          f"{lost} calls not compared, since an object passed the limit of steps")
    return 1 if differing else 0


if __name__ == "__main__":
    main()
