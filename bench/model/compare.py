#!/usr/bin/env python3
"""Compares the model of `ravenhost` with the built program. README.md says more."""
import argparse
import os
import re
import subprocess
import sys
from collections import Counter
from collections.abc import Callable, Iterator
from itertools import zip_longest
from pathlib import Path
from typing import NamedTuple

from check import check
from edges import edge_scripts, large_scripts
from edges_units import unit_scripts
from generators import KINDS
from play import Outcome, play
from worked import Script, worked_scripts

PROGRAM = Path(__file__).resolve().parents[2] / "crates/ravenhost/out/ravenhost"
FIXED = {"worked": worked_scripts, "edges": edge_scripts, "texts": unit_scripts, "big": large_scripts}
SECONDS = 300
SHRINKING_RUNS = 1000
MOST_SHOWN = 5_000
HOWS = ("play --all", "play", "check")


class Difference(NamedTuple):
    kind: str
    script: Script
    how: str  # of HOWS


def modelled(script: bytes, how: str, program: Outcome) -> Outcome:
    """What the model says to the script; the verdict of the static rules on a unit text is the program's."""
    return check(script, program.fault) if how == "check" else play(script, how == "play --all", program.fault)


def run(program: Path, script: bytes, how: str) -> Outcome:
    """What the program writes for the script, and its status."""
    try:
        ended = subprocess.run([program, *how.split()], input=script, capture_output=True, timeout=SECONDS)
    except subprocess.TimeoutExpired:
        return Outcome(b"", f"not ended after {SECONDS} seconds\n".encode(), -1)
    return Outcome(ended.stdout, ended.stderr, ended.returncode)


def scripts(kind: str, count: int, seed: int) -> Iterator[tuple[Script, str]]:
    """The scripts of a kind, each with what it is given to: those made by hand to all, unit texts to `check`, of the others every
    fourth to another command than `play --all`."""
    if kind in FIXED:
        yield from ((script, how) for script in FIXED[kind]() for how in (HOWS if kind != "texts" else ("check",)))
        return
    draw, rarity = KINDS[kind]
    for place in range(seed, seed + max(1, count // rarity)):
        yield Script(draw(place)), "check" if kind == "units" else {0: "play", 1: "check"}.get(place % 8, "play --all")


def fault_words(outcome: Outcome) -> str:
    """The fault behind a journal, without its lines."""
    fault = outcome.fault.decode(errors="replace").strip()
    return re.sub(r"^script line \d+: | at (line )?\d+", "", fault)


def tally(outcome: Outcome) -> Counter[str]:
    """The answers of a journal and the fault behind it, each by its first words."""
    journal = outcome.output.decode(errors="replace")
    counts = Counter(re.findall(r" -> (refused \d|done \w+|\w+)", journal))
    if outcome.fault:
        counts["fault " + fault_words(outcome)] += 1
    return counts


def step_words(line: bytes) -> str:
    """What a line of a journal asks, and how it is answered, without names and numbers."""
    found = re.match(r"(\S+ \S+ \S+).* -> (refused \d|done \w+|\w+)", line.decode(errors="replace"))
    return re.sub(r"\d+|\S+\.\S+", "_", found[1]) + " -> " + found[2] if found else "none"


def signature(model: Outcome, program: Outcome) -> str:
    """What kind of difference it is: that of the first line that isn't the same, else that of the faults."""
    for one, other in zip_longest(model.output.splitlines(), program.output.splitlines(), fillvalue=b""):
        if one != other:
            return f"{step_words(one)} | {step_words(other)}"
    return f"{model.status} {fault_words(model)} | {program.status} {fault_words(program)}"


def compare_kind(kind: str, program: Path, count: int, seed: int, found: dict[str, Difference]) -> tuple[int, int]:
    """Plays the scripts of a kind, keeps the shortest of each kind of difference, and tells how many ran and differed."""
    counts: Counter[str] = Counter()
    runs = differing = 0
    for script, how in scripts(kind, count, seed):
        outcome = run(program, script.text, how)
        model = modelled(script.text, how, outcome)
        expected = script.expected if script.expected and how == "play --all" else outcome
        counts += tally(outcome)
        runs += 1
        if not outcome == model == expected:
            differing += 1
            name = signature(model, outcome) if model != outcome else "both differ from what is expected"
            if name not in found or len(script.text) < len(found[name].script.text):
                found[name] = Difference(kind, script, how)
    told = ", ".join(f"{name} {times}" for name, times in sorted(counts.items()))
    print(f"{kind}: {runs} runs, {differing} differ; {told}", flush=True)
    return runs, differing


def thinned(script: bytes, piece: bytes, differs: Callable[[bytes], bool]) -> bytes:
    """The script without what can be left out of it, in pieces of that pattern, first half of them, then fewer."""
    pieces = re.findall(piece, script, re.DOTALL)
    size = len(pieces) // 2
    while size:
        place = 0
        while place < len(pieces):
            rest = pieces[:place] + pieces[place + size:]
            if differs(b"".join(rest)):
                pieces = rest
            else:
                place += size
        size //= 2
    return b"".join(pieces)


def shrunk(found: Difference, program: Path) -> Difference:
    """The same kind of difference with a smaller script, as far as it goes in so many runs: lines are left out, then words."""
    budget = iter(range(SHRINKING_RUNS))
    outcome = run(program, found.script.text, found.how)
    name = signature(modelled(found.script.text, found.how, outcome), outcome)

    def differs(script: bytes) -> bool:
        if next(budget, None) is None:
            return False
        other = run(program, script, found.how)
        model = modelled(script, found.how, other)
        return model != other and signature(model, other) == name

    script = found.script.text
    if not differs(script):
        return found
    for piece in (rb"[^\n]*\n|[^\n]+", rb"\S+|\s"):
        script = thinned(script, piece, differs)
    return found._replace(script=Script(script))


def shown(text: bytes) -> str:
    return text[:MOST_SHOWN].decode(errors="backslashreplace")


def report(name: str, found: Difference, program: Path) -> None:
    """Prints a script with what the model and the program say to it."""
    text = found.script.text
    outcome = run(program, text, found.how)
    outcomes = {"model": modelled(text, found.how, outcome), "program": outcome}
    if found.script.expected:
        outcomes["expected"] = found.script.expected
    print(f"\n=== {name}\n== a script of the kind {found.kind}, given to `{found.how}`:\n{shown(text)}")
    for who, outcome in outcomes.items():
        print(f"== {who}: status {outcome.status}\n{shown(outcome.output)}{shown(outcome.fault)}", end="")


def read_arguments() -> argparse.Namespace:
    parser = argparse.ArgumentParser(description="Compares the model of `ravenhost play` with the built program.")
    names = list(FIXED) + list(KINDS)
    parser.add_argument("kinds", metavar="KIND", nargs="*", help=f"of {', '.join(names)}; all where none is given")
    parser.add_argument("--scripts", metavar="N", type=int, default=1000,
                        help="scripts of the kind random; of others as many or fewer")
    parser.add_argument("--seed", metavar="S", type=int, default=0, help="the number of the first script of each kind")
    parser.add_argument("--program", metavar="PATH", type=Path, default=PROGRAM)
    arguments = parser.parse_args()
    for kind in arguments.kinds:
        if kind not in names:
            parser.error(f"there is no kind {kind}")
    arguments.kinds = arguments.kinds or names
    return arguments


def main() -> int:
    arguments = read_arguments()
    program = arguments.program.absolute()
    if not (program.is_file() and os.access(program, os.X_OK)):
        print(f"compare.py: there is no program {program}: build it (./ravenhost --prove does), or name one by --program",
              file=sys.stderr)
        return 127
    found: dict[str, Difference] = {}
    runs = differing = 0
    for kind in arguments.kinds:
        more_runs, more_differing = compare_kind(kind, program, arguments.scripts, arguments.seed, found)
        runs, differing = runs + more_runs, differing + more_differing
    print(f"{runs} runs, {differing} differ, in {len(found)} kinds of difference", flush=True)
    for name, each in found.items():
        report(name, shrunk(each, program), program)
    return 1 if found else 0


if __name__ == "__main__":
    sys.exit(main())
