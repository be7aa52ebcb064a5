#!/usr/bin/env python3
"""Says of how many requests `ravenhost play --all` and the model give equal answers. README.md says more."""
import argparse
import os
import re
import sys
from collections import Counter
from itertools import zip_longest
from pathlib import Path

from compare import PROGRAM, run
from generators import KINDS
from play import play

# Kinds whose scripts are steps and changes of the list for the most part, in the order in which they are drawn.
DRAWN = ("random", "crossed", "waits", "queues", "lists", "deep", "wide", "full", "long")
CHANGES = re.compile(rb"^(?:\d+|-) operator (?:list|append|remove|replace)\b")
LOADS = re.compile(rb"^(?:\d+|-) operator load\b")
SETTLES = re.compile(rb"^\d+ \S+ settle -> ")


class Tally:
    """What was asked, and how much of it was answered alike."""

    def __init__(self) -> None:
        self.counts: Counter[str] = Counter()
        self.first = b""  # the first script on which the two differ

    def play(self, script: bytes, program: Path) -> None:
        theirs, ours = run(program, script, "play --all"), play(script, True)
        self.counts["scripts"] += 1
        for told, due in zip_longest(theirs.output.splitlines(), ours.output.splitlines(), fillvalue=b""):
            line = due or told
            self.counts["requests"] += 1
            self.counts["changes of the list"] += bool(CHANGES.match(line))
            self.counts["loads"] += bool(LOADS.match(line))
            self.counts["settles"] += bool(SETTLES.match(line))
            self.counts["alike"] += told == due
            self.first = self.first or (b"" if told == due else script)
        if theirs != ours:
            self.counts["scripts that differ"] += 1
            self.first = self.first or script


def read_arguments() -> argparse.Namespace:
    parser = argparse.ArgumentParser(description="Says of how many requests the built program and the model give equal answers.")
    parser.add_argument("--requests", metavar="N", type=int, default=10_000, help="how many at least; 10,000 where none is given")
    parser.add_argument("--seed", metavar="S", type=int, default=0, help="the number of the first script of each kind")
    parser.add_argument("--program", metavar="PATH", type=Path, default=PROGRAM)
    return parser.parse_args()


def main() -> int:
    arguments = read_arguments()
    program = arguments.program.absolute()
    if not (program.is_file() and os.access(program, os.X_OK)):
        print(f"requests.py: there is no program {program}: build it (./ravenhost --prove does), or name one by --program",
              file=sys.stderr)
        return 127
    tally, place = Tally(), arguments.seed
    while tally.counts["requests"] < arguments.requests:
        for kind in DRAWN:
            tally.play(KINDS[kind][0](place), program)
        place += 1
    told = tally.counts
    print(f"{told['alike']} of {told['requests']} requests answered alike, in {told['scripts']} scripts of seeds {arguments.seed} to "
          f"{place - 1}; among them {told['loads']} loads, {told['changes of the list']} changes of the list and {told['settles']} settles; "
          f"{told['scripts that differ']} scripts differ in answers, faults or status")
    if tally.first:
        sys.stdout.flush()
        sys.stdout.buffer.write(b"the first of these scripts:\n" + tally.first)
    return 1 if tally.first else 0


if __name__ == "__main__":
    sys.exit(main())
