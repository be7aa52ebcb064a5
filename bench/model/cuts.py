#!/usr/bin/env python3
"""Cuts scripts of the rows at every byte, and says what `ravenhost check` must say of each, by the judge of unit texts.

    bench/model/cuts.py [ROW ..]            # compares NAME.cuts beside the row with what the judge says
    bench/model/cuts.py --write [ROW ..]    # writes it

A line is `FIRST..LAST -> WORDS`: so many bytes are kept of the script, from none to all, and these are the lines that are due,
joined by `; `. A fault at the end of the last section's text is `at end` there.
"""
import argparse
import sys
from collections.abc import Iterator
from itertools import groupby
from pathlib import Path

from check import Checker
from judge import Judge
from play import Fault, outcome_of

ROWS = Path(__file__).parents[2] / "crates/rv_rows/data"
USUAL = ["go_two_units"]


class JudgingChecker(Checker):
    """A checker that has unit texts judged whole."""

    def __init__(self, script: bytes) -> None:
        super().__init__(script, b"")
        self.judge = Judge()

    def shape(self, lines: list[str], place: int) -> None:
        self.take(place, self.judge.section("@shape", "\n".join(lines)))

    def unit(self, place: int) -> None:
        self.take(place, self.judge.section("@unit", self.texts.text))

    def take(self, place: int, verdict: str) -> None:
        if not verdict.endswith(": ok"):
            raise Fault(place, verdict)
        self.output.append(f"{verdict}\n")


def last_text(script: bytes) -> bytes:
    """The text of the last section."""
    opening = max(script.rfind(b"\n@") + 1, 0)
    return script[opening:].partition(b"\n")[2]


def words(script: bytes) -> str:
    """What is due on a script, in one line."""
    checker = JudgingChecker(script)
    outcome = outcome_of(script, checker.output, checker.section)
    lines = (outcome.output + outcome.fault).decode().splitlines()
    at_end = f" at {len(last_text(script))}"
    return "; ".join(f"{line.removesuffix(at_end)} at end" if line.endswith(at_end) else line for line in lines)


def places(first: int, last: int) -> str:
    return str(first) if first == last else f"{first}..{last}"


def cut_lines(script: bytes) -> Iterator[str]:
    """The lines on a script's cuts."""
    first = 0
    for due, equal in groupby(words(script[:end]) for end in range(len(script) + 1)):
        count = len(list(equal))
        yield f"{places(first, first + count - 1)} -> {due}\n"
        first += count


def main() -> int:
    parser = argparse.ArgumentParser(description=__doc__, formatter_class=argparse.RawDescriptionHelpFormatter)
    parser.add_argument("rows", metavar="ROW", nargs="*", default=USUAL, help="the name of a row; else those that are kept")
    parser.add_argument("--write", action="store_true")
    arguments = parser.parse_args()
    differing = 0
    for name in arguments.rows:
        script = (ROWS / f"{name}.raven").read_bytes()
        due = "".join(cut_lines(script))
        file = ROWS / f"{name}.cuts"
        if arguments.write:
            file.write_text(due)
        differs = not file.exists() or file.read_text() != due
        differing += differs
        print(f"{name}: {len(script) + 1} cuts{' differ' if differs else ''}")
    return 1 if differing else 0


if __name__ == "__main__":
    sys.exit(main())
