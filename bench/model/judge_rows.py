#!/usr/bin/env python3
"""Judges the unit texts of the worked rows, and compares what is stored beside each row. README.md says more. Ends with 1 where a verdict
differs that isn't one of KNOWN, or where one of these doesn't differ any more."""
import argparse
import re
import sys
from collections.abc import Iterator
from pathlib import Path

from judge import Judge
from play import Fault, sections_of

ROWS = Path(__file__).parents[2] / "crates/rv_rows/data"
# What the judge says of rows in which the documents can be read both ways: of a name of a line where an Integer has to be static, and which fault
# of an `Attach_Handler` is told.
KNOWN = {
    "cause_handler_pragma_of_another": "names WrongKind at 228",
    "cause_handler_pragma_of_none": "names WrongKind at 220",
    "cause_handler_pragma_sum": "types Mismatch at 208",
    "cause_line_given_twice": "types Mismatch at 177",
    "cause_pragma_of_a_handler": "types Mismatch at 125",
    "types_line_is_no_integer": "types Mismatch at 64",
}


def judged(script: str) -> Iterator[tuple[int, str]]:
    """The line of each `@unit` section and its verdict, up to the first unit that is refused."""
    judge = Judge()
    texts = iter(re.split(r"(?m)^(?=@)", script)[1:])
    for opening, _, place in sections_of(script):
        text = next(texts).partition("\n")[2]
        if opening in ("@shape", "@unit"):
            verdict = judge.section(opening, text)
            if opening == "@unit":
                yield place, verdict
            if not verdict.endswith(": ok"):
                return


def stored_fault(path: Path) -> tuple[int, str]:
    """The line and the words of the fault beside a row; where there is none, a line past the last."""
    stored = path.with_suffix(".fault")
    found = re.match(r"script line (\d+): (.*)", stored.read_text()) if stored.exists() else None
    return (int(found[1]), found[2]) if found else (sys.maxsize, "")


def compare(path: Path) -> Iterator[tuple[str, str]]:
    """The verdicts of a row's unit texts, and those that are stored of them: before the fault, `ok`."""
    line, fault = stored_fault(path)
    try:
        for place, verdict in judged(path.read_bytes().decode().replace("\r\n", "\n")):
            if place <= line:
                is_ok = verdict.endswith(": ok")
                yield verdict, fault if place == line else verdict if is_ok else "ok"
    except (Fault, UnicodeDecodeError):
        return  # a script that is refused whole, or from its first line on


def main() -> int:
    parser = argparse.ArgumentParser(description="The judge's verdicts on the unit texts of the rows.")
    parser.add_argument("rows", metavar="ROW", type=Path, nargs="*", help="a script; all rows where none is given")
    sys.setrecursionlimit(100_000)  # the deepest rows
    texts = refused = wrong = 0
    rows = parser.parse_args().rows or sorted(ROWS.glob("*.raven"))
    missed = known = {path.stem for path in rows} & set(KNOWN)
    for path in rows:
        for verdict, stored in compare(path):
            texts += 1
            refused += not verdict.endswith(": ok")
            if verdict != stored:
                is_known = KNOWN.get(path.stem) == verdict
                wrong += not is_known
                missed = missed - {path.stem} if is_known else missed
                print(f"{path.stem}: judged {verdict}, stored {stored}" + (", as is known" if is_known else ""))
    for name in sorted(missed):
        print(f"{name}: doesn't differ as is known")
    print(f"{texts} unit texts, {refused} refused, {len(known - missed)} differ as is known, {wrong + len(missed)} otherwise")
    return 1 if wrong or missed else 0


if __name__ == "__main__":
    sys.exit(main())
