#!/usr/bin/env python3
"""Which row of rv_rows shows each sentence that `--explain` can say.

    bench/causes_shown.py [--all]       with --all each sentence is told with its first row

A sentence, or a part of one, is a text in the sources of rv_cause, rv_judged, rv_explain or rv_reason that has a space and no `^`, which the
patterns of words have. A row (crates/rv_rows/data/NAME.explained) shows it where what is said there has its words in order, whatever
stands for `{..}`; one that tells a line isn't shown by one that tells none, nor the other way round. UNSAID has what no script
makes the program say: it stands for the end of a search that finds something wherever such a fault is, or for want of memory.
Statuses: 0 each other one is shown, 1 some aren't. It needs nothing but Python.
"""
import re
import sys
from pathlib import Path
from typing import Iterator

CRATES = Path(__file__).resolve().parents[1] / "crates"
TEXT = re.compile(r'"((?:[^"\\]|\\.)*)"', re.S)
LINE = re.compile(r"\bin line \d")
UNSAID = frozenset((
    "memory was refused", "  = memory was refused for more", "this is no list", "the script has no such line", "this unit has no shape",
    "{0} stands twice", "a name stands twice", "a number is out of range", "an object with a handler has a ceiling of 31 .. 40 (C.3.1)",
    "this can't be used in the profile Ravenscar (D.13)", "{0} is declared here already; give one of them another name (8.3)",
    "{0} is declared further down; put that before this (8.3)", "{0} isn't declared yet; put its declaration before this (8.3)",
    "{0} has no place in this command", "{0} denotes nothing that can stand here (8.6)",
    "an interrupt line has a handler already (C.3.1)", "this is no step",
    "an interrupt line of this unit has a handler already (C.3.1)", "a protected unit with a handler has a priority of 31 .. 40 (C.3.1)"))
# Texts that aren't said: a form of a line that is compared, a value that is tried, and the form of a further fault.
OTHER = frozenset(("Milliseconds (1)", "also: {number}:{column}: {sentence}"))


def said_by_rows() -> dict[str, list[str]]:
    """What each row says behind `=`."""
    return {file.stem: [line.split("= ", 1)[1] for line in file.read_text(encoding="utf-8").splitlines() if line.lstrip().startswith("= ")]
            for file in sorted((CRATES / "rv_rows" / "data").glob("*.explained"))}


def texts() -> Iterator[tuple[str, str]]:
    """Each sentence or part of one, and where it stands."""
    for crate in ("rv_cause", "rv_judged", "rv_explain", "rv_reason"):
        for file in sorted((CRATES / crate / "src").rglob("*.rt")):
            source = "\n".join("" if line.lstrip().startswith("//") else line for line in file.read_text(encoding="utf-8").splitlines())
            for found in TEXT.finditer(source):
                text = re.sub(r"\\\n\s*", "", found[1]).replace("\\n", "").replace('\\"', '"')
                if " " in text.strip() and "^" not in text and re.search(r"[a-z]{2}", re.sub(r"\{[^{}]*\}", "", text)):
                    yield text, f"{crate}/{file.name}:{source.count(chr(10), 0, found.start()) + 1}"


def is_shown(text: str, said: str) -> bool:
    """Whether what is said has the text's words in order."""
    at = first = 0
    for number, piece in enumerate(it for it in re.split(r"\{[^{}]*\}", text) if it):
        found = said.find(piece, at)
        if found < 0:
            return False
        if number and "{line}" not in text and LINE.search(said, at, found + 1):
            return False
        first = found if number == 0 else first
        at = found + len(piece)
    return "line" in text or not (text.startswith("{") and LINE.search(said, 0, first))


def main(words: list[str]) -> int:
    if set(words) - {"--all"}:
        print(__doc__, file=sys.stderr)
        return 2
    rows, known, missing = said_by_rows(), set(), 0
    for text, place in texts():
        if text in known or text in OTHER:
            continue
        known.add(text)
        found = [(name, it) for name, told in rows.items() for it in told if is_shown(text, it)]
        # A row where nothing stands behind it tells more than one where it may be the front of another sentence.
        ends = [name for name, it in found if text.endswith("}") or it.endswith(text.rsplit("}", 1)[-1])]
        shown = next(iter(ends or [name for name, _ in found]), None)
        if shown is None and text not in UNSAID:
            missing += 1
            print(f"{place}: no row shows {text!r}")
        elif words:
            print(f"{text} <- {'unsaid' if shown is None else shown if ends else f'{shown} (a part)'}")
    print(f"{len(known)} sentences and parts, {len(UNSAID)} of them unsaid, {missing} shown by no row")
    return 1 if missing else 0


if __name__ == "__main__":
    sys.exit(main(sys.argv[1:]))
