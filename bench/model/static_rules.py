#!/usr/bin/env python3
"""Draws unit texts, half of them wrong in one place, each with the verdict that is due on it. README.md says more."""
import argparse
import random
import re
import sys
from collections import Counter
from collections.abc import Callable, Iterator
from pathlib import Path
from types import ModuleType
from typing import NamedTuple

import static_pairs
import static_pieces
from differences import Differences, told
from judge import Judge

Part = dict[str, list[str]]  # texts for slots
SHARED_SLOTS = {"context", "statements", "procedure", "function", "entry"}  # that several parts may fill
MARK = "^"


class Case(NamedTuple):
    before: str  # a unit text that stands before it, or nothing
    text: str
    verdict: str


def read_part(line: str) -> Part:
    part: Part = {}
    for piece in line.split(" || "):
        slot, _, text = piece.partition(": ")
        part.setdefault(slot, []).append(text.strip())
    return part


SOURCES = (static_pieces, static_pairs)
GOOD_PARTS = {source: [read_part(line) for line in source.GOOD.splitlines()] for source in SOURCES}
WRONG_PARTS = [(source, verdict, read_part(line)) for source in SOURCES
               for verdict, lines in source.WRONG.items() for line in lines.splitlines()]


def fits(part: Part, chosen: list[Part]) -> bool:
    """Whether the part fills no slot that is filled already, and brings no context that another bars."""
    taken = {slot for other in chosen for slot in other} - SHARED_SLOTS
    barred = {text for other in chosen for text in other.get("bars", [])}
    return not taken & set(part) and not any(bar.rstrip(";") in text for bar in barred for text in part.get("context", []))


def filled(source: ModuleType, chosen: list[Part], unit: str) -> str:
    """The frame with the parts in its slots, and in its context each clause once."""
    slots: dict[str, list[str]] = {"context": list(source.CONTEXT)}
    for part in chosen:
        for slot, texts in part.items():
            slots.setdefault(slot, []).extend(text for text in texts if text not in slots.get("context", []))
    slots["context"].sort(key=lambda text: text.startswith("use"))

    def text_of(found: re.Match[str]) -> str:
        slot = found[1]
        return " ".join(slots.get(slot, [])) or source.DEFAULTS.get(slot, "")

    return re.sub(r"\$([a-z_]+)", text_of, source.FRAME).replace("$N", unit)


def laid_out(dice: random.Random, text: str) -> str:
    """The same text with words in other case, and with other blanks and comments between them."""
    cases, blanks = dice.choice((0, .05, .3)), dice.choice((0, .05, .2))

    def word(found: re.Match[str]) -> str:
        return dice.choice((found[0].upper(), found[0].lower())) if dice.random() < cases else found[0]

    def blank(found: re.Match[str]) -> str:
        others = ("\n", "\t", "  ", " -- x := 1; é\n", " -- x\r)\n", "\n\n   ", "\x0b", "\x0c", " --\n")
        return dice.choice(others) if dice.random() < blanks else found[0]

    return re.sub(r"\s+", blank, re.sub(r"[A-Za-z]\w*", word, text))


def draw(seed: int) -> Case:
    """A text of that number: an even one is right, an odd one wrong."""
    dice = random.Random(f"static {seed}")
    source, verdict, wrong = WRONG_PARTS[seed // 2 % len(WRONG_PARTS)]
    is_wrong = seed % 2 == 1
    chosen = [wrong] if is_wrong else []
    for part in dice.sample(GOOD_PARTS[source], dice.randint(0, 12)):
        if fits(part, chosen):
            chosen.append(part)
    dice.shuffle(chosen)
    text = laid_out(dice, filled(source, chosen, dice.choice(source.NAMES)))
    if MARK in text:
        place = len(text[:text.index(MARK)].encode())
        return Case(source.BEFORE, text.replace(MARK, ""), f"{verdict} at {place}")
    if is_wrong:  # a fault of the shape has no place
        return Case(source.BEFORE, text, verdict)
    name = re.search(r"(?i)\bpackage\s(?:\s|--[^\n]*\n)*(\w+)", text)[1]
    return Case(source.BEFORE, text, f"unit {name}: ok")


def script_of(case: Case) -> str:
    texts = [case.before, case.text] if case.before else [case.text]
    return "".join(f"@unit\n{text}" for text in texts)


def judged(case: Case) -> str:
    """What the judge, which reads the text whole, says of it."""
    judge = Judge()
    before = judge.verdict(case.before) if case.before else ": ok"
    return judge.verdict(case.text) if before.endswith(": ok") else before


def compare(ask: Callable[[Case], str], cases: Iterator[Case], grammar_alone: bool) -> int:
    """Asks for a verdict on each text, and prints the smallest text of each kind of difference."""
    found = Differences()
    for case in cases:
        said = ask(case)
        is_parsed = grammar_alone and said.endswith(": ok")
        found.add(case.text, case.verdict, case.verdict if is_parsed else said, case.before + case.text)
    print("\n".join(found.report()))
    return 1 if found.differing else 0


def main() -> int:
    parser = argparse.ArgumentParser(description="Unit texts with the verdicts that are due on them.")
    parser.add_argument("--texts", metavar="N", type=int, default=len(WRONG_PARTS) * 4)
    parser.add_argument("--seed", metavar="S", type=int, default=0, help="the number of the first text")
    parser.add_argument("--write", metavar="DIR", type=Path, help="writes each text, behind that of which it speaks, and its verdict there")
    parser.add_argument("--program", metavar="PATH", type=Path, help="asks this program of each text")
    parser.add_argument("--judge", action="store_true", help="asks the judge (judge.py) of each text")
    parser.add_argument("--grammar", action="store_true", help="takes an ok for any verdict: asks whether each text parses")
    arguments = parser.parse_args()
    cases = [draw(seed) for seed in range(arguments.seed, arguments.seed + arguments.texts)]
    if arguments.write:
        arguments.write.mkdir(parents=True, exist_ok=True)
        for place, case in enumerate(cases):
            (arguments.write / f"{place:04d}.ada").write_text(case.before + case.text)
            (arguments.write / f"{place:04d}.verdict").write_text(case.verdict + "\n")
    if arguments.judge and compare(judged, iter(cases), False):
        return 1
    if arguments.program:
        program = arguments.program.absolute()
        return compare(lambda case: told(program, script_of(case)), iter(cases), arguments.grammar)
    counts = Counter("unit ok" if case.verdict.endswith(": ok") else case.verdict.split(" at ")[0] for case in cases)
    print(f"{len(cases)} texts: " + ", ".join(f"{name} {times}" for name, times in sorted(counts.items())))
    return 0


if __name__ == "__main__":
    sys.exit(main())
