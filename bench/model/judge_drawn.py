#!/usr/bin/env python3
"""Draws unit texts, right, wrong and damaged, and asks the judge and the built program of each. README.md says more."""
import argparse
import random
import re
import sys
from pathlib import Path
from typing import NamedTuple

import static_rules
from differences import Differences, kind_of, told
from judge import Judge
from judge_mutations import damaged
from judge_rows import ROWS
from play import Fault, sections_of

AGAIN = {"lex BadLiteral": .97, "parse Unexpected": .97, "names Unknown": .8}  # how often another damage is tried
Sections = list[tuple[str, str]]  # openings and texts


class Case(NamedTuple):
    before: Sections  # `@unit` and `@shape` sections that are right
    text: str

    def script(self) -> str:
        return "".join(f"{opening}\n{text}" for opening, text in self.before) + f"@unit\n{self.text}"


def sections(script: str) -> Sections:
    return [(opening, "".join(f"{line}\n" for line in lines)) for opening, lines, _ in sections_of(script)]


def stored_texts() -> list[Case]:
    """The last unit text of each row, behind the units and shapes of the sections before it."""
    found = []
    for path in sorted(ROWS.glob("*.raven")):
        try:
            parts = [part for part in sections(path.read_bytes().decode().replace("\r\n", "\n")) if part[0] in ("@unit", "@shape")]
        except (Fault, UnicodeDecodeError):
            continue
        while parts and parts[-1][0] != "@unit":
            parts.pop()
        if parts and len(parts[-1][1]) < 5000:
            found.append(Case(parts[:-1], parts[-1][1]))
    return found


def combined(dice: random.Random) -> Case:
    """A text of parts, of which up to three are wrong (static_rules.py)."""
    source = dice.choice(static_rules.SOURCES)
    wrong = [part for other, _, part in static_rules.WRONG_PARTS if other is source]
    chosen: list[static_rules.Part] = []
    for part in dice.sample(wrong, dice.choice((0, 0, 1, 2, 3))) + dice.sample(static_rules.GOOD_PARTS[source], dice.randint(0, 12)):
        if static_rules.fits(part, chosen):
            chosen.append(part)
    dice.shuffle(chosen)
    text = static_rules.laid_out(dice, static_rules.filled(source, chosen, dice.choice(source.NAMES)))
    return Case([("@unit", source.BEFORE)] if source.BEFORE else [], text.replace(static_rules.MARK, ""))


def draw(number: int, stored: list[Case]) -> Case:
    """The text of that number: every second one is made of parts, the others are of the rows; most have one to three damages. Most
    damages that leave no text of the grammar, or an unknown name, are made anew: they hide whatever else a text says."""
    dice = random.Random(f"judge {number}")
    case = combined(dice) if number % 2 else dice.choice(stored)
    times = dice.choice((0, 1, 1, 1, 2, 3)) if number % 2 else dice.choice((1, 1, 2, 3))
    for _ in range(12):
        found = Case(case.before, damaged(dice, case.text, times))
        verdict = judged(found)
        if dice.random() >= AGAIN.get(kind_of(verdict), 0):
            break
    return found


def judged(case: Case) -> str:
    judge = Judge()
    for opening, text in case.before:
        verdict = judge.section(opening, text)
        if not verdict.endswith(": ok"):
            return verdict
    return judge.verdict(case.text)


def shown(case: Case, verdict: str) -> str:
    """The text with a mark at the place of the verdict."""
    place = re.search(r" at (\d+)$", verdict)
    text = case.text.encode()
    at = int(place[1]) if place else 0
    marked = text[:at] + b"^^" + text[at:] if place else text
    return "".join(f"{opening}\n{text}" for opening, text in case.before) + marked.decode(errors="replace")


def main() -> int:
    parser = argparse.ArgumentParser(description="Asks the judge and the program of drawn and damaged unit texts.")
    parser.add_argument("--texts", metavar="N", type=int, default=2000)
    parser.add_argument("--seed", metavar="S", type=int, default=0, help="the number of the first text")
    parser.add_argument("--program", metavar="PATH", type=Path, default=ROWS.parents[1] / "ravenhost/out/ravenhost")
    arguments = parser.parse_args()
    if not arguments.program.exists():
        print(f"there is no {arguments.program}", file=sys.stderr)
        return 127
    stored, found, program = stored_texts(), Differences(), arguments.program.absolute()
    for number in range(arguments.seed, arguments.seed + arguments.texts):
        case = draw(number, stored)
        due = judged(case)
        found.add(case.text, due, told(program, case.script()), shown(case, due))
    print("\n".join(found.report()))
    return 1 if found.differing else 0


if __name__ == "__main__":
    sys.exit(main())
