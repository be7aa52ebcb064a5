#!/usr/bin/env python3
"""Puts wrong readings into the model, one at a time, and says which kind of scripts notices each."""
import sys
import types
from collections.abc import Callable
from functools import cache
from pathlib import Path

from check import check
from edges import edge_scripts
from edges_units import unit_scripts
from generators import KINDS
from play import Outcome, play
from readings import MUTANTS, Mutant
from worked import worked_scripts

MODEL = ("words", "lists", "settings", "shapes", "host", "steps", "grammar_words", "judge_expressions", "judge_statements",
         "judge_reader", "unit_texts", "play", "check")
Says = Callable[[bytes], Outcome]
MADE = {"worked": worked_scripts, "edges": edge_scripts, "texts": unit_scripts}
HOWS = {"units": ("check",), "texts": ("check",), "edges": ("play", "check")}  # where it isn't play alone
COUNTS = {"units": 800, "settings": 600, "shapes": 600,
          "lists": 200, "deep": 100, "crossed": 200, "waits": 300, "random": 300, "damaged": 600, "full": 40}


def both(play: Callable[[bytes, bool], Outcome], check: Says) -> dict[str, Says]:
    return {"play": lambda script: play(script, True), "check": check}


def mutated(mutant: Mutant) -> dict[str, Says]:
    """What a model says in which that text is replaced."""
    kept = {name: sys.modules[name] for name in MODEL}
    try:
        for name in MODEL:
            source = Path(__file__).with_name(f"{name}.py").read_text()
            if name == mutant.module:
                if source.count(mutant.old) != 1:
                    sys.exit(f"mutants.py: {mutant.name}: the old text doesn't stand exactly once in {name}.py")
                source = source.replace(mutant.old, mutant.new)
            sys.modules[name] = types.ModuleType(name)
            exec(compile(source, f"{name}.py", "exec"), sys.modules[name].__dict__)
        return both(sys.modules["play"].play, sys.modules["check"].check)
    finally:
        sys.modules.update(kept)


@cache
def known(kind: str) -> list[tuple[bytes, str, Outcome]]:
    """The scripts of a kind, to what they are given, and what the model says to them."""
    texts = [script.text for script in MADE[kind]()] if kind in MADE else [KINDS[kind][0](seed) for seed in range(COUNTS[kind])]
    hows = HOWS.get(kind, ("play",))
    return [(text, how, both(play, check)[how](text)) for text in texts for how in hows]


def said(says: Says, script: bytes) -> Outcome | None:
    """What it says, or nothing where the replaced text makes it fail."""
    try:
        return says(script)
    except Exception:
        return None


def noticing_kind(mutant: Mutant) -> str | None:
    """The first kind with a script to which the changed model says something else."""
    changed = mutated(mutant)
    first = ["texts", "units"] if mutant.module.startswith(("grammar", "judge")) else []
    for kind in [*first, *MADE, *COUNTS]:
        if any(said(changed[how], script) != outcome for script, how, outcome in known(kind)):
            return kind
    return None


def asked_for() -> list[Mutant]:
    """All, or those with such a part in their name, or of such a module."""
    parts = sys.argv[1:]
    return [mutant for mutant in MUTANTS if not parts or any(part in mutant.name or part == mutant.module for part in parts)]


def main() -> int:
    missed, mutants = 0, asked_for()
    for mutant in mutants:
        kind = noticing_kind(mutant)
        missed += kind is None
        print(f"{mutant.name}: {f'noticed by {kind}' if kind else 'NOT NOTICED'}", flush=True)
    print(f"{len(mutants)} wrong readings, {missed} not noticed")
    return 1 if missed else 0


if __name__ == "__main__":
    sys.exit(main())
