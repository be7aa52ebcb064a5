#!/usr/bin/env python3
"""An independent reading of the static rules: reads unit texts, and says what `ravenhost check` has to say. README.md says more."""
import argparse
import sys
from pathlib import Path

from grammar_words import TextFault
from judge_library import REAL_TIME, Entity
from judge_names import Names
from judge_reader import read_text
from judge_restrictions import first_violation
from judge_scope import Scope
from judge_shape import shape_of, shown, shown_of_shape
from judge_tree_declarations import Text
from judge_types import Types
from shapes import Catalogue, Unit, read_shape

LONGEST_UNIT = 262_144  # bytes
NAME_FAULTS = ("Unknown", "Duplicate", "NotVisible", "WrongKind", "EndName")
TYPE_FAULTS = ("Mismatch", "NotStatic", "ConstantWritten", "BadMode", "TooLarge", "BadChoice")


def first_fault(kind: str, faults: list[tuple[int, str]], order: tuple[str, ...]) -> str:
    """The fault at the least place, and of several there the first in that order."""
    place, fault = min(faults, key=lambda found: (found[0], order.index(found[1])))
    return f"{kind} {fault} at {place}"


class Judge:
    """Judges unit texts one after another; those without a fault are loaded."""

    def __init__(self) -> None:
        self.catalogue = Catalogue()
        self.loaded: dict[str, Entity] = {}

    def verdict(self, text: str) -> str:
        """`unit NAME: ok`, or the words of the first fault."""
        if len(text.encode()) > LONGEST_UNIT:
            return "TooLong"
        try:
            tree = read_text(text)
        except TextFault as fault:
            return str(fault)
        violation = first_violation(tree)
        if violation:
            return f"restriction {violation[1]} at {violation[0]}"
        return self.meaning(tree)

    def meaning(self, tree: Text) -> str:
        """Names, types and the shape of a text that conforms to the profile."""
        unit = Entity("package", tree.name.text, tree.name.place, tree.name.place)
        names = Names(Scope(unit, self.loaded))
        names.text(tree)
        if names.faults:
            return first_fault("names", names.faults, NAME_FAULTS)
        types = Types(names.entities, REAL_TIME in names.scope.withed)
        types.text(tree)
        if types.faults:
            return first_fault("types", types.faults, TYPE_FAULTS)
        shape = shape_of(tree, types)
        fault = self.catalogue.fault(shape)
        if fault:
            return f"shape {fault}"
        self.add(shape, shown(unit))
        return f"unit {unit.name}: ok"

    def add(self, shape: Unit, unit: Entity) -> None:
        self.catalogue.add(shape)
        self.loaded[shape.name.lower()] = unit

    def section(self, opening: str, text: str) -> str:
        """The same of a section: `shape NAME: ok`, or its fault, of one that gives a shape."""
        if opening != "@shape":
            return self.verdict(text)
        unit = read_shape(text.splitlines(), self.catalogue)
        if not isinstance(unit, Unit):
            return f"shape {unit}"
        self.add(unit, shown_of_shape(unit))
        return f"shape {unit.name}: ok"


def main() -> int:
    parser = argparse.ArgumentParser(description="Judges unit texts by the static rules, each over those before it.")
    parser.add_argument("texts", metavar="TEXT", type=Path, nargs="+", help="a unit text each")
    judge, status = Judge(), 0
    for path in parser.parse_args().texts:
        verdict = judge.verdict(path.read_bytes().decode().replace("\r\n", "\n"))
        status |= not verdict.endswith(": ok")
        print(f"{path}: {verdict}")
    return status


if __name__ == "__main__":
    sys.exit(main())
