#!/usr/bin/env python3
"""Asks the model of each row of `rv_rows` that it can judge, and compares what it says with what stands beside the row. README.md says more."""
import sys
from pathlib import Path

from audit import audit
from check import check
from play import Outcome, play

ROWS = Path(__file__).resolve().parents[2] / "crates/rv_rows/data"


def expected(script: Path) -> Outcome | None:
    """What stands beside a row: what is said, found or written, and the fault; nothing beside one that is for another command."""
    fault = script.with_suffix(".fault")
    outputs = [script.with_suffix(ending) for ending in (".said", ".verdict", ".journal")]
    found = [path for path in outputs if path.exists()]
    if not found:
        return None
    output = found[0].read_bytes()
    told = fault.read_bytes() if fault.exists() else b""
    is_fault = told or script.with_suffix(".verdict").exists() and not output.startswith(b"legal ")
    return Outcome(output, told, 1 if is_fault else 0)


def modelled(script: Path, told: bytes) -> Outcome | None:
    """What the model says to a row, or nothing where a unit text or a device is loaded, of which it doesn't know the shape, or where
    a journal stands in a file of its own."""
    text = script.read_bytes()
    if script.with_suffix(".verdict").exists():
        is_known = not any(word in text for word in (b"@unit", b"device", b"\xff"))
        return audit(text) if is_known and not script.with_suffix(".file").exists() else None
    try:
        return check(text, told) if script.with_suffix(".said").exists() else play(text, True, told)
    except NotImplementedError:
        return None


def main() -> int:
    alike = unjudged = 0
    differing = []
    for script in sorted(ROWS.glob("*.raven")):
        due = expected(script)
        if due is None:
            continue
        found = modelled(script, due.fault)
        unjudged += found is None
        alike += found == due
        if found not in (None, due):
            differing.append(script.stem)
    print(f"{alike} rows alike, {len(differing)} differ, {unjudged} aren't judged: they load unit texts or devices, or have a journal in a file")
    for name in differing:
        print(name)
    return 1 if differing else 0


if __name__ == "__main__":
    sys.exit(main())
