#!/usr/bin/env python3
"""Whether two builds of the program tell the same faults: each fault's line, and the status.

    bench/faults_alike.py OLD NEW [--seed S] [--count N] [--jobs J] [--checks]

OLD and NEW are programs, proved or trials, as crates/ravenhost/out/ravenhost or crates/ravenhost/out/trial/ravenhost of two
checkouts. Each script of crates/rv_rows/data beside which a fault stands is checked, checked as a whole script, played and audited
by both; and so are N scripts (2,000) drawn from all rows and from examples/, in which up to three words, signs or lines were left
out, doubled, swapped, misspelt or replaced by others. What both write to standard error is compared, which is the fault alone,
since no explanation is asked for; and their statuses. With --checks both are only asked to check, as programs can that are made
of the front end alone. The last line counts the faults by kind. Statuses: 0 all alike, 1 some differ, 2 usage.
"""
import argparse
import random
import re
import subprocess
import sys
import tempfile
from collections import Counter
from concurrent.futures import ThreadPoolExecutor
from pathlib import Path
from typing import NamedTuple

TOP = Path(__file__).resolve().parents[1]
ROWS = TOP / "crates" / "rv_rows" / "data"
COMMANDS = (("check",), ("check", "--script"), ("play",), ("audit",))
PART = re.compile(rb"--[^\n]*|[A-Za-z_][\w.]*|\d[\w#.]*|:=|=>|\.\.|/=|<=|>=|\*\*|->|[^\s\w]|\n[ \t]*")
SECONDS = 60


class Text(NamedTuple):
    """A script, and where it is from."""

    name: str
    script: bytes


def script_of(fault: Path) -> bytes:
    """The script beside a row's fault; a grown one is lines `TIMES LINE`."""
    plain = fault.with_suffix(".raven")
    if plain.exists():
        return plain.read_bytes()
    lines = (line.split(b" ", 1) for line in fault.with_suffix(".grown").read_bytes().splitlines())
    return b"".join((line + b"\n") * int(times) for times, line in lines)


def misspelt(draw: random.Random, part: bytes) -> bytes:
    """A part with one slip: a character left out, doubled, swapped with the next, or another."""
    at = draw.randrange(len(part))
    return draw.choice((part[:at] + part[at + 1:], part[:at + 1] + part[at:], part[:at] + part[at:at + 2][::-1] + part[at + 2:],
                        part[:at] + bytes([draw.choice(b"abcdeilnorstu_0159.;:=(")]) + part[at + 1:]))


def broken(draw: random.Random, script: bytes, others: list[bytes]) -> bytes:
    """A script with up to three of its words, signs or lines changed. Other scripts lend parts."""
    for _ in range(draw.randint(1, 3)):
        parts = list(PART.finditer(script))
        if not parts:
            break
        at = draw.randrange(len(parts))
        one, other = parts[at], parts[min(at + 1, len(parts) - 1)]
        lent = draw.choice(PART.findall(draw.choice(others)) or [b";"])
        new = draw.choice((b"", one[0] + b" " + one[0], misspelt(draw, one[0]), misspelt(draw, one[0]), lent, lent))
        if draw.random() < 0.2:
            script = script[:one.start()] + other[0] + script[one.end():other.start()] + one[0] + script[other.end():]
        else:
            script = script[:one.start()] + new + script[one.end():]
    return script


def drawn(seed: int, count: int) -> list[Text]:
    """So many scripts, drawn and broken."""
    draw = random.Random(seed)
    files = sorted(ROWS.glob("*.raven")) + sorted((TOP / "examples").glob("*.raven"))
    scripts = [(it.stem, it.read_bytes()) for it in files]
    short = [(name, script) for name, script in scripts if len(script) < 20_000]
    others = [script for _, script in short]
    return [Text(f"drawn from {name}", broken(draw, script, others)) for name, script in draw.choices(short, k=count)]


def told(program: Path, words: tuple[str, ...], script: bytes) -> tuple[object, bytes]:
    """A program's status, and the faults that it tells."""
    try:
        done = subprocess.run([program, *words], input=script, stdout=subprocess.DEVNULL, stderr=subprocess.PIPE, timeout=SECONDS)
    except subprocess.TimeoutExpired:
        return ("late", b"")
    return (done.returncode, done.stderr)


def kind_of(fault: bytes) -> str:
    """What a line says of a fault, without its places."""
    return re.sub(r"^script line \d+: | at .*$", "", fault.decode(errors="replace").strip())


def main() -> int:
    parser = argparse.ArgumentParser(description="Compares the faults of two builds.",
                                     usage="bench/faults_alike.py OLD NEW [--seed S] [--count N] [--jobs J] [--checks]")
    parser.add_argument("old", type=Path)
    parser.add_argument("new", type=Path)
    parser.add_argument("--seed", metavar="S", type=int, default=0)
    parser.add_argument("--count", metavar="N", type=int, default=2_000)
    parser.add_argument("--jobs", metavar="J", type=int, default=2)
    parser.add_argument("--checks", action="store_true")
    given = parser.parse_args()
    old, new = given.old.resolve(), given.new.resolve()
    commands = COMMANDS[:2] if given.checks else COMMANDS
    rows = [Text(it.stem, script_of(it)) for it in sorted(ROWS.glob("*.fault"))]
    texts = rows + drawn(given.seed, given.count)

    def compare(text: Text) -> list[tuple[Text, tuple[str, ...], object, tuple[object, bytes]]]:
        return [(text, words, told(old, words, text.script), told(new, words, text.script)) for words in commands]

    kinds: Counter[str] = Counter()
    compared = differ = 0
    with ThreadPoolExecutor(given.jobs) as pool:
        for text, words, one, other in (it for found in pool.map(compare, texts) for it in found):
            compared += 1
            kinds.update([kind_of(other[1])] if other[1] else [])
            if one != other:
                differ += 1
                if differ <= 10:
                    with tempfile.NamedTemporaryFile(prefix="faults-", suffix=".raven", delete=False) as kept:
                        kept.write(text.script)
                    print(f"{text.name}: {' '.join(words)} < {kept.name}\n  old {one}\n  new {other}")
    print(f"{len(rows)} rows and {given.count} drawn texts (seed {given.seed}), {compared} answers of each program, {sum(kinds.values())} faults of"
          f" {len(kinds)} kinds: {differ} differ\n" + ", ".join(f"{kind} {count}" for kind, count in kinds.most_common()))
    return 1 if differ else 0


if __name__ == "__main__":
    sys.exit(main())
