#!/usr/bin/env python3
"""Whether two builds of the program do the same, byte for byte: what they print on both outputs, and their statuses.

    bench/alike.py OLD NEW [--drawn N] [--seed S] [--jobs J]

OLD and NEW are programs, proved or trials, as crates/ravenhost/out/ravenhost or crates/ravenhost/out/trial/ravenhost of two
checkouts. Each script of crates/rv_rows/data is played, checked, and judged with the journal that stands beside it, plainly and
explained; and so are N scripts (2,000) drawn from them: lines and sections left out, doubled, moved or changed in a character,
journals too, and units of a journal given in another order than it loads them; a load between two steps of texts that run; a halt
at any step, also while an object is unsettled, behind which each actor's text goes on to its stop. The journal of each drawn script
that is played is judged too, explained. The last line says how many of those that differ asked for no explanations and notes, and
of all how many have a load behind a step, and how many an unsettled object at their halt. Runs on threads aren't compared here:
their journals differ from run to run. Statuses: 0 all alike, 1 some differ, 2 usage.
"""
import argparse
import random
import re
import subprocess
import sys
import tempfile
from collections import Counter
from concurrent.futures import ThreadPoolExecutor
from pathlib import Path
from typing import Iterator, NamedTuple

ROWS = Path(__file__).resolve().parents[1] / "crates" / "rv_rows" / "data"
SECONDS = 60


class Case(NamedTuple):
    """What is asked of both programs."""

    name: str
    words: tuple[str, ...]
    script: bytes


def sections(script: bytes) -> list[bytes]:
    """A script cut before each opening."""
    found: list[bytes] = []
    for line in script.splitlines(keepends=True):
        if line.startswith(b"@") or not found:
            found.append(line)
        else:
            found[-1] += line
    return found


def units_of(script: bytes) -> list[bytes]:
    """What an audit takes of a script: its settings, and the sections of its units."""
    return [it for it in sections(script) if it.startswith((b"@host.toml", b"@unit", b"@shape"))]


def with_journal(parts: list[bytes], journal: bytes) -> bytes:
    return with_lines(parts) + b"@journal\n" + journal


def of_row(script_file: Path) -> Iterator[Case]:
    """All that is asked of a row."""
    name, script = script_file.stem, script_file.read_bytes()
    for words in (("play", "--all"), ("play", "--explain", "--notes", "always"), ("check",), ("check", "--script", "--explain", "--notes", "always"),
                  ("audit",), ("audit", "--explain")):
        yield Case(name, words, script)
    journal = script_file.with_suffix(".journal")
    if journal.exists():
        for words in (("audit",), ("audit", "--explain")):
            yield Case(name, words, with_journal(units_of(script), journal.read_bytes()))


def changed(draw: random.Random, lines: list[bytes]) -> list[bytes]:
    """Lines, of which a few were left out, doubled, moved or changed in a character."""
    lines = list(lines)
    for _ in range(draw.randint(1, 3)):
        if not lines:
            break
        at = draw.randrange(len(lines))
        what = draw.randrange(4)
        if what == 0:
            del lines[at]
        elif what == 1:
            lines.insert(draw.randint(0, len(lines)), lines[at])
        elif what == 2:
            lines.insert(draw.randrange(len(lines)), lines.pop(at))
        elif lines[at]:
            place = draw.randrange(len(lines[at]))
            lines[at] = lines[at][:place] + bytes([draw.choice(b"0123456789 aZ;:@.-\n")]) + lines[at][place + 1:]
    return lines


def drawn(draw: random.Random, files: list[Path]) -> Case:
    """A script drawn from a row, and what is asked of it."""
    file = draw.choice(files)
    script, journal = file.read_bytes(), file.with_suffix(".journal")
    name = f"drawn from {file.stem}"
    if journal.exists() and draw.random() < 0.6:
        parts, text = units_of(script), journal.read_bytes()
        if draw.random() < 0.4:
            front, units = parts[:1] if parts and parts[0].startswith(b"@host.toml") else [], parts
            units = units[len(front):]
            draw.shuffle(units)
            parts = front + units
        if draw.random() < 0.8:
            text = b"".join(changed(draw, text.splitlines(keepends=True)))
        words = ("audit",) if draw.random() < 0.3 else ("audit", "--explain")
        return Case(name, words, with_journal(parts, text))
    if draw.random() < 0.5:
        text = b"".join(changed(draw, script.splitlines(keepends=True)))
    else:
        text = b"".join(changed(draw, sections(script)))
    return Case(name, draw.choice((("play", "--all"), ("play",), ("check", "--explain"), ("check", "--script"), ("audit", "--explain"))), text)


def parted_steps(draw: random.Random, script: bytes) -> tuple[list[bytes], list[bytes], list[bytes], list[bytes]] | None:
    """A script cut within a section of steps: the sections before it, its lines up to there, those behind, the sections behind it."""
    parts = sections(script)
    places = [n for n, part in enumerate(parts) if part.startswith(b"@steps") and part.count(b"\n") > 1]
    if not places:
        return None
    place = draw.choice(places)
    lines = parts[place].splitlines(keepends=True)
    cut = draw.randint(1, len(lines))
    return parts[:place], lines[:cut], lines[cut:], parts[place + 1:]


def with_load(draw: random.Random, files: list[Path]) -> Case | None:
    """A row whose texts run, with a load between two of its steps: of a unit of another row."""
    file = draw.choice(files)
    script = file.read_bytes()
    parted = parted_steps(draw, script) if re.search(rb"(?m)^\S+ go\b", script) else None
    loads = [it for it in sections(draw.choice(files).read_bytes()) if it.startswith((b"@unit", b"@shape"))]
    if not parted or not loads:
        return None
    before, lines, rest, behind = parted
    return Case(f"a load within {file.stem}", ("play", "--all"), with_lines(before + [b"".join(lines), draw.choice(loads), b"@steps\n" + b"".join(rest)] + behind))


def with_halt(draw: random.Random, files: list[Path]) -> Case | None:
    """A row with a halt at one of its steps, behind which each of its actors goes on, twice through."""
    file = draw.choice(files)
    parted = parted_steps(draw, file.read_bytes())
    if not parted:
        return None
    before, lines, rest, _ = parted
    actors = sorted({line.split()[0] for line in lines + rest if len(line.split()) > 1 and line[:1] not in b"@o"})
    ends = [b"%s %s\n" % (actor, what) for what in (b"settle", b"go 20", b"go 20", b"finish") for actor in actors]
    return Case(f"a halt within {file.stem}", ("play", "--all"), with_lines(before + [b"".join(lines), b"operator halt\n" + b"".join(ends)]))


def with_lines(parts: list[bytes]) -> bytes:
    """Parts of a script, each with its last line feed."""
    return b"".join(it if not it or it.endswith(b"\n") else it + b"\n" for it in parts)


def journal_of(case: Case, printed: bytes) -> Case | None:
    """The audit of what a script's play printed: its recorded lines, over the script's units."""
    recorded = b"".join(line for line in printed.splitlines(keepends=True) if line[:1].isdigit())
    if case.words[0] != "play" or not recorded:
        return None
    return Case(f"the journal of {case.name}", ("audit", "--explain"), with_journal(units_of(case.script), recorded))


def is_unsettled_at_halt(journal: bytes) -> bool:
    """Whether an object was unsettled when the host was halted: an end that dropped a caller right before, or a settle behind."""
    return bool(re.search(rb"(?m)dropped .*\n(?:.*\n)*?\d+ operator halt(?:.*\n)*?\d+ \S+ settle -> d", journal))


def outcome(program: Path, case: Case) -> tuple[object, bytes, bytes]:
    """What a program prints, and its status."""
    try:
        done = subprocess.run([program, *case.words], input=case.script, capture_output=True, timeout=SECONDS)
    except subprocess.TimeoutExpired:
        return ("late", b"", b"")
    return (done.returncode, done.stdout, done.stderr)


def is_for_people(case: Case) -> bool:
    """Whether a case asks for explanations of faults or notes, whose words aren't the papers' (`audit --explain` judges ends)."""
    return "--notes" in case.words or (case.words[0] != "audit" and "--explain" in case.words)


def main() -> int:
    parser = argparse.ArgumentParser(description="Compares two builds of the program.", usage="bench/alike.py OLD NEW [--drawn N] [--seed S] [--jobs J]")
    parser.add_argument("old", type=Path)
    parser.add_argument("new", type=Path)
    parser.add_argument("--drawn", metavar="N", type=int, default=2_000)
    parser.add_argument("--seed", metavar="S", type=int, default=0)
    parser.add_argument("--jobs", metavar="J", type=int, default=2)
    given = parser.parse_args()
    old, new = given.old.resolve(), given.new.resolve()
    files = sorted(ROWS.glob("*.raven"))
    draw = random.Random(given.seed)
    cases = [case for file in files for case in of_row(file)] + [drawn(draw, files) for _ in range(given.drawn)]
    cases += [case for make in (with_load, with_halt) for _ in range(given.drawn // 2) if (case := make(draw, files))]

    def compare(case: Case) -> list[tuple[Case, object, object]]:
        found = [(case, outcome(old, case), outcome(new, case))]
        judged = journal_of(case, found[0][1][1])
        if judged:
            found.append((judged, outcome(old, judged), outcome(new, judged)))
        return found

    statuses: Counter[object] = Counter()
    differ = plain = compared = within = unsettled = 0
    with ThreadPoolExecutor(given.jobs) as pool:
        for case, one, other in (it for found in pool.map(compare, cases) for it in found):
            compared += 1
            within += bool(re.search(rb"(?m)^\d+ \S+ (?!load|operator).*\n(?:.*\n)*?\d+ operator load", case.script))
            unsettled += is_unsettled_at_halt(case.script)
            statuses[one[0]] += 1
            if one != other:
                differ += 1
                plain += not is_for_people(case)
                if differ <= 10:
                    with tempfile.NamedTemporaryFile(prefix="alike-", suffix=".raven", delete=False) as kept:
                        kept.write(case.script)
                    print(f"{case.name}: {' '.join(case.words)} < {kept.name}\n  old {one}\n  new {other}")
    print(f"{compared} cases, {differ} differ, {plain} of them without explanations of faults and notes; journals with a load behind a step {within}, halted while an object was unsettled {unsettled};"
          f" statuses {dict(sorted(statuses.items(), key=str))}")
    return 1 if differ else 0


if __name__ == "__main__":
    sys.exit(main())
