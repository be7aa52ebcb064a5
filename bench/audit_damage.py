#!/usr/bin/env python3
"""Damages journals of worked rows in many ways, and compares what `ravenhost audit` says of each with the model's verdict.

    bench/audit_damage.py [--all] [--program PATH]    # the six rows below, or all rows that the model can play
    bench/audit_damage.py [--all] --write FOLDER      # a file for each case instead, NAME and NAME.stdout, with NAME.args

Each entry is taken out, doubled and exchanged with its neighbour, with the numbers as they were and numbered anew; each digit is
changed; each word is doubled; each letter is put into the other case; a carriage return is put before each line feed and into the
middle of each line; and the journal is cut at every byte.
"""
import argparse
import os
import re
import subprocess
import sys
from collections import Counter
from collections.abc import Callable, Iterator
from multiprocessing import Pool
from pathlib import Path
from typing import NamedTuple

TOP = Path(__file__).resolve().parent.parent
sys.path.insert(0, str(TOP / "bench/model"))

from audit import audit  # noqa: E402
from play import Fault, Outcome, play, sections_of  # noqa: E402

ROWS = TOP / "crates/rv_rows/data"
PROGRAM = TOP / "crates/ravenhost/out/ravenhost"
USUAL = (
    "last_line_decides", "second_caller_while_procedure_runs", "grant_taken_away_while_queued", "full_journal_and_halt",
    "go_two_units", "call_without_a_list", "judged_queue_of_two",
)
# The row of a journal that is judged, and not played, which is damaged as well: its queues take two callers.
JUDGED = "judged_queue_of_two"
# The units of `go_two_units`, whose texts the model can't read, as shapes (own: written down by hand from the texts).
INTEGER = f"{-2**31} {2**31 - 1}"
TWO_UNITS = f"""@shape
unit Plant
protected Valve 20
scalar 0 1 0
scalar {INTEGER} 0
function Get {INTEGER}
procedure Add in {INTEGER}
entry Wait 1 out {INTEGER}
@shape
unit Nav
task Pilot 20
task Aux 20
"""


def numbered(lines: list[str]) -> list[str]:
    """The lines, numbered anew from 1."""
    return [f"{place} {line.split(' ', 1)[1]}" for place, line in enumerate(lines, 1)]


def taken_out(lines: list[str]) -> Iterator[list[str]]:
    for place in range(len(lines)):
        yield lines[:place] + lines[place + 1:]


def doubled(lines: list[str]) -> Iterator[list[str]]:
    for place, line in enumerate(lines):
        yield lines[:place] + [line] + lines[place:]


def exchanged(lines: list[str]) -> Iterator[list[str]]:
    for place in range(len(lines) - 1):
        yield lines[:place] + [lines[place + 1], lines[place]] + lines[place + 2:]


def returned(lines: list[str], within: Callable[[str], int]) -> Iterator[list[str]]:
    """Each line with a carriage return at a place of it."""
    for place, line in enumerate(lines):
        at = within(line)
        yield lines[:place] + [line[:at] + "\r" + line[at:]] + lines[place + 1:]


def digits_changed(journal: str) -> Iterator[str]:
    for found in re.finditer("[0-9]", journal):
        yield journal[:found.start()] + str((int(found[0]) + 1) % 10) + journal[found.end():]


def words_doubled(journal: str) -> Iterator[str]:
    for found in re.finditer("[^ \n]+", journal):
        yield journal[:found.end()] + " " + journal[found.start():]


def letters_in_the_other_case(journal: str) -> Iterator[str]:
    for found in re.finditer("[A-Za-z]", journal):
        yield journal[:found.start()] + found[0].swapcase() + journal[found.end():]


class Damaged(NamedTuple):
    way: str
    journal: str


def damaged(journal: str) -> Iterator[Damaged]:
    """The journal damaged in each way, at each place of it."""
    lines = journal.removesuffix("\n").split("\n")
    moved = {"taken_out": taken_out, "doubled": doubled, "exchanged": exchanged}
    of_lines = {way: list(move(lines)) for way, move in moved.items()}
    of_lines |= {f"{way}_numbered": list(map(numbered, found)) for way, found in of_lines.items()}
    returns = {
        "return_behind": returned(lines, len),
        "return_within": returned(lines, lambda line: len(line) // 2),
    }
    ways: dict[str, Iterator[str]] = {
        **{way: map(text_of, found) for way, found in of_lines.items()},
        "digit": digits_changed(journal),
        "word": words_doubled(journal),
        "letter": letters_in_the_other_case(journal),
        **{way: map(text_of, found) for way, found in returns.items()},
        "cut": (journal[:end] for end in range(len(journal))),
    }
    for way, texts in ways.items():
        for text in texts:
            yield Damaged(way, text)


def text_of(lines: list[str]) -> str:
    return "".join(line + "\n" for line in lines)


def kept_sections(script: str) -> str:
    """The settings and shapes of a script."""
    kept = []
    for opening, lines, _ in sections_of(script):
        if opening in ("@host.toml", "@shape"):
            kept += [opening, *lines]
    return "".join(line + "\n" for line in kept)


def judged_alone(name: str) -> tuple[str, str, str] | None:
    """The sections of a row, the same for the model, and its journal; or nothing where the model can't play it."""
    script = (ROWS / f"{name}.raven").read_bytes()
    if name == JUDGED:
        sections, _, journal = script.decode().partition("@journal\n")
        return sections, sections, journal
    if name == "go_two_units":
        text = script.decode()
        return text[:text.index("@list")], TWO_UNITS, (ROWS / f"{name}.journal").read_text()
    if b"@unit" in script or b"device" in script:
        return None
    try:
        outcome = play(script, False)
        sections = kept_sections(script.decode())
        return sections, sections, outcome.output.decode()
    except (Fault, NotImplementedError, UnicodeDecodeError, ValueError):
        return None


def cases(names: list[str]) -> Iterator[tuple[str, bytes, Outcome]]:
    """A name, a script and the due verdict of each case."""
    for name in names:
        found = judged_alone(name)
        if not found or not found[2]:
            continue
        sections, modelled, journal = found
        for place, text in enumerate(dict.fromkeys([journal, *(each.journal for each in damaged(journal))])):
            behind = "@journal\n" + text
            yield f"{name}_{place}", (sections + behind).encode(), audit((modelled + behind).encode())


def said(program: Path, script: bytes) -> Outcome:
    ended = subprocess.run([program, "audit"], input=script, capture_output=True, timeout=60)
    return Outcome(ended.stdout, ended.stderr, ended.returncode)


def write(folder: Path, names: list[str]) -> int:
    folder.mkdir(parents=True, exist_ok=True)
    count = 0
    for name, script, due in cases(names):
        (folder / name).write_bytes(script)
        (folder / f"{name}.stdout").write_bytes(due.output)
        (folder / f"{name}.args").write_text("audit\n")
        count += 1
    print(f"{count} cases")
    return 0


class Compared(NamedTuple):
    """How often each verdict was due in a row's cases, and the cases in which the program said another."""
    verdicts: Counter[str]
    differing: list[str]


def compared(name: str, program: Path) -> Compared:
    verdicts: Counter[str] = Counter()
    differing = []
    for case, script, due in cases([name]):
        found = said(program, script)
        verdicts[re.sub("[0-9].*", "", due.output.decode() or "fault").strip()] += 1
        if found != due:
            differing.append(f"{case}: said {found}, due {due}")
    return Compared(verdicts, differing)


def compare(program: Path, names: list[str]) -> int:
    verdicts: Counter[str] = Counter()
    different = 0
    with Pool() as pool:
        for found in pool.starmap(compared, [(name, program) for name in names], chunksize=1):
            verdicts += found.verdicts
            different += len(found.differing)
            for line in found.differing:
                print(line)
    told = ", ".join(f"{count} {verdict}" for verdict, count in sorted(verdicts.items()))
    print(f"{sum(verdicts.values())} journals: {told}; {different} differ")
    return 1 if different else 0


def main() -> int:
    parser = argparse.ArgumentParser(description=__doc__, formatter_class=argparse.RawDescriptionHelpFormatter)
    parser.add_argument("--all", action="store_true")
    parser.add_argument("--program", type=Path, default=PROGRAM)
    parser.add_argument("--write", type=Path, metavar="FOLDER")
    arguments = parser.parse_args()
    names = [path.stem for path in sorted(ROWS.glob("*.raven"))] if arguments.all else list(USUAL)
    if arguments.write:
        return write(arguments.write, names)
    program = arguments.program.absolute()
    if not (program.is_file() and os.access(program, os.X_OK)):
        print(f"audit_damage.py: there is no program {program}: build it (./ravenhost --prove does), or name one by --program",
              file=sys.stderr)
        return 127
    return compare(program, names)


if __name__ == "__main__":
    sys.exit(main())
