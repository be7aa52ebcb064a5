#!/usr/bin/env python3
"""Looks up each name that docs/CLAIMS.md writes as code, and lists those that the sources don't declare; then the status is 1.

    bench/claims.py [--where]           with --where each name is told with the crates that declare it

A name is a function, a clause, a type, a field or a definition. It has to be declared in src/ or specs/ of a crate: below a head
that names crates, in one of these or of those that they stand on, or in a crate that the same paragraph names. What has a stroke is a
file of the repository, with `*` for any letters, and CRATE for any crate; a row is a file of crates/rv_rows/data. WORDS has what is
no name of the sources.
"""
import re
import sys
from pathlib import Path

TOP = Path(__file__).resolve().parents[1]
CRATES = TOP / "crates"
PAGE = TOP / "docs" / "CLAIMS.md"
# What is written as code and isn't declared: words of scripts, answers and command lines, and what the toolchain or std has.
WORDS = frozenset(
    "rt ci full done stopped unattached audit play check append load raise exit go in FROM deny allow run UNIT FILE None Ok Err Integer Interrupts "
    "remaining contents".split())
CRATE = r"\b(rv_\w+|thread_rows|run_rows|embedding|raven\w+)\b"
NAME = re.compile(r"[A-Za-z_]\w*(?:::[A-Za-z_]\w*)*")
DECLARED_RT = (
    re.compile(r"\b(?:fn|struct|enum|trait|const|static|type|mod)\s+(\w+)"),
    re.compile(r"\bghost\s+\w+\s+(\w+)"),
    re.compile(r"\b(?:ensures|requires|keeps|does|rule|invariant)\s+(\w+)\s*(?:\{|\()"),
    re.compile(r"(?:^|[({,;]\s*)(?:pub(?:\(crate\))? |ghost )*(\w+)\s*:(?!:)"),
    re.compile(r"^\s*(\w+)\s*(?:[,({]|$)"),
)
DECLARED_ANTT = (
    re.compile(r"^\s*(?:(?:pub|abbrev|private|opaque|record|data|module|instance|mutual)\s+)*([\w'.]+)\b[^=]*?[:=]"),
    re.compile(r"\b(?:record|data|module)\s+([\w'.]+)"),
    re.compile(r"^\s*\|\s*([\w']+)"),
)


def declared_by(crate: Path) -> set[str]:
    """The names that a crate declares, and those of its files."""
    names = {crate.name}
    for part, kinds in (("src", DECLARED_RT), ("specs", DECLARED_ANTT)):
        for file in sorted((crate / part).rglob("*.*")) if (crate / part).is_dir() else ():
            if file.suffix not in (".rt", ".antt"):
                continue
            names.add(file.stem)
            for line in file.read_text().splitlines():
                if line.lstrip().startswith(("//", "--")):
                    continue
                for kind in kinds:
                    names.update(kind.findall(line))
    return names


def stands_on() -> dict[str, set[str]]:
    """The crates that each crate stands on, those of the kit left out."""
    below = {}
    for line in (TOP / "crates.txt").read_text().splitlines():
        head, found, tail = line.split("#")[0].partition(":")
        if found:
            below[head.split()[0]] = set(tail.split())
    return below


def paragraphs(text: str):
    """Each paragraph, row of a table or point of a list, with its line and the crates that the head above it names."""
    crates: set[str] = set()
    gathered, begun = "", 1
    for number, line in enumerate([*text.splitlines(), ""], 1):
        begins = not line.strip() or re.match(r"\s*[-*|#]\s?|\S.*\|", line)
        if begins and gathered:
            yield begun, gathered, crates
            gathered = ""
        if line.startswith("#"):
            crates = set(re.findall(CRATE, line))
        bold = re.match(r"\s*[-*|]?\s*(\*\*.+?\*\*)", line)
        if not gathered and bold and re.search(CRATE, bold[1]):
            crates = set(re.findall(CRATE, bold[1]))
        if not gathered:
            begun = number
        gathered += line.strip() + " "
    yield begun, gathered, crates


def is_file(span: str) -> bool:
    places = (TOP, CRATES, TOP / "docs", TOP / "bench", CRATES / "rv_rows")
    name = re.sub(r"\bCRATE\b", "*", span.rstrip("/"))
    return any(any(place.glob(name)) for place in places) or any(CRATES.glob(f"*/{name}.antt"))


def is_row(span: str) -> bool:
    return any((CRATES / "rv_rows" / "data").glob(f"{span.rstrip('*')}*"))


def found_in(name: str, declared: dict[str, set[str]]) -> set[str]:
    """The crates that declare all parts of a name; a part that is a crate's name names that crate alone."""
    parts = name.split("::")
    crates = {parts[0]} if parts[0] in declared and len(parts) > 1 else set(declared)
    wanted = {part for part in parts if part != "specs"}
    return {crate for crate in crates if wanted <= declared[crate]}


def main(words: list[str]) -> int:
    if words not in ([], ["--where"]):
        print(__doc__, file=sys.stderr)
        return 2
    declared = {crate.name: declared_by(crate) for crate in CRATES.iterdir() if crate.is_dir()}
    below = stands_on()
    count = faults = 0
    for line, paragraph, heads in paragraphs(PAGE.read_text()):
        near = heads | set(re.findall(CRATE, paragraph))
        near |= {under for crate in near for under in below.get(crate, ())}
        for span in re.findall(r"`([^`]+)`", paragraph):
            if span.startswith("./ravenhost"):
                continue
            if "/" in span or re.fullmatch(r"\w+\.(py|sh|md|rt|antt)", span):
                count += 1
                if not is_file(span):
                    faults += 1
                    print(f"{PAGE.name}:{line}: there is no file {span}")
                continue
            if span.startswith("-") or not NAME.match(span):
                continue
            for name in NAME.findall(re.sub(r"\.\.", " ", span)):
                if name in WORDS:
                    continue
                count += 1
                crates = found_in(name, declared)
                if "--where" in words:
                    print(f"{name}: {' '.join(sorted(crates)) or 'nowhere'}")
                if not crates and not is_row(span):
                    faults += 1
                    print(f"{PAGE.name}:{line}: nothing declares {name} (`{span}`)")
                elif crates and heads and not crates & near:
                    faults += 1
                    print(f"{PAGE.name}:{line}: {name} is declared in {' '.join(sorted(crates))} alone")
    print(f"{count} names, {faults} faults")
    return 1 if faults else 0


if __name__ == "__main__":
    sys.exit(main(sys.argv[1:]))
