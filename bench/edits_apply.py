#!/usr/bin/env python3
"""Whether each must-fail edit can still be applied: of the gate (crates/*/must-fail) and of bench/edits.

    bench/edits_apply.py [CRATE..]     looks at all edits, or at those of these crates

An edit that can't be applied says nothing of a contract, and `rt ci` passes over it. The texts are read as `rt` reads them: a
line `file: PATH`, then pairs of lines `old: TEXT` and `new: TEXT`, where each old text has to stand in the file exactly once
after the pairs before it, and something has to change. It prints a line for each edit that can't be applied and a last line
that counts; the status is 1 where there is one. It needs nothing but Python, and takes a second.
"""
import collections
import os
import pathlib
import re
import sys

TOP = pathlib.Path(os.path.realpath(__file__)).parent.parent
NAME = re.compile(r"[A-Za-z0-9_-][A-Za-z0-9_.-]*\.edit")


def folders_of_edits() -> list[tuple[str, pathlib.Path]]:
    """Each crate's name, beside a folder that has edits of it."""
    found = [(it.parent.name, it) for it in TOP.glob("crates/*/must-fail")]
    found += [(it.name, it) for it in TOP.glob("bench/edits/*")]
    return sorted((crate, folder) for crate, folder in found if folder.is_dir())


def fault_of(text: str, crate: str) -> str | None:
    """Why an edit of the crate can't be applied, or None where it can."""
    texts: dict[str, str] = {}
    first: dict[str, str] = {}
    path, old, pairs = None, None, 0
    for line in text.split("\n"):
        if line.startswith("file: "):
            path, old = line[len("file: "):].strip(), None
            if os.path.normpath(path) != path or not path.startswith(("src/", "specs/", "proofs/")):
                return f"{path} is no file below src/, specs/ or proofs/"
            if path not in texts:
                try:
                    texts[path] = (TOP / "crates" / crate / path).read_text(encoding="utf-8")
                except OSError:
                    return f"there is no file {path}"
                first[path] = texts[path]
        elif line.startswith("old: "):
            old = line[len("old: "):]
        elif line.startswith("new:"):
            if path is None or old is None:
                return "a 'new:' line stands before any 'file:' or 'old:' line"
            count = texts[path].count(old)
            if count != 1:
                return f"{path} has the text `{old.strip()}` {count} times, and not once"
            texts[path] = texts[path].replace(old, line[len("new:"):].removeprefix(" "))
            old, pairs = None, pairs + 1
    if old is not None:
        return "an 'old:' line has no 'new:' line"
    if pairs == 0:
        return "it has no pair of 'old:' and 'new:' lines"
    return "it changes nothing" if texts == first else None


def faults_in(crate: str, folder: pathlib.Path) -> list[tuple[str, str]]:
    """The files of a folder of edits that can't be applied, each with the reason."""
    if not (TOP / "crates" / crate / "src").is_dir():
        return [(str(folder.relative_to(TOP)), f"there is no crate {crate}")]
    found = []
    for file in sorted(folder.iterdir()):
        name = str(file.relative_to(TOP))
        if not file.is_file() or not NAME.fullmatch(file.name):
            found.append((name, "it is no file named SUBJECT.edit"))
            continue
        fault = fault_of(file.read_text(encoding="utf-8", errors="replace"), crate)
        if fault is not None:
            found.append((name, fault))
    return found


def main(crates: list[str]) -> int:
    """Looks at the edits, and prints what can't be applied."""
    folders = folders_of_edits()
    unknown = sorted(set(crates) - {crate for crate, _ in folders})
    if unknown or any(it.startswith("-") for it in crates):
        print(__doc__ if not unknown or unknown[0].startswith("-") else f"edits_apply.py: no edits of {unknown[0]}", file=sys.stderr)
        return 2
    counts: collections.Counter = collections.Counter()
    for crate, folder in folders:
        if crates and crate not in crates:
            continue
        faults = faults_in(crate, folder)
        for name, fault in faults:
            print(f"{name}: {fault}")
        counts["edits"] += sum(1 for _ in folder.iterdir())
        counts["bad"] += len(faults)
    print(f"{counts['edits']} edits, {counts['bad']} can't be applied")
    return 1 if counts["bad"] else 0


if __name__ == "__main__":
    sys.exit(main(sys.argv[1:]))
