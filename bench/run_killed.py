#!/usr/bin/env python3
"""Kills runs that last, 200 by default, each at a moment of its own, while tasks call without a pause and the journal goes on from file to file:
the entries in the files, one behind the other, have to have the numbers from 1 on, with no gap, and only the last line may be cut off. Each
tenth is audited. Then a run with `--sync each` goes on under strace: a sync has to return between the write of entry N and that of
`archive N`. Says what is wrong, and ends with 1 then. It is no test.

    bench/run_killed.py [COUNT [PROGRAM [FOLDER]]]
"""
import os
import random
import re
import shutil
import subprocess
import sys
import tempfile
import time

from run_lasting import audit, journals, least, sections
from run_pipe import Run, expect_that, faults

SEED = 72
MEBIBYTE = 1048576
ENTRY = re.compile(r"(\d+) (.*)")
ARCHIVE = re.compile(r"operator archive (\d+) -> accepted 0")
CALL = re.compile(r'(\d+) +(?:(write|fdatasync|fsync)\((\d+)(?:<[^>]*>)?(?:, "((?:[^"\\]|\\.)*)")?|<\.\.\. (write|fdatasync|fsync) resumed>)(.*)')


def lines_of(names):
    """The lines in these files, and whether the last is whole."""
    text = b""
    for name in names:
        with open(name, "rb") as file:
            part = file.read()
        expect_that("the size of a file", len(part) <= MEBIBYTE, (name, len(part)))
        expect_that("whole lines in a file that ended", name == names[-1] or part.endswith(b"\n"), name)
        text += part
    return text.split(b"\n")[:-1]


def look(program, file, units, audits):
    names = journals(file)
    for number, line in enumerate(lines_of(names), 1):
        if not line.startswith(b"%d " % number):
            expect_that("no gap", False, (number, line))
            break
    if audits:
        said = audit(program, names, units, "--torn")[0]
        expect_that("the audit", said.startswith("legal "), said)
    return len(names)


def kill(program, folder, draw, audits):
    file, units = os.path.join(folder, "journal"), os.path.join(folder, "units")
    words = ("--lasting", "--journal", file, "--rotate", "1", "--keep-units", units, "--sync", draw.choice(("second", "never", "each")))
    run = Run(program, sections(4096) + "@run\n", words)
    until = time.monotonic() + draw.uniform(0.02, 0.8)
    while time.monotonic() < until and not faults:
        run.ask("tick 1")
    run.process.kill()
    run.process.communicate()
    return look(program, file, units, audits)


def kills(program, count, top):
    draw, files = random.Random(SEED), 0
    for number in range(count):
        with tempfile.TemporaryDirectory(dir=top) as folder:
            files += kill(program, folder, draw, number % 10 == 0)
        if faults:
            return
    print(f"{count} kills, {files} files")


def traced(program, folder):
    """The calls of a run with `--sync each` at the least capacity, as strace tells them."""
    file, trace = os.path.join(folder, "journal"), os.path.join(folder, "trace")
    script = sections(least(program, folder)) + "@run\n" + "tick 1\n" * 300 + "quit\n"
    words = ["strace", "-f", "-qq", "-s", "1000000", "-e", "trace=write,fdatasync,fsync", "-o", trace, program, "run", "--lasting", "--journal", file, "--sync", "each"]
    done = subprocess.run(words, input=script.encode(), stdout=subprocess.DEVNULL, stderr=subprocess.PIPE)
    expect_that("strace", done.returncode == 0, done.stderr)
    with open(trace, encoding="latin-1") as lines:
        return [call.groups() for line in lines if (call := CALL.match(line))]


def synced(program, folder):
    """Whether a sync returned between the writes of entry N and of `archive N`, of each archive."""
    written = safe = archives = 0
    for pid, name, number, text, resumed, rest in traced(program, folder):
        if name == "write" and text and ENTRY.match(text) and number not in ("1", "2"):
            for entry in text.split("\\n")[:-1]:
                place, said = ENTRY.match(entry).groups()
                if archive := ARCHIVE.fullmatch(said):
                    archives += 1
                    expect_that("synced before it was given up", int(archive[1]) <= safe, (entry, safe))
                written = int(place)
        elif (resumed or name) in ("fdatasync", "fsync") and rest.rstrip().endswith("= 0"):
            safe = written
    expect_that("archives", archives > 10, archives)
    print(f"{archives} archives, each behind a sync")


def main():
    count = int(sys.argv[1]) if sys.argv[1:] else 200
    top = os.path.dirname(os.path.dirname(os.path.abspath(__file__)))
    program = os.path.abspath(sys.argv[2]) if sys.argv[2:] else os.path.join(top, "crates/ravenhost/out/ravenhost")
    folder = sys.argv[3] if sys.argv[3:] else None
    kills(program, count, folder)
    if shutil.which("strace"):
        with tempfile.TemporaryDirectory(dir=folder) as here:
            synced(program, here)
    print(f"{len(faults)} faults")
    return 1 if faults else 0


if __name__ == "__main__":
    sys.exit(main())
