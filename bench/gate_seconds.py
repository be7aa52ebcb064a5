#!/usr/bin/env python3
"""Processor seconds of the gate by crate: runs `rt ci`, or another command, and looks each second at its processes.

    bench/gate_seconds.py [--keep FILE] [COMMAND..]     runs the command, and prints the table; the samples go to a file, each minute
    bench/gate_seconds.py --read FILE                   prints the table of samples that were kept

A proof is what builds a library or checks a program; tests are a second check of a crate with them; edits are the checks that
must fail, with the second proof that they begin with; programs are their compilers and their runs. What lasts less than a
second may be missed: the last line says how much the command took in all, and how much of it no sample saw. It needs /proc.
"""
import collections
import json
import os
import re
import resource
import subprocess
import sys
import time

TICKS = os.sysconf("SC_CLK_TCK")
KINDS = ("proof", "tests", "edits", "programs")


def kind_of(words: list[str]) -> str:
    """What a process does for the gate, by its command line."""
    tool = os.path.basename(words[0])
    if tool != "rattle":
        return "programs"
    if any(re.search(r"/rt-edits?-", word) for word in words):
        return "edits"
    return "tests" if "--test" in words else "proof"


def crate_of(words: list[str], folder: str) -> str | None:
    """The crate that a process works for, by its command line or by the folder that it stands in."""
    if "--crate-name" in words[:-1]:
        return words[words.index("--crate-name") + 1]
    found = re.search(r"/crates/(\w+)", folder) or re.search(r"/crates/(\w+)/out/", " ".join(words))
    return found[1] if found else None


def descendants(top: int) -> list[int]:
    """A process and all below it."""
    below = collections.defaultdict(list)
    for name in os.listdir("/proc"):
        if name.isdigit():
            try:
                with open(f"/proc/{name}/stat", encoding="utf-8", errors="replace") as file:
                    below[int(file.read().rsplit(") ", 1)[1].split()[1])].append(int(name))
            except OSError:
                pass
    found = [top]
    for process in found:
        found += below[process]
    return found


def look_at(process: int, seen: dict[str, list]) -> None:
    """Notes what a process has taken so far."""
    try:
        with open(f"/proc/{process}/stat", encoding="utf-8", errors="replace") as file:
            fields = file.read().rsplit(") ", 1)[1].split()
        with open(f"/proc/{process}/cmdline", encoding="utf-8", errors="replace") as file:
            words = file.read().split("\0")[:-1]
        folder = os.readlink(f"/proc/{process}/cwd")
    except OSError:
        return
    if words:
        seconds = (int(fields[11]) + int(fields[12])) / TICKS
        seen[f"{process}.{fields[19]}"] = [seconds, crate_of(words, folder), kind_of(words)]


def write_kept(seen: dict[str, list], keep: str | None) -> None:
    """Writes what was seen so far into a file, where one is named: whole, or not at all."""
    if keep:
        with open(f"{keep}.new", "w", encoding="utf-8") as file:
            json.dump(seen, file)
        os.replace(f"{keep}.new", keep)


def sample(command: list[str], keep: str | None) -> dict[str, list]:
    """Runs a command, and gives what each of its processes took. It is kept each minute, so that nothing is lost where this ends."""
    seen: dict[str, list] = {}
    started = subprocess.Popen(command)
    looks = 0
    while started.poll() is None:
        for process in descendants(started.pid)[1:]:
            look_at(process, seen)
        looks += 1
        if looks % 60 == 0:
            write_kept(seen, keep)
        time.sleep(1)
    spent = resource.getrusage(resource.RUSAGE_CHILDREN)
    seen["all"] = [spent.ru_utime + spent.ru_stime, None, "all"]
    return seen


def print_table(seen: dict[str, list]) -> None:
    """Prints what was seen, the dearest crate first."""
    table: dict[str, collections.Counter] = collections.defaultdict(collections.Counter)
    for seconds, crate, kind in seen.values():
        if kind != "all":
            table[crate or "no crate"][kind] += seconds
    print(f"{'crate':<14}" + "".join(f"{kind:>10}" for kind in (*KINDS, "sum")))
    for crate, parts in sorted(table.items(), key=lambda it: -it[1].total()):
        print(f"{crate:<14}" + "".join(f"{parts[kind]:>10.0f}" for kind in KINDS) + f"{parts.total():>10.0f}")
    sums = sum(table.values(), collections.Counter())
    print(f"{'all':<14}" + "".join(f"{sums[kind]:>10.0f}" for kind in KINDS) + f"{sums.total():>10.0f}")
    if "all" in seen:
        whole = seen["all"][0]
        print(f"the command took {whole:.0f} s ({whole / 60:.0f} minutes); no sample saw {whole - sums.total():.0f} of them")


def main(words: list[str]) -> int:
    """Does what the command line asks."""
    if words[:1] == ["--read"] and len(words) == 2:
        with open(words[1], encoding="utf-8") as file:
            print_table(json.load(file))
        return 0
    keep = None
    if words[:1] == ["--keep"] and len(words) > 1:
        keep, words = words[1], words[2:]
    if words[:1] and words[0].startswith("-"):
        print(__doc__, file=sys.stderr)
        return 2
    seen = sample(words or ["rt", "ci"], keep)
    write_kept(seen, keep)
    print_table(seen)
    return 0


if __name__ == "__main__":
    sys.exit(main(sys.argv[1:]))
