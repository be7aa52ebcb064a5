"""Plays the deepest texts (`deepest_texts.py`) in built programs, each by `play` and by `run`, and compares each journal
with the one that is due. A run has a thread for the task or the line, or for a device, which calls through its port.

    bench/deepest_runs.py [--by play|run] [--jobs N] [--text NAME].. PROGRAM..

Statuses: 0 all as due, 1 not so, 2 usage.
"""
import argparse
import os
import re
import subprocess
import sys
import time
from concurrent.futures import ThreadPoolExecutor

import deepest_texts

TOP = os.path.dirname(os.path.dirname(os.path.abspath(__file__)))
CREW = os.path.join(TOP, "crates/rv_crew/src/running.rt")
LIMIT = 600  # seconds for one text, by one way
PAGE = "bad command\n"  # what ends a page of the journal


def played(program, text):
    """What `play` prints, and its status."""
    script = f"{deepest_texts.script(text)}@steps\n{text.actor} go {len(text.entries)}\n"
    try:
        ended = subprocess.run([program, "play", "--all"], input=script.encode(), capture_output=True, timeout=LIMIT)
    except subprocess.TimeoutExpired:
        return [], "no end", 1
    return ended.stdout.decode().splitlines(), ended.stderr.decode(), ended.returncode


def run(program, text, due):
    """The journal of a run in which the actor's thread does all that is due, and the run's status."""
    process = subprocess.Popen([program, "run"], stdin=subprocess.PIPE, stdout=subprocess.PIPE, stderr=subprocess.PIPE, text=True)
    lines, until = [], time.monotonic() + LIMIT
    try:
        process.stdin.write(deepest_texts.script(text) + "@run\n")
        if text.actor.startswith("Int_"):
            process.stdin.write(f"raise {text.actor[4:]}\n")
            process.stdin.flush()
            process.stdout.readline()
        while len(lines) < due and time.monotonic() < until:
            time.sleep(0.02)
            process.stdin.write("journal 1\nmark\n")
            process.stdin.flush()
            lines = []
            while (line := process.stdout.readline()) not in (PAGE, ""):
                lines.append(line.rstrip("\n"))
            if not line:
                break
        process.stdin.write("quit\n")
        process.stdin.close()
    except BrokenPipeError:
        pass
    try:
        status = process.wait(timeout=LIMIT)
    except subprocess.TimeoutExpired:
        process.kill()
        status = process.wait()
    return lines, process.stderr.read(), status


def misses(program, wanted, name, text):
    """How often a text was played, and how often otherwise than is due, of which it tells."""
    due = deepest_texts.journal(text)
    found = []
    ways = []
    if "run" in wanted:
        ways.append(("run", run(program, text, len(due))))
    if "play" in wanted and text.actor != "Dev.Main":
        ways.append(("play", played(program, text)))
    for way, (lines, fault, status) in ways:
        if status:
            found.append(f"{name} by {way}: status {status} {fault.strip()[:200]}")
        elif lines != due:
            at = next((k for k, (one, other) in enumerate(zip(lines, due)) if one != other), min(len(lines), len(due)))
            found.append(f"{name} by {way}: {lines[at] if at < len(lines) else 'nothing'} in place of {due[at] if at < len(due) else 'nothing'}")
    if found:
        print("\n".join(found), flush=True)
    return len(ways), len(found)


def stack_bytes():
    """The stack of an actor's thread, as the source gives it."""
    with open(CREW, encoding="utf-8") as file:
        product = re.search(r"pub const STACK_BYTES: usize = ([\d* _]+);", file.read())[1]
    whole = 1
    for part in product.replace("_", "").split("*"):
        whole *= int(part)
    return whole


def main():
    parser = argparse.ArgumentParser(description="The deepest texts, played in built programs.")
    parser.add_argument("--by", choices=("play", "run"), action="append", help="one way alone")
    parser.add_argument("--jobs", metavar="N", type=int, default=2)
    parser.add_argument("--text", metavar="NAME", action="append", help="one text alone")
    parser.add_argument("programs", metavar="PROGRAM", nargs="+")
    arguments = parser.parse_args()
    texts = [it for it in deepest_texts.texts() if not arguments.text or it[0] in arguments.text]
    missed = 0
    for program in arguments.programs:
        with ThreadPoolExecutor(arguments.jobs) as pool:
            told = list(pool.map(lambda it: misses(program, arguments.by or ("play", "run"), *it), texts))
        played_times, misses_found = (sum(column) for column in zip(*told))
        missed += misses_found
        print(f"{os.path.basename(program)}: {len(texts)} deepest texts, {played_times} times played, threads with {stack_bytes():,} bytes; {misses_found} missed", flush=True)
    return 1 if missed or len(texts) < (len(arguments.text) if arguments.text else 40) else 0


if __name__ == "__main__":
    sys.exit(main())
