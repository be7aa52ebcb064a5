#!/usr/bin/env python3
"""Shows how much of its stack the program's own thread touches on the deepest legal texts (`deepest_texts.py`): reading, types, the
tables of the machine, and letting go of trees. Each text is loaded by `run`; then the resident bytes of that stack's mapping are
read, which never shrink. It fails where twice the most is more than rv_unit's STACK_BYTES, which threads that read texts need; the
program's own has several times as much.

    bench/deepest_stack.py [--jobs N] [--text NAME].. PROGRAM..

Statuses: 0 enough, 1 not so, 2 usage. It needs Linux's /proc.
"""
import argparse
import os
import re
import subprocess
import sys
import time
from concurrent.futures import ThreadPoolExecutor

import deepest_texts

TOP = os.path.dirname(os.path.dirname(os.path.abspath(__file__)))
SOURCE = os.path.join(TOP, "crates/rv_unit/src/lib.rt")
PROGRAM = os.path.join(TOP, "crates/ravenhost/src/main.rt")
LIMIT = 600  # seconds for one text
PAGE = "bad command\n"  # the answer to a word that is no command


def stack_bytes():
    """The stack that a thread which reads texts needs, as rv_unit gives it, and that of the program's own, which has it so many times."""
    with open(SOURCE, encoding="utf-8") as file:
        product = re.search(r"pub const STACK_BYTES: usize = ([\d* _]+);", file.read())[1]
    with open(PROGRAM, encoding="utf-8") as file:
        times = int(re.search(r"stack_size\((\d+) \* STACK_BYTES\)", file.read())[1])
    needed_bytes = 1
    for part in product.replace("_", "").split("*"):
        needed_bytes *= int(part)
    return needed_bytes, times * needed_bytes


def touched(process, size):
    """The resident bytes of the mapping that is as large as the stack, or a page or two less."""
    found, most = 0, None
    with open(f"/proc/{process}/smaps", encoding="utf-8") as file:
        for line in file:
            if head := re.match(r"([0-9a-f]+)-([0-9a-f]+) rw", line):
                bytes_mapped = int(head[2], 16) - int(head[1], 16)
                most = size - 65536 <= bytes_mapped <= size + 65536
            elif re.match(r"[0-9a-f]+-[0-9a-f]+ ", line):
                most = False
            elif most and (resident := re.match(r"Rss: +(\d+) kB", line)):
                found = max(found, int(resident[1]) * 1024)
    return found


def needed(program, size, text):
    """How much of the stack one text touches; None where the program doesn't answer."""
    process = subprocess.Popen([program, "run"], stdin=subprocess.PIPE, stdout=subprocess.PIPE, stderr=subprocess.PIPE, text=True)
    until = time.monotonic() + LIMIT
    try:
        process.stdin.write(deepest_texts.script(text) + "@run\nmark\n")
        process.stdin.flush()
        line = process.stdout.readline()
        while line not in (PAGE, "") and time.monotonic() < until:
            line = process.stdout.readline()
        found = touched(process.pid, size) if line == PAGE else None
        process.stdin.write("quit\n")
        process.stdin.close()
        process.wait(timeout=LIMIT)
        return found
    except (BrokenPipeError, subprocess.TimeoutExpired):
        process.kill()
        process.wait()
        return None


def main():
    parser = argparse.ArgumentParser(description="How much stack the deepest texts need.")
    parser.add_argument("--jobs", metavar="N", type=int, default=2)
    parser.add_argument("--text", metavar="NAME", action="append", help="one text alone")
    parser.add_argument("programs", metavar="PROGRAM", nargs="+")
    arguments = parser.parse_args()
    texts = [it for it in deepest_texts.texts() if not arguments.text or it[0] in arguments.text]
    (least, size), is_enough = stack_bytes(), True
    for program in arguments.programs:
        with ThreadPoolExecutor(arguments.jobs) as pool:
            told = list(pool.map(lambda it: (needed(program, size, it[1]), it[0]), texts))
        silent = [name for found, name in told if not found]
        most, name = max((found or 0, name) for found, name in told)
        is_enough = is_enough and not silent and 0 < 2 * most <= least
        print(f"{os.path.basename(program)}: {len(told)} deepest texts; {name} touches the most of the stack, {most:,} bytes; twice that may be {least:,}, and the stack has {size:,}", flush=True)
        if silent:
            print(f"no answer, or no such stack: {' '.join(silent)}", flush=True)
    return 0 if is_enough else 1


if __name__ == "__main__":
    sys.exit(main())
