#!/usr/bin/env python3
"""Does what README.md has a newcomer do in 'A plant in ten minutes', word for word, in a folder of its own, and says what isn't as it
is written there; then the status is 1.

    bench/readme.py

Each command has to end with 0. A line that README.md shows of a journal has to come in the journal, its number aside. It needs a
program: the proved one, or the trial that is kept.
"""
import re
import subprocess
import sys
import tempfile
from pathlib import Path

TOP = Path(__file__).resolve().parents[1]
SECONDS = 300
ENTRY = re.compile(r"\d+ (\S+ .* -> .*)")


def blocks() -> list[str]:
    """The indented blocks below the heading, each as it is to be typed."""
    text = (TOP / "README.md").read_text().split("## A plant in ten minutes\n")[1].split("\n## ")[0]
    return ["\n".join(line[4:] for line in block.splitlines()) for block in re.findall(r"(?:^ {4}.*\n)+", text, re.M)]


def main() -> int:
    if sys.argv[1:]:
        print(__doc__, file=sys.stderr)
        return 2
    faults = count = 0
    with tempfile.TemporaryDirectory() as folder:
        (Path(folder) / "ravenhost").symlink_to(TOP / "ravenhost")
        for block in blocks():
            count += 1
            entry = ENTRY.fullmatch(block)
            if entry:
                journal = (Path(folder) / "plant" / "journal.txt").read_text()
                if entry[1] not in journal:
                    faults += 1
                    print(f"not in the journal: {entry[1]}\n{journal}")
                continue
            done = subprocess.run(["bash", "-o", "pipefail", "-c", block], cwd=folder, capture_output=True, text=True, timeout=SECONDS, check=False)
            if done.returncode != 0 or not done.stdout:
                faults += 1
                print(f"{block}\nends with {done.returncode}: {done.stdout}{done.stderr}")
            if " audit " in block and not done.stdout.startswith("legal "):
                faults += 1
                print(f"{block}\nsays {done.stdout}")
    print(f"{count} blocks, {faults} faults")
    return 1 if faults or count < 6 else 0


if __name__ == "__main__":
    sys.exit(main())
