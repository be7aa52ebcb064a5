"""Verdicts of the program on unit texts, beside those that are due."""
import re
import subprocess
from collections import Counter
from collections.abc import Iterator
from pathlib import Path


def told(program: Path, script: str) -> str:
    """What `check` says last of a script: of the text at its end, or of the first section before it that it refuses."""
    ended = subprocess.run([program, "check"], input=script.encode(), capture_output=True, timeout=60)
    lines = (ended.stdout + ended.stderr).decode(errors="replace").strip().splitlines()
    return re.sub(r"^script line \d+: ", "", lines[-1]) if lines else "nothing"


def kind_of(verdict: str) -> str:
    return "ok" if verdict.endswith(": ok") else verdict.split(" at ")[0]


class Differences:
    """How many verdicts of each kind were due, and the smallest text of each kind of difference."""

    def __init__(self) -> None:
        self.due: Counter[str] = Counter()
        self.differing = 0
        self.smallest: dict[tuple[str, str], tuple[str, str]] = {}

    def add(self, text: str, due: str, said: str, shown: str) -> None:
        """Takes the verdicts on a text, which `shown` shows with what stands before it."""
        self.due[kind_of(due)] += 1
        if due == said:
            return
        self.differing += 1
        kind = kind_of(due), kind_of(said)
        if kind not in self.smallest or len(text) < len(self.smallest[kind][0]):
            self.smallest[kind] = text, f"=== due: {due}\n=== told: {said}\n{shown}\n"

    def report(self) -> Iterator[str]:
        for _, shown in self.smallest.values():
            yield shown
        total = sum(self.due.values())
        yield f"{total} texts: " + ", ".join(f"{name} {times}" for name, times in sorted(self.due.items()))
        yield f"{total} texts, {total - self.due['ok']} refused, {self.differing} differ, in {len(self.smallest)} kinds of difference"
