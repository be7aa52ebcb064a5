"""Drawn and mutated runs of `play`, `check`, `run` and `audit`, each by its number and a seed (`bench/hands.py --drawn`).

A run is a script of rv_rows' data that is changed in up to six places, or two of them spliced, with drawn flags; or drawn words alone. Its end is bad
where it has a signal, a status but 0 to 3 (in `run` 6 too), takes more than ten processor seconds, tells more than one fault in `play` or `audit`, or where what it
printed doesn't fit its status: a run's file is to be legal over the units that it kept, and as long as the run says.
"""
import json
import random
import re
import resource
import subprocess
import tempfile
from pathlib import Path
from typing import NamedTuple

ROWS = Path(__file__).resolve().parents[1] / "crates" / "rv_rows" / "data"
SECONDS = 10  # of the processor
WAITS = 120
WORDS = (b"@unit", b"@shape", b"@list", b"@steps", b"@run", b"@journal", b"@host.toml", b"@end", b"allow * * *", b"deny * * *", b"append", b"load", b"quit", b"tick 1",
         b"raise 0", b"journal 1", b"package", b"is", b"begin", b"end", b"loop", b"entry", b"when", b"protected", b"task", b"operator", b"go 999", b"accepted 0", b"-> full",
         b"capacity = 16", b"budget = 1", b"999999999999999999", b"-1", b"\xff", b"\0", b"\r", b"\x1b[31m", "\u202e".encode(), b"\"", b"--", b"(((((((((", b"delay until")
FAULT = re.compile(rb"^script line \d+: ", re.MULTILINE)


class Drawn(NamedTuple):
    """A run: its words, what it reads, and whether it has a journal's file."""
    words: list[str]
    script: bytes
    has_file: bool


def changed(draw: random.Random, text: bytes) -> bytes:
    """A text that is changed in one place."""
    lines = text.split(b"\n")
    at = draw.randrange(len(lines))
    how = draw.randrange(9)
    if how == 0:
        lines[at] = draw.choice(WORDS)
    elif how == 1:
        lines.insert(at, draw.choice(WORDS))
    elif how == 2:
        del lines[at]
    elif how == 3:
        lines.insert(at, lines[draw.randrange(len(lines))])
    elif how == 4:
        words = lines[at].split(b" ")
        words[draw.randrange(len(words))] = draw.choice(WORDS)
        lines[at] = b" ".join(words)
    elif how == 5:
        lines[at] = lines[at] * draw.choice((2, 3, 100))
    elif how == 6:
        lines[at:at] = [lines[at]] * draw.choice((2, 64, 600))
    else:
        whole = bytearray(text or b" ")
        place = draw.randrange(len(whole))
        whole[place:place + draw.randrange(3)] = bytes(draw.randrange(256) for _ in range(draw.randrange(3)))
        return bytes(whole[:draw.randrange(len(whole) + 1)] if how == 8 else whole)
    return b"\n".join(lines)


def commands(draw: random.Random) -> bytes:
    """Lines for a run, of which the last is mostly `quit`."""
    drawn = [draw.choice((b"tick %d" % draw.choice((0, 1, 5, 1_000_000, 1_000_001)), b"append deny A * *", b"append allow * * *", b"remove 1", b"replace 1 deny * * *", b"raise %d" % draw.randrange(12),
                          b"journal %d" % draw.randrange(3), b"status", b"load\npackage Z is\nend Z;\npackage body Z is\nend Z;\n@end", b"load\nnonsense\n@end", b"go 3", draw.choice(WORDS)))
             for _ in range(draw.randrange(8))]
    return b"\n".join([*drawn, *([b"quit"] if draw.random() < 0.9 else []), b""])


def drawn_run(seed: int, number: int, texts: list[bytes]) -> Drawn:
    """The run of a number: the same for the same seed."""
    draw = random.Random(f"{seed} {number}")
    text = draw.choice(texts)
    if draw.random() < 0.1:
        other = draw.choice(texts)
        text = text[:draw.randrange(len(text) + 1)] + other[draw.randrange(len(other) + 1):]
    elif draw.random() < 0.05:
        text = b"\n".join(b" ".join(draw.choice(WORDS) for _ in range(draw.randrange(1, 6))) for _ in range(draw.randrange(40)))
    for _ in range(draw.choice((0, 1, 1, 2, 3, 6))):
        text = changed(draw, text)
    command = draw.choice(("play", "check", "run", "run", "audit"))
    flags = {"play": (["--all"], ["--explain"], ["--notes", "always"]), "check": (["--script"], ["--explain"], ["--notes", "always"]),
             "audit": (["--explain"], ["--notes", "always"], ["--explain", "--quota", "9"]),
             "run": (["--quota", draw.choice(("1", "20", "1000"))], ["--tick", "1"], ["--notes", "always"], ["--explain"], ["--halt-below", "5"], ["--end-status"])}[command]
    chosen = [word for flag in flags if draw.random() < 0.3 for word in flag]
    if command != "run":
        return Drawn([command, *chosen], text, False)
    if "--quota" in chosen and draw.random() < 0.5:
        chosen += ["--operator-room", draw.choice(("1", "8", "1000"))]
    script = re.split(rb"^@run$", text, maxsplit=1, flags=re.MULTILINE)[0]
    has_file = draw.random() < 0.5
    return Drawn([command, "--grace", "2000", *chosen], script + b"\n@run\n" + commands(draw), has_file)


def limit() -> None:
    """A gigabyte of memory at most for each run, and no core of one that dies."""
    resource.setrlimit(resource.RLIMIT_CORE, (0, 0))
    resource.setrlimit(resource.RLIMIT_DATA, (1 << 30, 1 << 30))


def wrong_end(program: Path, run: Drawn, folder: Path) -> str:
    """What is wrong with how a run ends; nothing where all is right."""
    journal, units = folder / "journal", folder / "units"
    for file in (journal, units):
        file.unlink(missing_ok=True)
    words = [*run.words, *(["--journal", "journal", "--keep-units", "units"] if run.has_file else [])]
    before = resource.getrusage(resource.RUSAGE_CHILDREN)
    try:
        done = subprocess.run([program, *words], input=run.script, capture_output=True, timeout=WAITS, check=False, cwd=folder)
    except subprocess.TimeoutExpired:
        if run.words[0] == "play" and re.search(rb"\bgo \d{7}", run.script):
            return ""  # (a play that is asked to go on for ever does, and a note says so)
        return f"it takes more than {WAITS} s by the clock"
    after = resource.getrusage(resource.RUSAGE_CHILDREN)
    took = after.ru_utime + after.ru_stime - before.ru_utime - before.ru_stime
    status = done.returncode
    if status < 0 or status > 6 or status in (3, 4) or status >= 5 and run.words[0] != "run":
        return f"its status is {status}: {done.stderr[-300:]!r}"
    if took > SECONDS:
        return f"it takes {took:.1f} processor seconds"
    if run.words[0] in ("play", "audit") and len(FAULT.findall(done.stderr)) > 1:
        return f"it tells several faults: {done.stderr[:300]!r}"
    if run.words[0] == "run" and status in (0, 5, 6):
        last = re.search(rb"^entries (\d+)\n\Z", done.stdout, re.MULTILINE)
        if not last:
            return f"it doesn't say how many entries there are: {done.stdout[-200:]!r}"
        if run.has_file and journal.read_bytes().count(b"\n") != int(last.group(1)):
            return f"its file has other entries than {last.group()!r}"
    if run.has_file and status in (0, 5, 6):
        judged = subprocess.run([program, "audit", "--journal", "journal", "units"], stdin=subprocess.DEVNULL, capture_output=True, timeout=WAITS, check=False, cwd=folder)
        if not judged.stdout.startswith(b"legal "):
            return f"its journal isn't legal: {judged.stdout!r} {judged.stderr[-200:]!r}"
    return ""


def drawn_runs(program: Path, count: int, seed: int, state: Path) -> int:
    """Tries the runs 0 to COUNT of a seed that STATE doesn't have yet, tells each bad end, and gives how many there are in all."""
    texts = [path.read_bytes() for path in sorted(ROWS.glob("*.raven"))]
    seen = json.loads(state.read_text()) if state.exists() else {"seed": seed, "next": 0, "bad": []}
    if seen["seed"] != seed:
        raise SystemExit(f"{state} is of seed {seen['seed']}")
    limit()
    with tempfile.TemporaryDirectory() as name:
        folder = Path(name)
        for number in range(seen["next"], count):
            run = drawn_run(seed, number, texts)
            wrong = wrong_end(program, run, folder)
            if wrong:
                seen["bad"].append(number)
                kept = state.with_name(f"{state.stem}.{number}.raven")
                kept.write_bytes(run.script)
                print(f"run {number}: {' '.join(run.words)} < {kept}: {wrong}", flush=True)
            seen["next"] = number + 1
            if number % 100 == 99 or wrong:
                state.write_text(json.dumps(seen))
                if number % 5000 == 4999:
                    print(f"{number + 1} runs, {len(seen['bad'])} bad ends", flush=True)
    state.write_text(json.dumps(seen))
    print(f"{seen['next']} runs, {len(seen['bad'])} bad ends")
    return len(seen["bad"])
