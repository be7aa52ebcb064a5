"""What is said of the ends of bodies in the journals that rows of rv_rows are played to. See ends.sh."""
import pathlib
import re
import subprocess
import sys
import time
from concurrent.futures import ThreadPoolExecutor

import trial

TOP, PROGRAM = pathlib.Path(sys.argv[1]), sys.argv[2]
ROWS = TOP / "crates" / "rv_rows" / "data"
LIMIT = 60  # the longest that a program may take for one script, in seconds
JOBS = 2
SLOWEST = 3  # of how many scripts it is told how long they took


def rows():
    """The names of the rows that are played without a fault, and have the text of a unit. (One that is only checked, whole, goes on
    without end where it is played.)"""
    for script in sorted(ROWS.glob("*.raven")):
        others = [script.with_suffix(suffix) for suffix in (".said", ".verdict", ".fault", ".whole")]
        if not any(other.exists() for other in others) and b"\n@unit" in b"\n" + script.read_bytes():
            yield script.stem


def asked(words, script):
    """What the program writes for one script, or that it was too slow, and how long it took."""
    begun = time.monotonic()
    try:
        said = subprocess.run([PROGRAM, *words], input=script, capture_output=True, timeout=LIMIT).stdout
    except subprocess.TimeoutExpired:
        said = b"no end in %d s\n" % LIMIT
    return said, time.monotonic() - begun


def played(scripts, *words):
    """What the program writes for each of these scripts."""
    if not PROGRAM:
        return trial.written(scripts, words, 3000)
    with ThreadPoolExecutor(JOBS) as pool:
        found = dict(zip(scripts, pool.map(lambda script: asked(words, script), scripts.values())))
    slowest = sorted(found, key=lambda name: -found[name][1])[:SLOWEST]
    print(f"{' '.join(words)}, {len(found)} scripts, the slowest: " + ", ".join(f"{name} {found[name][1]:.1f} s" for name in slowest), flush=True)
    return {name: said for name, (said, _) in found.items()}


def audited(script, journal):
    """The settings and the units of a script, with this journal."""
    kept, is_kept = [], False
    for line in script.splitlines(keepends=True):
        if line.startswith(b"@"):
            is_kept = line.split()[0] in (b"@host.toml", b"@unit", b"@shape")
        if is_kept:
            kept.append(line if line.endswith(b"\n") else line + b"\n")
    return b"".join(kept) + b"@journal\n" + journal


END = re.compile(rb"^(\d+ \S+ end )(-?\d+)((?: -?\d+)* : .* -> done.*)$")


def changed(journal):
    """The journal whose last end with scalars has another first scalar, and the number of that entry; None where none has."""
    lines = journal.splitlines()
    for place in range(len(lines) - 1, -1, -1):
        found = END.match(lines[place])
        if found:
            lines[place] = found[1] + str(int(found[2]) + 1).encode() + found[3]
            return b"".join(line + b"\n" for line in lines), place + 1
    return None


def main():
    names = list(rows())
    scripts = {name: (ROWS / f"{name}.raven").read_bytes() for name in names}
    journals = played(scripts, "play")
    said = played({name: audited(scripts[name], journals[name]) for name in names}, "audit", "--explain")
    wrong, by_hand, ends = 0, [], 0
    for name in names:
        words = said[name].decode().strip().replace("\n", "; ")
        beside = ROWS / f"{name}.ends"
        if beside.exists():
            by_hand.append((name, words))
            is_due = said[name] == beside.read_bytes()
        else:
            found = re.fullmatch(r"legal \d+ entries; ends (\d+) explained", words)
            is_due = found is not None
            ends += int(found[1]) if found else 0
        if not is_due:
            wrong += 1
        print(f"{name}: {words}" + ("" if is_due else "  <- another than is due"))
    print(f"\n{len(names)} rows, {ends} ends explained of those without an end by hand. With ends by hand or without a text:")
    for name, words in by_hand:
        print(f"  {name}: {words}")
    others = {name: changed(journals[name]) for name in names if not (ROWS / f"{name}.ends").exists()}
    others = {name: found for name, found in others.items() if found}
    told = played({name: audited(scripts[name], found[0]) for name, found in others.items()}, "audit", "--explain")
    named = illegal = 0
    for name, (_, entry) in others.items():
        first, *rest = told[name].decode().splitlines() or [""]
        if not first.startswith("legal "):
            illegal += 1
        elif rest and rest[0].startswith((f"entry {entry}: its text gives ", f"entry {entry}: its text asks ")):
            named += 1
        else:
            wrong += 1
            print(f"{name}, entry {entry} changed: {'; '.join([first, *rest])}  <- another than is due")
    print(f"\nWith one scalar changed: {named} journals whose entry is named, {illegal} that aren't legal then")
    return 1 if wrong else 0


sys.exit(main())
