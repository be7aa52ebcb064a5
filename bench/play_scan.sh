#!/usr/bin/env bash
# Measures how long the built program plays long scripts and in how much memory: calls, ten times as many, 1 MB and 16 MiB of
# changes of a short list, and 4,000 changes of a full one, of which each keeps the whole list: some 86 kB. Fails where an answer
# isn't the due one or 16 MiB take 20 seconds or more. It needs python3. The first time it takes over half an hour to prove and
# build the program.
set -eu

python3 -c 'import resource, subprocess, time' 2>/dev/null || {
    echo "bench/play_scan.sh: python3, or its module resource, is missing" >&2
    exit 127
}
cd "$(dirname "$(readlink -f "$0")")/.."
./ravenhost --prove
exec python3 - <<'PYTHON'
import os, subprocess, sys, tempfile, time

PROGRAM = "crates/ravenhost/out/ravenhost"
LONGEST = 16 * 1024 * 1024
SHAPES = open("examples/denied_call.raven").read().partition("@list")[0]
CALL = "Nav.Pilot call Plant.Valve Get\nNav.Pilot end : return 0\n"
# One of each pair takes the right to call Set away, the other gives it back.
CHANGES = ["operator replace {} deny Nav Plant.Valve Set\n", "operator replace {} allow Nav Plant.Valve Set\n"]
CHANGES_OF_512 = "".join(CHANGES).replace("{}", "512")


def script(lines, steps):
    """Returns a script with so many lines in its list."""
    rules = "".join(f"allow Nav Plant.Valve {['Get', 'Set'][at % 2]}\n" for at in range(lines - 1))
    return f"@host.toml\ncapacity = 1048576\n{SHAPES}@list\nallow * * *\n{rules}@steps\n{steps}".encode()


def changes(lines, size):
    """Returns changes of the last line of a list of so many lines, with which a script comes to nearly that many bytes."""
    pair = "".join(CHANGES).replace("{}", str(lines))
    return pair * ((size - len(script(lines, ""))) // len(pair))


def play(name, text, limit=None):
    with tempfile.TemporaryFile() as file:
        file.write(text)
        file.seek(0)
        start = time.monotonic()
        child = subprocess.Popen([PROGRAM, "play"], stdin=file, stdout=subprocess.PIPE)
        journal = child.stdout.read()
        _, status, used = os.wait4(child.pid, 0)
        seconds = time.monotonic() - start
    steps = text.partition(b"@steps\n")[2].count(b"\n")
    due = journal.count(b"-> accepted") + journal.count(b"-> started") + journal.count(b"-> done")
    print(f"{name}: {len(text)} bytes, {steps} steps in {seconds:.2f} s and {used.ru_maxrss / 1024:.0f} MiB")
    if status != 0 or due != steps + 3:
        sys.exit(f"bench/play_scan.sh: status {status}, {due} of {steps + 3} entries with the due answer")
    if limit is not None and seconds >= limit:
        sys.exit(f"bench/play_scan.sh: over {limit} s")


play("calls", script(1, CALL * 2000))
play("calls", script(1, CALL * 20000))
play("changes of a list of 2 lines", script(2, changes(2, 1_000_000)))
play("changes of a list of 2 lines", script(2, changes(2, LONGEST)), 20)
play("changes of a list of 512 lines", script(512, CHANGES_OF_512 * 2000))
PYTHON
