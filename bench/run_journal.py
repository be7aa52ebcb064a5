#!/usr/bin/env python3
"""Drives `ravenhost run --journal FILE`: that FILE is a prefix of the journal at each moment, and all of it at the end, also
where the operator is silent, the program is killed or the disk is full. Says what it saw that the documents don't allow, and
ends with 1 then. Needs nothing but Python; the part on syncs needs strace, and says where it is left out.

    bench/run_journal.py [PROGRAM]     the program is crates/ravenhost/out/ravenhost where none is named
    bench/run_journal.py --kills N [PROGRAM]   kills it so often (200)
"""
import os
import random
import re
import resource
import shutil
import signal
import subprocess
import sys
import tempfile
import time

import run_pipe
from run_pipe import LIMIT, PLANT, TOP, Run, expect, expect_that, free, looper, unit, until

SEED = 20261127
OWN = "@run\ntick 5\nappend allow * * *\njournal 1\nquit\n"
OWN_OUT = ("accepted 0\naccepted 0\n1 operator tick 5 -> accepted 0\n2 operator list [allow * * *] -> accepted 0\n"
           "entries 3\n")
OWN_FILE = ("1 operator tick 5 -> accepted 0\n2 operator list [allow * * *] -> accepted 0\n"
            "3 operator halt -> accepted 0\n")
# Two units whose tasks call for as long as they may.
BUSY = "@host.toml\ncapacity = 1048576\nbudget = 100000\n"
FREE = unit(PLANT) + unit(looper("Nav").replace("delay until Next;", "null;")) + unit(looper("Guest")) + "@list\nallow * * *\n"


def bytes_of(name):
    """What stands in a file; nothing where it isn't there yet."""
    try:
        with open(name, "rb") as file:
            return file.read()
    except FileNotFoundError:
        return b""


def text_of(name):
    return bytes_of(name).decode()


def kept(program, file, script, *words):
    """What a run at once writes, and its status."""
    done = subprocess.run([program, "run", "--journal", file, *words], input=script.encode(), stdout=subprocess.PIPE,
                          stderr=subprocess.PIPE, timeout=LIMIT)
    return done.stdout.decode(), done.stderr.decode(), done.returncode


def judged(program, file, script, *words):
    """What `audit` says of a file, over the sections of a script."""
    units = re.sub(r"@list\n[^@]*", "", script.split("@run\n")[0])
    done = subprocess.run([program, "audit", "--journal", file, *words], input=units.encode(), stdout=subprocess.PIPE,
                          stderr=subprocess.PIPE, timeout=LIMIT)
    return done.stdout.decode()


def transcript(program, folder):
    """The worked transcript, by each way to sync, and over an empty file."""
    for words in ((), ("--sync", "each"), ("--sync", "second"), ("--sync", "never"), ("--notes", "always")):
        file = os.path.join(folder, "own" + "".join(words))
        expect(f"a run with {words}", kept(program, file, OWN, *words), (OWN_OUT, "", 0))
        expect(f"its file with {words}", text_of(file), OWN_FILE)
        expect(f"the audit of {words}", judged(program, file, OWN), "legal 3 entries\n")
    empty = os.path.join(folder, "empty")
    open(empty, "w").close()
    expect("a run over an empty file", kept(program, empty, OWN), (OWN_OUT, "", 0))
    expect("the file that was empty", text_of(empty), OWN_FILE)
    for script in (OWN.replace("quit\n", ""), "@list\nallow * * *\n"):
        file = os.path.join(folder, "end")
        out, err, status = kept(program, file, script)
        expect("the end of input", (out.endswith(f"entries {text_of(file).count(chr(10))}\n"), err, status), (True, "", 0))
        os.remove(file)


def refused_files(program, folder):
    """Files that can't take a journal: nothing is carried out, and nothing in them is lost."""
    full, pipe = os.path.join(folder, "full"), os.path.join(folder, "pipe")
    with open(full, "w") as file:
        file.write("mine")
    os.mkfifo(pipe)
    missing = os.path.join(folder, "no", "file")
    for file, why in ((full, "isn't empty"), (folder, "isn't a file"), (pipe, "isn't a file"), ("/dev/null", "isn't a file"),
                      (missing, None)):
        out, err, status = kept(program, file, OWN)
        expect(f"a run into {file}", (out, status), ("", 4))
        expect_that(f"what is said of {file}", err == f"ravenhost: {file} {why}\n" if why else err.startswith(f"ravenhost: {file}: "), err)
    expect("a file that isn't empty", text_of(full), "mine")
    for words in (("--sync", "each"), ("--journal", os.path.join(folder, "x"), "--sync", "often"), ("--torn",)):
        done = subprocess.run([program, "run", *words], input=b"@run\nquit\n", stdout=subprocess.PIPE, stderr=subprocess.PIPE,
                              timeout=LIMIT)
        expect(f"run {words}", (done.stdout, done.returncode), (b"", 2))
    expect_that("no file by a bad word", not os.path.exists(os.path.join(folder, "x")))


def refused_scripts(program, folder):
    """A script that is refused: its journal is printed, and the file stays empty for the next try."""
    for number, (script, out, err) in enumerate(run_pipe.device_faults()):
        file = os.path.join(folder, f"refused{number}")
        for _ in range(2):
            expect("a script that is refused", kept(program, file, script), (out, err, 1))
            expect("its file", text_of(file), "")
    file = os.path.join(folder, "unread")
    expect("a script that isn't one", kept(program, file, "tick 1\n@run\n"), ("", "script line 1: BadSection\n", 1))
    expect("its file", text_of(file), "")


def silent(program, folder):
    """Entries are written while the operator says nothing, also in the midst of a load; each moment is a prefix of the end."""
    file = os.path.join(folder, "silent")
    run = Run(program, BUSY + FREE + "@run\n", words=("--journal", file))
    seen = []

    def grows():
        seen.append(bytes_of(file))
        return len(seen[-1]) > len(seen[0]) + 1000
    until("the file grows while nobody types", grows)
    run.send("load\npackage Late is\n")
    del seen[1:]
    # The busy task passes its budget and ends, whatever the machine's speed, and its end gets there with no more of the load.
    until("the end of a task stands there in the midst of a load", lambda: b" Nav.Pilot finish" in bytes_of(file))
    seen.append(bytes_of(file))
    expect("a run in the midst of a load", run.process.poll(), None)
    run.send("end Late;\n@end\n")
    expect_that("the answer to the load", re.match(r"(parse|names) \w+ at \d+$|accepted 0", run.line()))
    for _ in range(20):
        run.ask("tick 1")
        seen.append(bytes_of(file))
        expect_that("the tick stands there before its answer", b"operator tick 1 -> accepted 0\n" in seen[-1])
    journal = run.journal()
    out, err, status = run.end()
    whole = bytes_of(file)
    expect("the end of a silent run", (err, status), ("", 0))
    for moment in seen:
        expect_that("a moment is a prefix of the end", whole.startswith(moment), moment[-200:])
    expect("how many lines the file has", out, f"entries {whole.count(10)}\n")
    expect("the journal that was printed", whole.decode().splitlines()[:len(journal)], journal)
    expect_that("what audit says", judged(program, file, BUSY + FREE) == f"legal {whole.count(10)} entries\n", judged(program, file, BUSY + FREE))


def as_without(program, folder):
    """The parts of run_pipe.py, each with a file: the same answers, and the file is all of the journal."""
    plain, files = Run.__init__, []

    def kept_run(run, run_program, script, words=(), **how):
        files.append(os.path.join(folder, f"part{len(files)}"))
        how_synced = ("each", "second", "never")[len(files) % 3]
        plain(run, run_program, script, words=(*words, "--journal", files[-1], "--sync", how_synced), **how)
    Run.__init__ = kept_run
    try:
        for part in (run_pipe.commands, run_pipe.device, run_pipe.two_devices, run_pipe.live, run_pipe.closed):
            part(program)
        run_pipe.midst(program, "quit\n", r"entries \d+\n")
        run_pipe.midst(program, "", r"entries \d+\n")
    finally:
        Run.__init__ = plain
    for file in files:
        lines = text_of(file).splitlines()
        run_pipe.numbered("a kept journal", lines)
        expect_that("a kept journal ends in a halt, or behind it", any(" operator halt -> " in line for line in lines), lines[-1:])


def kills(program, folder, times):
    """The program is killed at drawn moments: what stands is legal, but for a torn last line."""
    draw = random.Random(SEED)
    torn = 0
    for number in range(times):
        file = os.path.join(folder, "killed")
        words = ("--journal", file, "--sync", draw.choice(("each", "second", "never")))
        run = Run(program, FREE + "@run\n" + "tick 1\n" * draw.randrange(200), words=words)
        time.sleep(draw.random() * 0.4)
        run.process.send_signal(signal.SIGKILL)
        run.process.communicate(timeout=LIMIT)
        text = bytes_of(file)
        torn += text != b"" and not text.endswith(b"\n")
        said = judged(program, file, FREE, "--torn")
        expect_that(f"what audit says of kill {number}", re.fullmatch(r"legal \d+ entries\n", said) or not os.path.exists(file), said)
        if os.path.exists(file):
            os.remove(file)
    print(f"{times} kills, {torn} torn lines")


def full_disk(program, folder):
    """A file that can't grow any more: the run ends with 4, without the count, and what stands is a prefix."""
    file = os.path.join(folder, "short")

    def limited():
        signal.signal(signal.SIGXFSZ, signal.SIG_IGN)
        resource.setrlimit(resource.RLIMIT_FSIZE, (8192, 8192))
    run = Run(program, FREE + "@run\n", words=("--journal", file), preexec_fn=limited)
    status = run.process.wait(timeout=LIMIT)
    err = run.process.stderr.read().decode()
    expect("the status on a full disk", status, 4)
    expect_that("what is said of a full disk", re.fullmatch(re.escape(f"ravenhost: {file}: ") + ".*\n", err), err)
    expect_that("no count on a full disk", b"entries" not in run.process.stdout.read())
    expect("how much stands there", len(bytes_of(file)), 8192)
    expect_that("what audit says of it", re.fullmatch(r"legal \d+ entries\n", judged(program, file, FREE, "--torn")))
    small = os.path.join(folder, "small")
    os.mkdir(small)
    if subprocess.run(["mount", "-t", "tmpfs", "-o", "size=12k", "tmpfs", small], stderr=subprocess.DEVNULL).returncode:
        print("no small disk can be mounted: left out")
        return
    try:
        file = os.path.join(small, "J")
        run = Run(program, FREE + "@run\n", words=("--journal", file))
        expect("the status on a small disk", run.process.wait(timeout=LIMIT), 4)
        expect_that("what is said of a small disk", run.process.stderr.read().decode().startswith(f"ravenhost: {file}: "))
        expect_that("what audit says of a small disk", re.fullmatch(r"legal \d+ entries\n", judged(program, file, FREE, "--torn")))
    finally:
        subprocess.run(["umount", "-l", small], check=True)


def synced(program, folder):
    """With `each` no answer is written before its entries are synced."""
    if not shutil.which("strace"):
        print("no strace: the part on syncs is left out")
        return
    file, trace = os.path.join(folder, "synced"), os.path.join(folder, "trace")
    script = "@run\n" + "tick 1\n" * 20 + "quit\n"
    subprocess.run(["strace", "-f", "-s", "4096", "-e", "trace=write,fdatasync", "-o", trace, program, "run", "--journal", file, "--sync", "each"],
                   input=script.encode(), stdout=subprocess.PIPE, timeout=LIMIT, check=True)
    # (the next command's entry may be written while an answer is)
    written = syncing = on_disk = answers = 0
    for line in text_of(trace).splitlines():
        if re.search(r"\bwrite\(1,", line):
            answers += len(re.findall("accepted 0|entries ", line))
            expect_that("an answer behind its sync", answers <= on_disk, line)
        elif re.search(r"\bwrite\(", line):
            written += line.count(" operator ")
        elif "fdatasync" in line:
            syncing = syncing if "resumed" in line else written
            on_disk = on_disk if "unfinished" in line else syncing
    expect("answers, and entries that are synced, in the trace", (answers, on_disk), (21, 21))


def filled_in(program, words):
    """How long it takes, in seconds, until calls of four tasks have added a million entries."""
    units = "".join(unit(free(name)) for name in ("Aa", "Bb", "Cc", "Dd"))
    script = "@host.toml\ncapacity = 1048576\nbudget = 1000000\n" + unit(PLANT) + units + "@list\nallow * * *\n@run\n"
    begun = time.monotonic()
    run = Run(program, script, words=("--halt-below", "5000", *words))
    out, err = run.process.stdout.read(), run.process.stderr.read()
    expect_that("the end of a run whose cost is measured", out.startswith(b"entries 10") and not err and run.process.wait(timeout=LIMIT) == 0, (out, err))
    run.process.stdin.close()
    return time.monotonic() - begun


def cost(program, folder):
    """What a file costs: a million entries with it, beside as many without it."""
    file, without, kept = os.path.join(folder, "cost"), [], []
    for _ in range(3):
        without.append(filled_in(program, ()))
        kept.append(filled_in(program, ("--journal", file)))
        os.remove(file)
    print(f"a million entries take {min(without):.2f} s without a file, and {min(kept) / min(without):.2f} times as long with one")


def main():
    words, times = sys.argv[1:], 200
    if words[:1] == ["--kills"]:
        times, words = int(words[1]), words[2:]
    program = os.path.abspath(words[0]) if words else os.path.join(TOP, "crates/ravenhost/out/ravenhost")
    with tempfile.TemporaryDirectory() as folder:
        for part in (transcript, refused_files, refused_scripts, silent, as_without, full_disk, synced, cost):
            try:
                part(program, folder)
            except BrokenPipeError:
                expect_that(part.__name__, False, "the program ended before its input did")
        kills(program, folder, times)
    print(f"{len(run_pipe.faults)} faults")
    return 1 if run_pipe.faults else 0


if __name__ == "__main__":
    sys.exit(main())
