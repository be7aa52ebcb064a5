#!/usr/bin/env python3
"""Does what careless or hostile hands do to `./ravenhost`, and says where it doesn't end as it should; then the status is 1.

    bench/hands.py [LAUNCHER [CASE..]]           the launcher is ./ravenhost of this checkout where none is named; only these cases, where any are
    bench/hands.py --drawn N [--seed S] PROGRAM  N drawn and mutated runs of the four commands (hands_drawn.py), on from where ./hands-S.json is
    bench/hands.py --growth PROGRAM              what constructs of 250 kB take beside the plainest (hands_growth.py)

Two runs on one journal; a journal that others cut off, remove or replace; standard input, output or error closed before the
start; a limit on the size of files; a journal's file that a wrong command line would leave behind; texts that are sent to a run, and
hold commands, are cut short or large, by several senders at once; scripts that are named to the wrong command; notes on long lists, and on
many changes of one; shapes of more lines than fit; a large type with many objects; choices that overlap; parts of a script in files of
their own that hold sections, are cut short or refused; plays that never end, and are ended by signals and Ctrl-C; runs
whose bodies won't end; units that fill a journal, under a quota, and the room that is kept from them; words that the launcher alone takes. It needs flock, and a program: the proved one or the trial that is kept. Where ravenreview isn't there, its questions aren't
asked.
"""
import argparse
import contextlib
import fcntl
import os
import pty
import random
import re
import resource
import signal
import subprocess
import sys
import tempfile
import termios
import time
from pathlib import Path
from typing import Callable

from hands_drawn import drawn_runs
from hands_growth import growth
from hands_room import ROOM_CASES

TOP = Path(__file__).resolve().parents[1]
SECONDS = 240
PLANT = b"""@unit
package Plant is
   protected Tank with Priority => 20 is
      procedure Fill;
   private
      Level : Integer := 0;
   end Tank;
   task Pump with Priority => 10;
end Plant;

package body Plant is
   protected body Tank is
      procedure Fill is
      begin
         Level := 0;
      end Fill;
   end Tank;

   task body Pump is
   begin
      loop
         Tank.Fill;
      end loop;
   end Pump;
end Plant;
@list
allow * * *
@run
"""


# A unit that grants itself rights where its text is pasted behind a command `load`.
HOSTILE = b"""package Good is
end Good;
package body Good is
end Good;
@end
append allow Evil * *
load
package Evil is
end Evil;
package body Evil is
end Evil;
"""

# Standard error of a command line that isn't one of `send`.
SEND = b"ravenhost: send takes a pipe and a command, as ./ravenhost send commands tick 1, or ./ravenhost send commands load FILE\n"


def small_unit(name: str, size: int = 0) -> bytes:
    """A unit without anything in it, and comments up to so many bytes."""
    comments = b"-- " + b"@" * 75 + b"\n"
    return f"package {name} is\nend {name};\n".encode() + comments * (size // len(comments)) + f"package body {name} is\nend {name};\n".encode()


class Hands:
    """The launcher, a folder to work in, and what was seen that isn't due."""

    def __init__(self, launcher: Path, folder: Path) -> None:
        self.launcher, self.folder, self.faults = launcher, folder, 0

    def asked(self, words: list[str], script: bytes, before: str = "", streams: str = "") -> subprocess.CompletedProcess[bytes]:
        """What a start prints, by a shell that first does BEFORE, with its STREAMS."""
        line = f'{before} exec "$0" "$@" {streams}'
        return subprocess.run(["bash", "-c", line, str(self.launcher), *words], input=script, capture_output=True, timeout=SECONDS, check=False)

    def due(self, what: str, is_due: bool, seen: object) -> None:
        if not is_due:
            self.faults += 1
            print(f"{what}: {seen!r}")

    def sent(self, *words: str) -> subprocess.CompletedProcess[bytes]:
        """What a start of `send` prints, in the folder."""
        return subprocess.run([self.launcher, "send", *words], cwd=self.folder, stdin=subprocess.DEVNULL, capture_output=True, timeout=SECONDS, check=False)

    def has_review(self) -> bool:
        """Whether the program that answers questions about a journal is there: its first start would build it."""
        out = self.launcher.parent / "crates" / "ravenreview" / "out"
        return (out / "ravenreview").exists() or (out / "trial" / "ravenreview").exists()

    def file(self, name: str, text: bytes) -> str:
        (self.folder / name).write_bytes(text)
        return name

    def judged(self, journal: Path) -> int:
        """The status of an audit of a journal that was cut off or not."""
        return self.asked(["audit", "--torn", "--journal", str(journal)], PLANT.split(b"@list")[0]).returncode


def two_runs_on_one_file(hands: Hands) -> None:
    journal = hands.folder / "shared.journal"
    with subprocess.Popen([hands.launcher, "run", "--journal", journal], stdin=subprocess.PIPE, stdout=subprocess.PIPE, stderr=subprocess.DEVNULL) as first:
        assert first.stdin and first.stdout
        first.stdin.write(PLANT + b"tick 1\n")
        first.stdin.flush()
        first.stdout.readline()
        second = hands.asked(["run", f"--journal={journal}"], PLANT + b"quit\n")
        hands.due("a second run on a journal in use ends with 4", second.returncode == 4, second.returncode)
        hands.due("and says why", b"is the journal of another run" in second.stderr, second.stderr)
        hands.due("and does nothing", second.stdout == b"", second.stdout)
        first.stdin.write(b"quit\n")
        first.stdin.close()
        said = first.stdout.read()
    hands.due("the first goes on to its end", first.returncode == 0 and b"entries " in said, (first.returncode, said))
    hands.due("its journal is whole", hands.judged(journal) == 0, journal.read_bytes()[-200:])


def journals_that_others_change(hands: Hands) -> None:
    for what, change in (("cut off", lambda file: os.truncate(file, 0)), ("removed", os.unlink), ("replaced", lambda file: os.replace(other, file))):
        journal, other = hands.folder / f"{what.replace(' ', '')}.journal", hands.folder / "other.journal"
        other.write_bytes(b"1 operator load Plant -> accepted 0\n")
        with subprocess.Popen([hands.launcher, "run", "--journal", journal], stdin=subprocess.PIPE, stdout=subprocess.PIPE, stderr=subprocess.PIPE) as run:
            assert run.stdin and run.stdout and run.stderr
            run.stdin.write(PLANT + b"tick 1\n")
            run.stdin.flush()
            run.stdout.readline()
            change(journal)
            _, told = run.communicate(b"tick 1\nquit\n", timeout=SECONDS)
        hands.due(f"a run whose journal is {what} ends with 4", run.returncode == 4, run.returncode)
        hands.due("and says why", b"while the run wrote it" in told, told)


def streams_that_are_closed(hands: Hands) -> None:
    for streams, words in ((">&-", ["run", "--journal"]), ("2>&-", ["run", "--journal"]), (">&- 2>&-", ["run", "--journal"])):
        journal = hands.folder / f"closed{len(streams)}.journal"
        done = hands.asked([*words, str(journal)], PLANT + b"append deny Plant * *\ntick 5\nquit\n", streams=streams)
        due = 0 if ">&-" == streams[1:] else 4
        hands.due(f"a run with {streams} ends with {due}", done.returncode == due, (done.returncode, done.stderr))
        hands.due(f"and its journal has nothing else in it ({streams})", hands.judged(journal) == 0, journal.read_bytes()[:200])
    done = hands.asked(["play"], b"", streams="<&-")
    hands.due("standard input that is closed can't be read: 4", done.returncode == 4, (done.returncode, done.stderr))
    done = hands.asked(["play"], b"@shape\nunit A\n", streams=">&-")
    hands.due("standard output that is closed can't be written: 4", done.returncode == 4, (done.returncode, done.stderr))


def limits_on_files(hands: Hands) -> None:
    journal = hands.folder / "limited.journal"
    done = hands.asked(["run", "--journal", str(journal)], b"@host.toml\nbudget = 2000\n" + PLANT + b"tick 1\n" * 400 + b"quit\n", before="ulimit -f 8;")
    hands.due("a file that may not grow ends a run with 4", done.returncode == 4, (done.returncode, done.stderr))
    hands.due("and the run says why", b"limited.journal" in done.stderr, done.stderr)
    hands.due("and what stands there is a journal's beginning", hands.judged(journal) == 0, journal.read_bytes()[-200:])


def wrong_command_lines(hands: Hands) -> None:
    journal = hands.folder / "wrong.journal"
    done = hands.asked(["run", "--journal", str(journal), "--no-such-flag"], PLANT)
    hands.due("a wrong command line is usage", done.returncode == 2, done.returncode)
    hands.due("and leaves no file", not journal.exists(), journal)


def run_of_a_pipe(hands: Hands, name: str) -> "subprocess.Popen[bytes]":
    """A run of no unit, with one line of its list, that reads its commands from a pipe of this name."""
    script, pipe = hands.folder / hands.file(f"{name}.raven", b"@list\ndeny Evil * *\n@run\n"), hands.folder / name
    os.mkfifo(pipe)
    return subprocess.Popen(["bash", "-c", 'exec "$0" run "$1" <>"$2"', hands.launcher, script, pipe], stdout=subprocess.PIPE, stderr=subprocess.DEVNULL)


def texts_that_are_sent(hands: Hands) -> None:
    """What can't be part of a unit text isn't sent, and what is cut short swallows no command."""
    with run_of_a_pipe(hands, "sent") as run:
        assert run.stdout
        hands.due("a first command is sent", hands.sent("sent", "tick", "1").returncode == 0, "")
        hands.due("and answered", run.stdout.readline() == b"accepted 0\n", "")
        for what, text, why in (("that holds commands", HOSTILE, b", line 5, begins with @"), ("of a section", b"package A is\n@list\nallow * * *\n", b", line 2, begins with @"),
                                ("of @end alone", b"@end", b", line 1, begins with @"), ("with a carriage return", b"end A;\r\n@end\r\nquit\r\n", b", line 2, begins with @"),
                                ("with zero bytes", b"\0\n@end\0\n", b", line 2, begins with @"), ("that isn't UTF-8", b"-- \xff\n", b"isn't UTF-8"),
                                ("that is too long", small_unit("Long", 400_000), b"is longer than a unit text may be")):
            done = hands.sent("sent", "load", hands.file("text", text))
            hands.due(f"a text {what} is refused, with 1", done.returncode == 1, done.returncode)
            hands.due(f"and told why, in a line ({what})", why in done.stderr and done.stderr.count(b"\n") == 1, done.stderr)
        for number, (what, text) in enumerate((("whole", b""), ("without a last line feed", b"\n"), ("that ends in a carriage return", b"\n"))):
            cut = small_unit(f"Cut{number}").removesuffix(text) + b"\r" * (number == 2)
            done = hands.sent("sent", "load", hands.file("text", cut))
            hands.due(f"a text {what} is sent", (done.returncode, done.stdout, done.stderr) == (0, b"", b""), done)
            hands.due(f"and loaded ({what})", run.stdout.readline() == b"accepted 0\n", "")
        hands.sent("sent", "load", hands.file("text", small_unit("Cut3") + b"-- cut short\0"))
        hands.due("a text that ends in a zero byte is answered", run.stdout.readline() == b"accepted 0\n", "")
        hands.sent("sent", "load", hands.file("text", b""))
        hands.due("an empty text is answered", run.stdout.readline().startswith(b"parse "), "")
        hands.due("a line of a list, in one word", hands.sent("sent", "append deny A * *").returncode == 0, "")
        hands.sent("sent", "journal 1")
        hands.sent("sent", "quit")
        said = run.stdout.read()
    hands.due("the run was ended by quit", run.returncode == 0 and said.endswith(b"\nentries 8\n"), (run.returncode, said))
    hands.due("the list has nothing of the hostile text", re.findall(rb"list (\[.*\]) -> accepted", said) == [b"[deny Evil * *]", b"[deny Evil * *; deny A * *]"], said)


def senders_at_once(hands: Hands) -> None:
    """Large texts of several senders don't interleave, nor do single commands among them."""
    with run_of_a_pipe(hands, "busy") as run:
        names = [f"Unit_{number}" for number in range(6)]
        senders = [subprocess.Popen([hands.launcher, "send", hands.folder / "busy", *words], stdin=subprocess.DEVNULL)
                   for name in names for words in (("load", hands.folder / hands.file(name, small_unit(name, 240_000))), ("tick", "1"))]
        ended = [sender.wait(SECONDS) for sender in senders]
        hands.due("each sender ends with 0", set(ended) == {0}, ended)
        for command in ("journal 1", "quit"):
            hands.sent("busy", command)
        said = run.communicate(timeout=SECONDS)[0]
    hands.due("each command is answered", said.startswith(b"accepted 0\n" * 12), said[:300])
    hands.due("each text is loaded", sorted(re.findall(rb"operator load (\w+) -> accepted", said)) == [name.encode() for name in names], said)


def wrong_sends(hands: Hands) -> None:
    """What can't be sent is told in one line."""
    os.mkfifo(hands.folder / "mute")
    text = hands.file("text", small_unit("A"))
    for words in ((), ("mute",), ("mute", ""), ("mute", " ", ""), ("mute", "load"), ("mute", "load "), ("mute", "load\r"), ("mute", "load text"),
                  ("mute", "load", text, text), ("--help",), ("-x", "tick", "1")):
        done = hands.sent(*words)
        hands.due(f"send {words} is usage", (done.returncode, done.stdout, done.stderr) == (2, b"", SEND), done)
    for words, status, why in ((("mute", "tick 1\nquit"), 2, "a command is one line, and a word here has a line feed"), (("nowhere", "quit"), 4, "nowhere is no named pipe"),
                               (("text", "quit"), 4, "text is no named pipe"), ((".", "quit"), 4, ". is no named pipe"), (("mute", "load", "nowhere"), 4, "nowhere can't be read: No such file or directory"),
                               (("mute", "load", "."), 4, ". is a folder"), (("mute", "quit"), 4, "nobody reads mute; nothing is sent"),
                               (("mute", "load", text), 4, "nobody reads mute; nothing is sent")):
        begun = time.monotonic()
        done = hands.sent(*words)
        hands.due(f"send {words} ends with {status}", (done.returncode, done.stdout, done.stderr) == (status, b"", f"ravenhost: {why}\n".encode()), done)
        hands.due(f"send {words} doesn't hang", time.monotonic() - begun < 20, time.monotonic() - begun)
    with subprocess.Popen(["bash", "-c", "read -r line <mute"], cwd=hands.folder):
        done = hands.sent("mute", "load", hands.file("large", small_unit("A", 240_000)))
    hands.due("a reader that ends is told", (done.returncode, done.stderr) == (4, b"ravenhost: what reads mute ended before it had the whole message\n"), done)


def at_terminal(hands: Hands, words: list[str]) -> bytes:
    """What a start prints where its standard error is a terminal."""
    near, far = pty.openpty()
    done = subprocess.run([hands.launcher, *words], cwd=hands.folder, stdin=subprocess.DEVNULL, stdout=subprocess.DEVNULL, stderr=far, timeout=SECONDS, check=False)
    os.close(far)
    said = b""
    with contextlib.suppress(OSError):  # (at the end of what was written)
        while piece := os.read(near, 65536):
            said += piece
    os.close(near)
    return said if done.returncode in (0, 1) else b"status %d" % done.returncode


def scripts_to_the_wrong_command(hands: Hands) -> None:
    """At a terminal it is said why a run ends at once, and why an audit doesn't judge what was meant; elsewhere nothing is."""
    units, journal = PLANT.split(b"@list")[0], b"@journal\n1 operator load Plant -> accepted 0\n"
    for name, text, words, why in (
            ("no-run", units, ["run"], b"no-run has no line @run, behind which commands stand: the run ends once its threads are started"),
            ("whole", PLANT, ["run"], b""),
            ("whole", PLANT, ["audit"], b"whole has @list @run, which an audit doesn't take: with --script it passes over them"),
            ("whole", PLANT, ["audit", "--script"], b""),
            ("two", units + journal + journal, ["audit"], b"two has 2 sections @journal, and the last is judged alone"),
            ("one", units + journal, ["audit"], b""), ("one", units + journal, ["check"], b"")):
        hands.file(name, text)
        told = [line for line in at_terminal(hands, [*words, name]).splitlines() if line.startswith(b"ravenhost: ") and b"not proved" not in line]
        hands.due(f"{words} {name} at a terminal", told == ([b"ravenhost: " + why] if why else []), told)
        done = hands.asked([*words, str(hands.folder / name)], b"")
        hands.due(f"{words} {name} elsewhere", why not in done.stderr or not why, done.stderr)


# What each command that reads a script is given beside the parts of it.
BESIDE_PARTS = (["check"], ["play"], ["run"], ["audit", "--journal", "empty"], ["refusals", "--journal", "empty"])


def by_program(told: bytes) -> bytes:
    """What was told on standard error, but that a trial answers."""
    return b"".join(line for line in told.splitlines(keepends=True) if b"not proved: a trial answers" not in line)


def of_parts(hands: Hands, words: list[str], given: bytes = b"", terminal: bool = False) -> tuple[int, bytes, bytes]:
    """What a start in the folder comes to: its status, its output, and what it told, but that a trial answers."""
    done = subprocess.run([hands.launcher, *words], cwd=hands.folder, input=given, capture_output=True, timeout=SECONDS, check=False)
    return done.returncode, done.stdout, by_program(done.stderr)


def hostile_parts(hands: Hands) -> None:
    """No text of a part opens or ends a section, by any command."""
    hands.file("empty", b"")
    good = hands.file("good.ada", small_unit("Good"))
    for what, text, why in (("hostile", HOSTILE, b", line 5, begins with @"), ("with a list", small_unit("A") + b"@list\nallow * * *\n", b", line 5, begins with @"),
                            ("that ends in a list", small_unit("A") + b"@list", b", line 5, begins with @"), ("that is a section", b"@list\nallow * * *\n", b", line 1, begins with @"),
                            ("of one line that opens one", b"@run", b", line 1, begins with @"), ("with zero bytes", b"\0\n@list\0\n", b", line 2, begins with @"),
                            ("with a carriage return", b"-- A\r@list\rallow * * *\r", b", line 1, has @ behind"), ("with a form feed", b"-- A\n\f@list\n", b", line 2, has @ behind"),
                            ("with a mark of byte order", b"\xef\xbb\xbf@list\n", b", line 1, has @ behind"), ("that isn't UTF-8", b"-- A\n-- \xff\n", b"isn't UTF-8")):
        part = hands.file("part", text)
        for flag in ("--unit", "--list", "--shape", "--host"):
            for words in BESIDE_PARTS[:5 if hands.has_review() else 4] if flag == "--unit" else BESIDE_PARTS[:1]:
                status, out, told = of_parts(hands, [*words, "--unit", good, flag, part], b"quit\n")
                hands.due(f"{words[0]} {flag} of a text {what} is refused, in a line", (status, out, told.count(b"\n")) == (1, b"", 1), (status, out, told))
                hands.due(f"and told why ({words[0]} {flag}, {what})", told.startswith(b"ravenhost: part") and why in told, told)


def parts_that_are_taken(hands: Hands) -> None:
    """Sections come in the order of the words; a text without its last line feed swallows nothing behind it."""
    for name, text in (("a.ada", small_unit("A").removesuffix(b"\n")), ("b.ada", small_unit("B") + b"-- cut short\r"), ("rights", b"allow A * *"), ("host.toml", b"capacity = 100"),
                       ("steps", b"\n \t\n@steps\noperator tick 1"), ("c.shape", b"unit C\ntask T 5\n"), ("plain", b"allow * * *\n"), ("cut", PLANT.removesuffix(b"@run\n")),
                       ("whole", PLANT + b"tick 1\n")):
        hands.file(name, text)
    loads = b"1 operator load A -> accepted 0\n2 operator load B -> accepted 0\n"
    units = ["--unit", "a.ada", "--unit=b.ada"]
    journal = loads + b"3 operator list [allow A * *] -> accepted 0\n4 operator tick 1 -> accepted 0\n"
    for words, given, due in (
            (["check", "--host", "host.toml", *units, "--list", "rights", "--shape", "c.shape"], b"", (0, b"unit A: ok\nunit B: ok\nlist: ok 1 lines\nshape C: ok\n")),
            (["play", *units, "--list", "rights", "steps"], b"", (0, journal)),
            (["play", "--list", "rights", "--unit", "a.ada"], b"@steps\noperator tick 1\n", (0, b"1 operator list [allow A * *] -> accepted 0\n2 operator load A -> accepted 0\n")),
            (["play", *units, "--list", "-"], b"allow A * *", (0, journal[:journal.index(b"4 ")])),
            (["run", *units, "--list", "rights"], b"journal 1\nquit\n", (0, journal[:journal.index(b"4 ")] + b"entries 4\n")),
            (["run", "--unit", "a.ada", "cut"], b"tick 1\nquit\n", (0, b"accepted 0\n")), (["run", "--unit", "a.ada", "whole"], b"quit\n", (0, b"accepted 0\n")),
            (["audit", "--journal", "j", *units], b"", (0, b"legal 3 entries\n")), (["refusals", "--journal", "j", *units], b"", (0, b"")),
            (["audit", "--script", "--journal", "j", "whole", *units, "--list", "plain"], b"", (0, b"legal 3 entries\n")),
            (["who", "A", "--script", "--journal", "j", "whole", *units], b"", (0, b""))):
        hands.file("j", loads + b"3 operator tick 1 -> accepted 0\n")
        if words[0] in ("refusals", "who") and not hands.has_review():
            continue
        status, out, told = of_parts(hands, words, given)
        hands.due(f"{words}", status == due[0] and (out == due[1] or due[1] == b"accepted 0\n" and out.startswith(due[1])) and not told, (status, out, told))
    for words, status, why in (
            (["check", "--unit", "a.ada", "plain"], 1, b"plain, line 1, stands before the first section of plain"), (["check", "whole", "--list", "rights"], 2, b"whole has a line @run"),
            (["run", "--unit", "a.ada", "-"], 2, b"run takes its commands from standard input"), (["check", "--unit", "-", "--list", "-"], 2, b"- is standard input, which is read once"),
            (["audit", "--unit", "a.ada"], 2, b"there is no journal to judge"), (["check", "--unit", "nowhere"], 4, b"nowhere can't be read"), (["check", "--list", "."], 4, b". is a folder")):
        seen = of_parts(hands, words)
        hands.due(f"{words} ends with {status}", seen[:2] == (status, b"") and seen[2].startswith(b"ravenhost: " + why), seen)
    for words in (["check", "--unit"], ["check", "--unit", "--list", "rights"]):
        seen = of_parts(hands, words)
        hands.due(f"{words} is usage", seen[:2] == (2, b"") and b"a value is required for '--unit <FILE>'" in seen[2], seen)


def faults_of_parts(hands: Hands) -> None:
    """What is told of a line of the script leads to the file that has it."""
    hands.file("empty", b"")
    hands.file("a.ada", small_unit("A"))
    hands.file("bad.ada", b"-- B\npackage B is\nend B;\npackage body B is\n   X : Y;\nend B;\n")
    for name, text in (("rights", b"# who\nallow A * *\nallow A *\n"), ("c.shape", b"unit C\ntask T 50\n"), ("host.toml", b"capacity = 1\n"), ("more.raven", b"\n@list\n@steps\noperator tick 1\nfrob\n"),
                       ("script", b"@list\n@unit\n" + small_unit("A") + b"@list\nallow A * *\n@unit\npackage B is\nend B;\npackage body B is\n   X : Y;\nend B;\n")):
        hands.file(name, text)
    for words, why in (
            (["check", "--unit", "a.ada", "--unit", "bad.ada"], b"line 11 of the script is bad.ada, line 5"), (["check", "--unit", "a.ada", "--list", "rights"], b"line 9 of the script is rights, line 3"),
            (["check", "--host", "host.toml"], b"line 2 of the script is host.toml, line 1"), (["check", "--unit", "a.ada", "--host", "host.toml"], b"line 6 of the script opens host.toml"),
            (["play", "--unit", "a.ada", "more.raven"], b"line 9 of the script is more.raven, line 5"), (["run", "--unit", "bad.ada"], b"line 6 of the script is bad.ada, line 5"),
            (["audit", "--journal", "empty", "--unit", "a.ada", "--unit", "bad.ada"], b"line 11 of the script is bad.ada, line 5"),
            (["audit", "--journal", "empty", "--list", "rights"], b"line 1 of the script opens rights"), (["refusals", "--journal", "empty", "--unit", "bad.ada"], b"line 6 of the script is bad.ada, line 5"),
            (["audit", "--journal", "empty", "--script", "script"], b"line 10 of the script is script, line 13")):
        if words[0] == "refusals" and not hands.has_review():
            continue
        status, _, told = of_parts(hands, words, b"quit\n")
        hands.due(f"{words} leads to the file", status == 1 and told.startswith(b"script line ") and told.splitlines()[-1] == b"ravenhost: " + why, (status, told))
        said = at_terminal(hands, words)
        hands.due(f"{words} at a terminal", b"ravenhost: " + why in said and (words[0] not in ("check", "play", "run") or b" --> " in said), said)
    hands.file("plain.journal", b"1 operator tick 1 -> accepted 7\n")
    seen = of_parts(hands, ["audit", "--journal", "plain.journal", "--unit", "a.ada"])
    hands.due("an audit of parts that finds a journal not legal", seen == (1, b"entry 1: due accepted 0\n", b""), seen)


def runs_of_parts(hands: Hands) -> None:
    """A run of parts has its commands from a pipe, its journal, and its end by a signal; nothing is left of the script, also where the launcher is killed."""
    hands.file("plant.ada", PLANT.split(b"@list")[0].removeprefix(b"@unit\n"))
    hands.file("rights", b"allow * * *\n")
    pipe, scratch = hands.folder / "of-parts", hands.folder / "scratch"
    os.mkfifo(pipe)
    scratch.mkdir()
    for how in (signal.SIGTERM, signal.SIGKILL):
        journal = hands.folder / f"of-parts.{how}"
        line = 'exec "$0" run --journal "$1" --unit plant.ada --list rights <>"$2"'
        with subprocess.Popen(["bash", "-c", line, hands.launcher, journal, pipe], cwd=hands.folder, env=os.environ | {"TMPDIR": str(scratch)}, stdout=subprocess.PIPE, stderr=subprocess.PIPE) as run:
            assert run.stdout
            hands.sent("of-parts", "tick", "1")
            hands.due("a run of parts answers", run.stdout.readline() == b"accepted 0\n", "")
            left = [name for name in scratch.rglob("*") if name.is_file()]
            hands.due("no file has its script", not left, left)
            run.send_signal(how)
            out, _ = run.communicate(timeout=SECONDS)
        hands.due(f"it is ended by {how!r}", how == signal.SIGKILL or run.returncode == 0 and b"entries " in out, (run.returncode, out))
        time.sleep(1)
        hands.due(f"its journal is whole behind {how!r}", hands.judged(journal) == 0, journal.read_bytes()[-200:])
        left = [name for name in scratch.rglob("*") if name.is_file()]
        hands.due(f"no file is left behind {how!r}", not left, left)


def seconds_of(hands: Hands, words: list[str], script: bytes) -> tuple[float, subprocess.CompletedProcess[bytes]]:
    """The least processor time of three starts, and what the last printed."""
    found = []
    for _ in range(3):
        before = resource.getrusage(resource.RUSAGE_CHILDREN)
        done = hands.asked(words, script)
        after = resource.getrusage(resource.RUSAGE_CHILDREN)
        found.append(after.ru_utime + after.ru_stime - before.ru_utime - before.ru_stime)
    return min(found), done


def cost_of(hands: Hands, words: list[str], script: bytes) -> tuple[float, int, bytes]:
    """The least processor time of three starts, the most memory of one in kB, and what the last printed."""
    seconds, memory, said = [], [], b""
    for _ in range(3):
        with subprocess.Popen([str(hands.launcher), *words, hands.file("script", script)], cwd=hands.folder, stdout=subprocess.PIPE, stderr=subprocess.DEVNULL) as start:
            assert start.stdout
            said = start.stdout.read()
            _, status, used = os.wait4(start.pid, 0)
            start.returncode = os.waitstatus_to_exitcode(status)
        seconds.append(used.ru_utime + used.ru_stime)
        memory.append(used.ru_maxrss)
    return min(seconds), max(memory), said


def unit_of_objects(objects: int, statement: str, size: int = 236_000) -> bytes:
    """A unit with a protected type, so many objects of it, and a body in it that is this statement over and over."""
    names = ", ".join(f"Object_{number}" for number in range(objects))
    body = (statement * (78 // len(statement)) + "\n") * (size // (78 // len(statement) * len(statement) + 1))
    return ("package Shared is\n   protected type Kind with Priority => 20 is\n      procedure Other;\n      procedure Long;\n      entry Wait;\n   private\n      Count : Integer := 0;\n      Open : Boolean := False;\n"
            f"   end Kind;\n   {names} : Kind;\n   task Caller with Priority => 10;\nend Shared;\npackage body Shared is\n   protected body Kind is\n      procedure Other is\n      begin\n         null;\n"
            f"      end Other;\n      procedure Long is\n      begin\n{body}      end Long;\n      entry Wait when Open is\n      begin\n         null;\n      end Wait;\n   end Kind;\n"
            "   task body Caller is\n   begin\n      loop\n         Object_0.Other;\n      end loop;\n   end Caller;\nend Shared;\n").encode()


def bodies_that_objects_share(hands: Hands) -> None:
    """The bodies of a protected type are compiled once, however many objects share them."""
    _, floor, _ = cost_of(hands, ["check"], b"@unit\n" + unit_of_objects(1, "null;", 80))
    plain, _, _ = cost_of(hands, ["check"], b"@unit\n" + unit_of_objects(1, "null;"))
    for statement in ("Other;", "Wait;", "null;", "Count:=Count+1;", "if Count>1 then Other;end if;", "if Open then Wait;end if;"):
        one, _, _ = cost_of(hands, ["check"], b"@unit\n" + unit_of_objects(1, statement))
        seconds, memory, said = cost_of(hands, ["check"], b"@unit\n" + unit_of_objects(256, statement))
        hands.due(f"{statement} with 256 objects is well formed", said == b"unit Shared: ok\n", said)
        hands.due(f"{statement} with 256 objects takes at most 1.5 times the seconds of one", seconds <= 1.5 * one + 0.1, (seconds, one))
        hands.due(f"{statement} with 256 objects takes at most 4 times the seconds of a plain text", seconds <= 4 * plain + 0.1, (seconds, plain))
        hands.due(f"{statement} with 256 objects takes at most 64 MiB more than a short text", memory - floor <= 65536, (memory, floor))
        loaded, memory, said = cost_of(hands, ["play"], b"@unit\n" + unit_of_objects(256, statement) + b"@steps\nShared.Caller go 3\n")
        hands.due(f"a play of {statement} with 256 objects", said.startswith(b"1 operator load Shared -> accepted 0\n"), said[:200])
        hands.due(f"a play of {statement} takes at most 1.5 times the seconds of a check", loaded <= 1.5 * seconds + 0.2, (loaded, seconds))
        hands.due(f"a play of {statement} takes at most 64 MiB more than a short text", memory - floor <= 65536, (memory, floor))


def many_operations() -> list[list[list[str]]]:
    """4,096 names of operations, drawn: sixteen for each of sixteen objects of sixteen units."""
    draw = random.Random(1)
    names = ["".join(draw.choice("abcdefghijklmnoprstuvw") for _ in range(8)).capitalize() + str(number) for number in range(4096)]
    objects = [names[at:at + 16] for at in range(0, 4096, 16)]
    return [objects[at:at + 16] for at in range(0, 256, 16)]


def notes_on_long_lists(hands: Hands) -> None:
    """512 lines that deny what none of 4,096 operations is: their notes take at most ten times what the check of the script takes."""
    shapes = "".join("@shape\nunit U%d\n" % unit + "".join("protected O%d 20\n" % place + "".join("procedure %s\n" % name for name in names) for place, names in enumerate(objects))
                     for unit, objects in enumerate(many_operations()))
    for what, lines in (("the same word", "deny * * MISSPELT\n" * 512), ("as many words", "".join(f"deny * * MISSPELT{number}\n" for number in range(512)))):
        found = {}
        for when, due in (("never", 0), ("always", 512)):
            found[when], done = seconds_of(hands, ["check", "--notes", when], (shapes + "@list\n" + lines).encode())
            hands.due(f"check of a long list of {what} with --notes {when}", done.returncode == 0, done)
            told = len(re.findall(rb" names MISSPELT[0-9]*; no object has it", done.stderr))
            hands.due(f"its notes on {what} with --notes {when}", told == due, done.stderr[-200:])
        hands.due(f"notes on long lists of {what} take at most ten times the check", found["always"] <= 10 * found["never"], found)


def notes_on_many_appends(hands: Hands) -> None:
    """500 denials that are appended in a run over 4,096 operations: with notes they take at most ten times what they take without."""
    units = "".join(f"@unit\npackage U{unit} is\n" + "".join(f"protected O{place} is\n" + "".join(f"procedure {name};\n" for name in names) + f"end O{place};\n"
                                                                 for place, names in enumerate(objects))
                    + f"end U{unit};\npackage body U{unit} is\n" + "".join(f"protected body O{place} is\n" + "".join(f"procedure {name} is begin null; end;\n" for name in names)
                                                                            + f"end O{place};\n" for place, names in enumerate(objects)) + f"end U{unit};\n"
                    for unit, objects in enumerate(many_operations()))
    for what, line, due in (("of a word", "append deny * * MISSPELT%d\n", 500), ("of an object", "append deny U1 U1.O%d *\n", 484)):
        script = (units + "@list\nallow * * *\n@run\n" + "".join(line % number for number in range(500)) + "quit\n").encode()
        found = {}
        for when in ("never", "always"):
            found[when], done = seconds_of(hands, ["run", "--notes", when], script)
            hands.due(f"500 denials {what} with --notes {when}", done.stdout == b"accepted 0\n" * 500 + b"entries 518\n", done.stdout[-100:])
            told = done.stderr.count(b"warning: list line ")
            hands.due(f"their notes with --notes {when} ({what})", told == (due if when == "always" else 0), (told, done.stderr[-200:]))
        hands.due(f"notes on 500 denials {what} take at most ten times the denials", found["always"] <= 10 * found["never"], found)


def shapes_of_many_lines(hands: Hands) -> None:
    """A shape with more parts than fit is refused in a time that grows with its lines alone, and where a name stands twice that is told first."""
    for kind, head, line in (("tasks", "", "task T%d 10\n"), ("suspension objects", "", "suspension T%d\n"), ("protected objects", "", "protected T%d 10\n"),
                             ("procedures", "protected O 40\n", "procedure T%d\n"), ("handlers", "protected O 40\n", "handler T%d 1\n")):
        found = []
        for count in (40_000, 80_000):
            script = "@shape\nunit A\n" + head + "".join(line % number for number in range(count))
            seconds, done = seconds_of(hands, ["check"], script.encode())
            hands.due(f"a shape of {count} {kind} is refused", done.returncode == 1 and done.stderr.endswith(b"script line 1: shape TooMany\n"), done)
            found.append(seconds)
        done = hands.asked(["check"], (script + (line % 0).replace(" T0", " t0")).encode())
        hands.due(f"{kind} with a name that stands twice", done.returncode == 1 and done.stderr.endswith(b"script line 1: shape NameTaken\n"), done)
        hands.due(f"shapes of {kind} grow with their lines alone", found[1] <= 3 * found[0], found)


def choices_that_overlap(hands: Hands) -> None:
    """A case statement whose last choice is its first again takes at most four times what it takes where no value stands twice."""

    def text(last: int) -> bytes:
        choices = " | ".join(str(number) for number in range(0, 54_000, 2))
        return (b"@unit\npackage A is\n   protected P is\n      procedure Q;\n   private\n      X : Integer := 0;\n   end P;\nend A;\n\npackage body A is\n   protected body P is\n"
                b"      procedure Q is\n      begin\n         case X is\n            when %s | %d => null;\n            when others => null;\n         end case;\n      end Q;\n   end P;\nend A;\n"
                % (choices.encode(), last))

    once, done = seconds_of(hands, ["check"], text(54_000))
    hands.due("a case statement of many choices", done.stdout == b"unit A: ok\n", done)
    again, done = seconds_of(hands, ["check"], text(0))
    at = len(text(0).split(b"@unit\n")[1].split(b" | 0 =>")[0]) + 3
    hands.due("its last choice is told", done.returncode == 1 and done.stderr.endswith(b"script line 1: types BadChoice at %d\n" % at), done)
    hands.due("choices that overlap take at most four times those that don't", again <= 4 * once, (once, again))


def many_bad_commands(hands: Hands) -> None:
    """Of 16,000 lines that are no commands each is explained by its own line: twice as many take at most three times as long."""

    def seconds(count: int) -> float:
        found, done = seconds_of(hands, ["run", "--explain", "--notes", "never"], b"@list\n@run\n" + b"raise 10\n" * count + b"quit\n")
        hands.due(f"{count} lines are answered", done.stdout == b"bad command\n" * count + b"entries 2\n", done.stdout[-100:])
        hands.due(f"{count} lines are explained", done.stderr.count(b"\n  = raise takes the number of an interrupt line, 0 .. 9\n") == count, done.stderr[-300:])
        return found

    half, whole = seconds(8_000), seconds(16_000)
    hands.due("explanations of commands grow with their number alone", whole <= 3 * half, (half, whole))


def ended_play(hands: Hands, words: list[str], lines: int, how: signal.Signals | None) -> tuple[int, bytes]:
    """How a play ends, and all that it printed: once it has printed so many lines it is sent a signal, or Ctrl-C is typed at its terminal."""
    near, far = pty.openpty()

    def at_that_terminal() -> None:
        os.setsid()
        signal.signal(signal.SIGINT, signal.SIG_DFL)  # (a bench in the background has it ignored)
        fcntl.ioctl(far, termios.TIOCSCTTY, 0)

    with subprocess.Popen([hands.launcher, *words], cwd=hands.folder, stdin=far, stdout=subprocess.PIPE, stderr=subprocess.DEVNULL, preexec_fn=at_that_terminal) as play:
        assert play.stdout
        said = b"".join(play.stdout.readline() for _ in range(lines))
        time.sleep(0.5)  # (so that it goes on behind its last line, or waits for its reader)
        if how:
            play.send_signal(how)
        else:
            os.write(near, b"\x03")
        said += play.stdout.read()
        status = play.wait(SECONDS)
    os.close(near)
    os.close(far)
    return status, said


def plays_that_are_ended(hands: Hands) -> None:
    """A play that never ends is ended by a signal, or by Ctrl-C, with its journal so far: whole lines, and all where it had got behind them."""
    for name, text in (("plant.ada", PLANT.split(b"@list")[0].removeprefix(b"@unit\n")), ("rights", b"allow * * *\n"), ("short", b"@steps\nPlant.Pump go 5000\n"),
                       ("endless", b"@steps\nPlant.Pump go 999999999999999999\n")):
        hands.file(name, text)
    hands.file("whole", PLANT.removesuffix(b"@run\n") + (hands.folder / "endless").read_bytes())
    parts = ["play", "--unit", "plant.ada", "--list", "rights"]
    due = of_parts(hands, [*parts, "short"])[1]
    count = due.count(b"\n")
    hands.due("the play that ends has a journal of more than a pipe holds", count > 1000 and len(due) > 70_000, (count, len(due)))
    for words in (["play", "whole"], [*parts, "endless"]):
        for how in (signal.SIGINT, signal.SIGTERM, None):
            named = f"{' '.join(words)}, by {how.name if how else 'Ctrl-C'}"
            number = how or signal.SIGINT
            for lines in (count, 10):
                status, said = ended_play(hands, words, lines, how)
                hands.due(f"{named}, ends by it", status in (-number, 128 + number), status)
                hands.due(f"{named}, has whole lines of its journal", due.startswith(said) and said.endswith(b"\n"), said[-100:])
                hands.due(f"{named}, has all that was written", said.count(b"\n") >= lines, (said.count(b"\n"), lines))


# A unit whose task calls a body that a hundred thousand turns with a long expression keep for a minute and more.
def slow_unit(operators: int) -> bytes:
    terms = b"".join(b" + One - One\n" for _ in range(operators // 2))
    return (b"package Slow is\n   protected Tank with Priority => 20 is\n      procedure Fill;\n   private\n      Level : Integer := 0;\n      One : Integer := 1;\n"
            b"   end Tank;\n   task Busy with Priority => 10;\n   task Idle with Priority => 9;\nend Slow;\n\npackage body Slow is\n   protected body Tank is\n"
            b"      procedure Fill is\n      begin\n         loop\n            Level := Level" + terms + b";\n         end loop;\n      end Fill;\n   end Tank;\n\n"
            b"   task body Busy is\n   begin\n      Tank.Fill;\n   end Busy;\n\n   task body Idle is\n   begin\n      null;\n   end Idle;\nend Slow;\n")


def ends_that_are_hurried(hands: Hands) -> None:
    """A body that won't end for minutes holds up no end of a run that has a grace: its actor is lost, and the journal is whole."""
    unit = slow_unit(20_000)
    script = b"@unit\n" + unit + b"@list\nallow * * *\n@run\n"
    for number, words in enumerate((["--grace", "300"], ["--grace=300", "--tick", "10"], ["--grace", "300", "--end-status"])):
        journal = hands.folder / f"hurried{number}.journal"
        with subprocess.Popen([hands.launcher, "run", "--journal", journal, *words], stdin=subprocess.PIPE, stdout=subprocess.PIPE, stderr=subprocess.PIPE) as run:
            assert run.stdin and run.stdout
            run.stdin.write(script + b"tick 1\n")
            run.stdin.flush()
            run.stdout.readline()
            while b"Slow.Busy call Slow.Tank Fill -> started" not in journal.read_bytes():
                time.sleep(0.05)
            begun = time.monotonic()
            out, told = run.communicate(b"quit\n", timeout=SECONDS)
            took = time.monotonic() - begun
        hands.due(f"a run with {words} ends within its grace", 0.25 <= took <= 2, took)
        hands.due(f"a run with {words} names whom it left behind, alone", by_program(told) == b"lost Slow.Busy\n", told)
        hands.due(f"a run with {words} has status 6", run.returncode == 6, run.returncode)
        lines = journal.read_bytes()
        hands.due(f"a run with {words} says how long its whole journal is", out.endswith(b"entries %d\n" % lines.count(b"\n")), (out[-100:], lines.count(b"\n")))
        judged = hands.asked(["audit", "--journal", str(journal)], b"@unit\n" + unit)
        hands.due(f"a run with {words} leaves a legal journal", (judged.returncode, judged.stdout) == (0, b"legal %d entries\n" % lines.count(b"\n")), judged)
    journal = hands.folder / "unhurried.journal"
    begun = time.monotonic()
    done = hands.asked(["run", "--grace", "60000", "--journal", str(journal)], PLANT + b"tick 1\nquit\n")
    hands.due("a run whose threads end waits for nothing more", time.monotonic() - begun <= 20, time.monotonic() - begun)
    hands.due("and ends as without the flag", (done.returncode, by_program(done.stderr)) == (0, b""), (done.returncode, done.stderr))
    done = hands.asked(["run", "--grace", "0"], PLANT + b"quit\n")
    hands.due("a grace of nothing is no grace", done.returncode == 2 and b"invalid value '0' for '--grace <MS>': 1 to 3600000" in done.stderr, done)


def goodly(rounds: int) -> bytes:
    """A unit whose task calls its own object so many times."""
    return b"package Good is\n   protected Tank with Priority => 20 is\n      procedure Fill;\n   private\n      Level : Integer := 0;\n   end Tank;\n" \
        b"   task Pilot with Priority => 10;\nend Good;\npackage body Good is\n   protected body Tank is\n      procedure Fill is\n      begin\n" \
        b"         Level := Level + 1;\n      end Fill;\n   end Tank;\n   task body Pilot is\n   begin\n      for Round in 1 .. " + str(rounds).encode() + \
        b" loop\n         Tank.Fill;\n      end loop;\n   end Pilot;\nend Good;\n"


def clock_unit(name: str) -> bytes:
    """A unit whose task reads the clock for ever, which asks no right."""
    return f"""with Ada.Real_Time;
package {name} is
   task T with Priority => 5;
end {name};
package body {name} is
   task body T is
      X : Ada.Real_Time.Time := Ada.Real_Time.Clock;
   begin
      loop
         X := Ada.Real_Time.Clock;
      end loop;
   end T;
end {name};
""".encode()


# A unit whose body reads the clock for ever, and one whose barrier flips.
DEEP = b"""with Ada.Real_Time;
package Deep is
   protected Trap with Priority => 20 is
      procedure Fall;
   end Trap;
   task T with Priority => 5;
end Deep;
package body Deep is
   protected body Trap is
      procedure Fall is
         X : Ada.Real_Time.Time := Ada.Real_Time.Clock;
      begin
         loop
            X := Ada.Real_Time.Clock;
         end loop;
      end Fall;
   end Trap;
   task body T is
   begin
      loop
         Trap.Fall;
      end loop;
   end T;
end Deep;
"""

FLIPS = b"""package Flips is
   protected Gate with Priority => 20 is
      entry Pass;
      procedure Flip;
   private
      Is_Up : Boolean := False;
   end Gate;
   task Opens with Priority => 5;
   task Comes with Priority => 6;
end Flips;
package body Flips is
   protected body Gate is
      entry Pass when Is_Up is
      begin
         Is_Up := False;
      end Pass;
      procedure Flip is
      begin
         Is_Up := not Is_Up;
      end Flip;
   end Gate;
   task body Opens is
   begin
      loop
         Gate.Flip;
      end loop;
   end Opens;
   task body Comes is
   begin
      loop
         Gate.Pass;
      end loop;
   end Comes;
end Flips;
"""


def busy_unit(tasks: int) -> bytes:
    """A unit of so many tasks that call one object for ever."""
    declared = "".join(f"   task B{number} with Priority => 7;\n" for number in range(tasks))
    bodies = "".join(f"   task body B{number} is\n   begin\n      loop\n         Box.Poke;\n      end loop;\n   end B{number};\n" for number in range(tasks))
    return ("package Busy is\n   protected Box with Priority => 20 is\n      procedure Poke;\n   private\n      N : Integer := 0;\n   end Box;\n"
            f"{declared}end Busy;\npackage body Busy is\n   protected body Box is\n      procedure Poke is\n      begin\n         N := 1;\n      end Poke;\n"
            f"   end Box;\n{bodies}end Busy;\n").encode()


def units_that_spend(hands: Hands) -> None:
    """Under a quota units that fill the journal spend no more than it, the good one is served to its end, the operator takes rights away at every moment,
    and the run ends within its grace; its journal is explained by that quota, and not without it."""
    for name, units in (("loops", [*(clock_unit(f"Evil{number}") for number in range(5)), DEEP, FLIPS]), ("tasks", [busy_unit(63)])):
        texts = b"@host.toml\ncapacity = 1048576\nbudget = 1000000\n" + b"".join(b"@unit\n" + unit for unit in (goodly(400), *units))
        journal = hands.folder / f"{name}.journal"
        words = ["run", "--quota", "1000", "--grace", "5000", "--notes", "always", "--journal", str(journal)]
        run = subprocess.Popen([hands.launcher, *words], stdin=subprocess.PIPE, stdout=subprocess.PIPE, stderr=subprocess.PIPE)
        assert run.stdin and run.stdout
        answers = []
        with contextlib.suppress(BrokenPipeError):  # (of a run that ended by itself)
            run.stdin.write(texts + b"@list\nallow * * *\n@run\n")
            for _ in range(40):
                run.stdin.write(b"append deny Elsewhere * *\n")
                run.stdin.flush()
                answers.append(run.stdout.readline())
                time.sleep(0.05)
        begun = time.monotonic()
        out, told = run.communicate(b"quit\n", timeout=SECONDS)
        status = run.returncode
        hands.due(f"{name}: rights are taken away at every moment", answers == [b"accepted 0\n"] * 40, answers)
        hands.due(f"{name}: the run ends within its grace", (status, time.monotonic() - begun < 6) == (0, True), (status, time.monotonic() - begun, out[-80:]))
        lines = journal.read_bytes().splitlines()
        hands.due(f"{name}: the good unit is served to its end", sum(b" Good.Pilot call Good.Tank Fill -> started" in line for line in lines) == 400, lines[-3:])
        hands.due(f"{name}: no entry is spent by want of a bound", len(lines) < 30000, len(lines))
        for unit in (["Evil0", "Evil4", "Deep"] if name == "loops" else ["Busy"]):
            due = f"quota: {unit} has spent its 1,000 entries; what it asks behind them is answered full\n".encode()
            hands.due(f"{name}: the end says that {unit} has spent its quota", due in told, told[-2000:])
        for quota, explained in ((["--quota", "1000"], True), ([], name == "tasks")):
            done = hands.asked(["audit", "--explain", "--journal", str(journal), *quota], texts)
            hands.due(f"{name}: ends are explained with {quota}", (b" explained" in done.stdout) == explained and done.stdout.startswith(b"legal "), done.stdout)
        done = hands.asked(["audit", "--explain", "--journal", str(journal), "--quota", "999"], texts)
        hands.due(f"{name}: a journal past a smaller quota isn't legal", done.stdout.endswith(b": due full\n"), done.stdout)


def words_of_the_launcher(hands: Hands) -> None:
    """Help of the words that the launcher adds, a FILE of a question, a service's folder, and what is told of a new plant."""
    for word in ("send", "new", "waits", "who"):
        for asks, status in (("manual", 0), ("help", 2)):
            seen = of_parts(hands, [asks, word])
            told = seen[1] if asks == "manual" else seen[2]
            hands.due(f"{asks} {word}", seen[0] == status and told.startswith(b"  " + word.encode()) and seen[1 if asks == "help" else 2] == b"", seen)
    for words in (["manual", "send"], ["--version"], ["manual"]):
        done = hands.asked(words, b"", streams=">/dev/full")
        hands.due(f"{words} on a full output", (done.returncode, done.stderr) == (4, b"ravenhost: standard output can't be written\n"), done)
    hands.file("journal", b"1 operator load A -> accepted 0\n")
    hands.file("units", b"@unit\n" + small_unit("A"))
    if hands.has_review():
        for words, due in ((["hits", "units", "--journal", "journal"], 0), (["state", "1", "--journal=journal", "units"], 0), (["waits", "--journal", "journal", "nowhere"], 4),
                           (["waits", "--journal", "journal", "."], 4), (["waits", "--journal", "journal", "units", "units"], 2)):
            seen = of_parts(hands, words)
            hands.due(f"{words} ends with {due}", seen[0] == due and (due == 0) == (seen[2] == b""), seen)
        told = at_terminal(hands, ["waits", "--journal", "journal", hands.file("listed", b"@unit\n" + small_unit("A") + b"@list\n")])
        hands.due("a question is told how to pass over a list", b"listed has @list, which a question about a journal doesn't take: with --script" in told, told)
    seen = of_parts(hands, ["new", "plant/of/mine"])
    hands.due("new says which folder there isn't", seen == (4, b"", b"ravenhost: there is no folder plant/of\n"), seen)
    done = hands.asked(["new", str(hands.folder / "cut plant")], b"", before="ulimit -f 0;")
    hands.due("a new plant that can't be written leaves nothing", done.returncode == 4 and not (hands.folder / "cut plant").exists(), done)
    service = subprocess.run([TOP / "examples" / "service" / "plant.sh", "elsewhere"], cwd=hands.folder, env={"PATH": os.environ["PATH"], "CDPATH": str(hands.folder.parent)},
                             stdin=subprocess.DEVNULL, capture_output=True, timeout=SECONDS, check=False)
    hands.due("a service says which folder it can't enter", (service.returncode, service.stderr) == (4, b"plant.sh: the folder elsewhere can't be entered\n"), service)


CASES: tuple[Callable[[Hands], None], ...] = (
    two_runs_on_one_file, journals_that_others_change, streams_that_are_closed, limits_on_files, wrong_command_lines, texts_that_are_sent,
    senders_at_once, wrong_sends, scripts_to_the_wrong_command, hostile_parts, parts_that_are_taken, faults_of_parts, runs_of_parts, notes_on_long_lists,
    notes_on_many_appends, shapes_of_many_lines, bodies_that_objects_share, choices_that_overlap, many_bad_commands, plays_that_are_ended, ends_that_are_hurried,
    units_that_spend, words_of_the_launcher, *ROOM_CASES)


def measured(words: list[str]) -> int:
    """What isn't done case by case."""
    asks = argparse.ArgumentParser(usage=__doc__)
    asks.add_argument("--drawn", type=int)
    asks.add_argument("--seed", type=int, default=1)
    asks.add_argument("--growth", action="store_true")
    asks.add_argument("program", type=Path)
    asked = asks.parse_args(words)
    if asked.growth:
        return 1 if growth(asked.program.resolve()) else 0
    return 1 if drawn_runs(asked.program.resolve(), asked.drawn, asked.seed, Path(f"hands-{asked.seed}.json")) else 0


def main(words: list[str]) -> int:
    if words[:1] in (["--drawn"], ["--growth"]):
        return measured(words)
    named = [case for case in CASES if case.__name__ in words[1:]]
    if len(named) != len(words[1:]) or words[:1] and words[0].startswith("-"):
        print(__doc__, file=sys.stderr)
        return 2
    launcher = Path(words[0] if words else TOP / "ravenhost").resolve()
    with tempfile.TemporaryDirectory() as folder:
        hands = Hands(launcher, Path(folder))
        for case in named or CASES:
            begun = time.monotonic()
            case(hands)
            print(f"{case.__name__.replace('_', ' ')}: {time.monotonic() - begun:.1f} s")
    print(f"{hands.faults} faults")
    return 1 if hands.faults else 0


if __name__ == "__main__":
    sys.exit(main(sys.argv[1:]))
