#!/usr/bin/env python3
"""Compares accept or refuse of the unit texts of bench/model/static_rules.py with GNAT under `pragma Profile (Ravenscar)`.

    bench/gnat_check.py [--texts N] [--seed S] [--program PATH] [--jobs J]

Each difference is told with its reason, from REASONS below; one that has none is told with GNAT's words. Statuses: 0 each
difference has a reason, 1 one has none, 2 usage, 127 a tool is missing. Without --program the verdict is the one that is due,
which `static_rules.py --program` compares with the program's.
"""
import argparse
import re
import shutil
import subprocess
import sys
import tempfile
from collections import Counter
from concurrent.futures import ThreadPoolExecutor
from pathlib import Path
from typing import NamedTuple

sys.path.insert(0, str(Path(__file__).resolve().parent / "model"))
import static_rules  # noqa: E402

# What GNAT needs beside a text: the package of the host, and the lines Int_0 .. Int_9 in place of this machine's signals.
HOST = "package Host is\n   Access_Denied : exception;\nend Host;\n"
LINES = "package Ada.Interrupts.Names is\n" + "".join(
    f"   Int_{line} : constant Interrupt_ID := {line + 1};\n" for line in range(10)) + "end Ada.Interrupts.Names;\n"
# Operators on times are visible by our own rule where Ada asks for a use clause, which our texts may have without effect.
USE_TYPES = "use type Ada.Real_Time.Time; use type Ada.Real_Time.Time_Span;\n"
COMMAND = ["gcc", "-c", "-gnatc", "-gnat2012", "-gnatws", "-gnatec=ravenscar.adc"]


class Reason(NamedTuple):
    words: str
    due: str  # a pattern of our verdict
    gnat: str  # a pattern of GNAT's first error, which writes words in the case of the text; empty where it takes the text
    text: str = ""  # a pattern of the text


# The first that fits is told.
REASONS = (
    Reason("pragma Profile behind a with clause: Ada wants configuration pragmas first (10.1.5), ours is read and ignored", ": ok$",
           "incorrect placement for configuration pragma"),
    Reason("arguments of a pragma that is read and ignored here (2.8): GNAT knows the pragma, and judges them", ": ok$", 'pragma ".*" does not permit identifier'),
    Reason("a priority outside 1 .. 40 is refused (own): Ada leaves the range to the implementation (13.7, D.1), this machine has 0 .. 98", "^types TooLarge", "", r"priority\s*=>\s*(0|41)\b"),
    Reason("more than 64 variables in a body are refused (own; a capacity, 1.1.3)", "^types TooLarge", "", r"\bV60\b"),
    Reason("bounds of ranges and constants of packages have to be static (own): Ada evaluates them (3.5, 3.3.1)", "^types NotStatic", ""),
    Reason("a function's parameters are in (own): Ada 2012 has all modes (6.1)", "^types BadMode", "", r"\bfunction\s+Extra\b"),
    Reason("GNAT takes a second body of a task, of which Ada has one (3.11.1)", "^names Duplicate", "",
           r"\btask\s+body\s+Pilot\b[\s\S]*\btask\s+body\s+Pilot\b"),
    Reason("limits of a host (own); a line attached twice, a ceiling below the lines' (in Ada at run time: C.3.1, D.3)", "^shape", ""),
    Reason("a named number has each result of its operators in Integer (own): Ada's are universal (3.3.2, 4.9)", "^types TooLarge", "",
           r"\bconstant\s*:=\s*2147483647\s*\*"),
    Reason("a barrier's component has both values of Boolean (own; D.7)", "^types Mismatch", "", r"\brange\s+True\s*\.\.\s*True\b"),
    Reason("an aspect names what stands before it (own): Ada's names what its list declares (13.1.1(11))", "^names NotVisible", "",
           r"\bwith\s+Priority\s*=>\s*Later\b"),
    Reason("Standard has the names that are listed (own): Ada's has the units that stand alone (10.1.1(1))", "^names Unknown", "",
           r"\bStandard\s*\.\s*(Plant|Nav|U_1|Engine_Room|i_7)\s*\."),
    Reason("two actuals of one object are taken (own; 6.4.1(6.15))", ": ok$", "^error: writable actual for .* overlaps"),
    Reason("`others` beside another choice, or not last, is taken (own; 11.2(6))", ": ok$", '^error: "others" must appear alone and last'),
    Reason("a function without a return statement is taken (own; 6.5(5))", ": ok$", '^error: missing "return" statement in function body'),
    Reason("a function that calls an entry of its own unit is taken (own; 9.5(7.1))", ": ok$",
           "^error: within protected function, protected object is constant"),
    Reason("a static value outside its subtype is refused (own): Ada raises Constraint_Error (3.2.2, 4.6), of which GNAT warns", "^types TooLarge", ""),
    Reason("use of a unit is refused (own): Ada takes each package (8.4)", "^names WrongKind", "", r"\buse\s+Plant\b"),
    Reason("a barrier in parentheses is no component's name (own; D.7)", "^restriction Simple_Barriers", "", r"\bwhen\s*\(\s*Ready\s*\)"),
    Reason("an aspect that isn't known is refused: an implementation may have others (13.1.1), and GNAT warns", "^names Unknown", "", r"\bwith\s+Foo\b"),
    Reason("a procedure that a protected body alone has is refused (own): Ada takes it (9.4)", "^names Unknown", "", r"\bprocedure\s+Extra\s+is\s+begin\b"),
)


class Outcome(NamedTuple):
    case: static_rules.Case
    verdict: str
    errors: list[str]


def without_comments(text: str) -> str:
    """The text without comments: Ada's end at other separators than a line feed too (2.2)."""
    return re.sub(r"--[^\n]*", "", text)


def files_of(text: str) -> dict[str, str]:
    """The specification and the body of a unit text, by the names of GNAT's files."""
    text = without_comments(text)
    found = re.search(r"(?i)\bpackage\s+body\b", text)
    name = re.search(r"(?i)\bpackage\s+(\w+)", text)[1].lower()
    spec, body = text[:found.start()], text[found.start():]
    if re.search(r"(?i)\bwith\b[^;]*\bAda\s*\.\s*Real_Time\s*[,;]", spec):
        start = re.search(r"(?i)\bpackage\s", spec).start()
        spec = spec[:start] + USE_TYPES + spec[start:]
    return {f"{name}.ads": spec, f"{name}.adb": body}


def gnat_errors(case: static_rules.Case) -> list[str]:
    """What GNAT has against the unit, in the order of its places; nothing where it takes it."""
    with tempfile.TemporaryDirectory() as folder:
        place = Path(folder)
        (place / "ravenscar.adc").write_text("pragma Profile (Ravenscar);\n")
        (place / "host.ads").write_text(HOST)
        (place / "a-intnam.ads").write_text(LINES)
        for text in filter(None, (case.before, case.text)):
            files = files_of(text)
            for name, part in files.items():
                (place / name).write_text(part)
        body = next(name for name in files if name.endswith(".adb"))
        ended = subprocess.run([*COMMAND, body], cwd=place, capture_output=True, timeout=120)
        told = ended.stderr.decode(errors="replace").splitlines()
        return [line for line in told if re.match(r"[\w-]+\.ad[sb]:\d+", line)] or (told if ended.returncode else [])


def compared(program: Path | None, case: static_rules.Case) -> Outcome:
    verdict = static_rules.told(program, static_rules.script_of(case)) if program else case.verdict
    return Outcome(case, verdict, gnat_errors(case))


def reason_of(outcome: Outcome) -> str | None:
    first = re.sub(r"^[\w-]+\.ad[sb]:\d+:\d+: ", "", outcome.errors[0]) if outcome.errors else ""
    for reason in REASONS:
        if re.search(reason.due, outcome.verdict) and re.search(reason.gnat, first, re.I) and bool(first) == bool(reason.gnat) \
                and re.search(reason.text, without_comments(outcome.case.text), re.I):
            return reason.words
    return None


def main() -> int:
    parser = argparse.ArgumentParser(description="Accept or refuse of unit texts, compared with GNAT.")
    parser.add_argument("--texts", metavar="N", type=int, default=len(static_rules.WRONG_PARTS) * 4)
    parser.add_argument("--seed", metavar="S", type=int, default=0, help="the number of the first text")
    parser.add_argument("--program", metavar="PATH", type=Path, help="asks this program for the verdict on each text")
    parser.add_argument("--jobs", metavar="J", type=int, default=2)
    arguments = parser.parse_args()
    for tool in ("gcc", "gnatmake"):
        if not shutil.which(tool):
            print(f"bench/gnat_check.py: {tool} is missing (Debian's package gnat)", file=sys.stderr)
            return 127
    program = arguments.program.absolute() if arguments.program else None
    cases = [static_rules.draw(seed) for seed in range(arguments.seed, arguments.seed + arguments.texts)]
    with ThreadPoolExecutor(arguments.jobs) as pool:
        outcomes = list(pool.map(lambda case: compared(program, case), cases))
    differing = [it for it in outcomes if it.verdict.endswith(": ok") == bool(it.errors)]
    reasons = Counter(reason_of(it) for it in differing)
    for it in differing:
        if reason_of(it) is None:
            print(f"=== ours: {it.verdict}\n=== GNAT: {it.errors[0] if it.errors else 'takes it'}\n{it.case.before}{it.case.text}")
    both = Counter("taken" if not it.errors else "refused" for it in outcomes if it not in differing)
    print(f"{len(outcomes)} texts: both take {both['taken']}, both refuse {both['refused']}, {len(differing)} differ")
    for words, times in sorted(reasons.items(), key=lambda it: (it[0] is None, it[0] or "")):
        print(f"{times:5} {words or 'no reason is known'}")
    return 1 if None in reasons else 0


if __name__ == "__main__":
    sys.exit(main())
