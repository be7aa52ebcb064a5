"""How many instructions each construct of 250 kB takes, in what memory, beside the plainest text of that length (`bench/hands.py --growth`).

By callgrind, so to be repeated exactly; it needs valgrind. A construct may take four times the plainest's instructions and 64 MiB more than a short text; notes
and explanations of it ten times what its `check` takes without.
"""
import os
import re
import subprocess
import tempfile
from pathlib import Path
from typing import Callable

SIZE = 250_000
TIMES, NOTED, MEMORY = 4, 10, 65_536


def repeated(head: str, line: str | Callable[[int], str], tail: str) -> str:
    """A text of SIZE bytes whose middle is a line over and over."""
    lines, length, number = [], len(head) + len(tail), 0
    while True:
        text = line if isinstance(line, str) else line(number)
        if not text or length + len(text) > SIZE:
            return head + "".join(lines) + tail
        lines.append(text)
        length += len(text)
        number += 1


def in_body(line: str | Callable[[int], str], declared: str = "", parts: str = "") -> str:
    """A unit with a body that is made of a line."""
    head = (f"@unit\npackage A is\n   protected P is\n      procedure Q;\n      procedure R (V : in Integer);\n   private\n      X : Integer := 0;\n      B : Boolean := False;\n{parts}   end P;\n"
            "end A;\npackage body A is\n   protected body P is\n      procedure R (V : in Integer) is\n      begin\n         X := V;\n      end R;\n      procedure Q is\n" f"{declared}      begin\n")
    return repeated(head, line, "      end Q;\n   end P;\nend A;\n")


def long_line(part: str, head: str, tail: str) -> str:
    """A unit whose body has one statement that is this part over and over."""
    return in_body("", "").replace("      begin\n      end Q;", f"      begin\n         {head}" + part * ((SIZE - 700) // len(part)) + f"{tail}\n      end Q;")


CONSTRUCTS: dict[str, Callable[[], str]] = {
    "null statements": lambda: in_body("         null;\n"),
    "comments": lambda: in_body("         -- " + "x" * 60 + "\n").replace("      end Q;", "         null;\n      end Q;"),
    "assignments": lambda: in_body("         X := X + 1;\n"),
    "calls": lambda: in_body("         R (X);\n"),
    "if statements": lambda: in_body("         if X > 1 then X := 0; elsif B then null; else X := 2; end if;\n"),
    "case statements": lambda: in_body("         case X is when 1 => null; when 2 | 3 => X := 1; when others => null; end case;\n"),
    "choices that overlap": lambda: long_line("1 | ", "case X is when ", "2 => null; when others => null; end case;"),
    "loops": lambda: in_body("         for I in 1 .. 3 loop X := I; end loop;\n"),
    "a long sum": lambda: long_line(" + X", "X := X", ";"),
    "a long difference of brackets": lambda: long_line(" - (X - 1)", "X := X", ";"),
    "a long condition": lambda: long_line(" and then B", "B := B", ";"),
    "a long relation": lambda: long_line(" or (X > 1)", "B := B", ";"),
    "declared constants": lambda: in_body("         null;\n", "".join(f"         C{number} : constant Integer := {number};\n" for number in range(5000))),
    "local variables": lambda: in_body("         null;\n", "".join(f"         V{number} : Integer := X;\n" for number in range(5000))),
    "named numbers": lambda: repeated("@unit\npackage A is\n", lambda number: f"   N{number} : constant := {number};\n", "end A;\npackage body A is\nend A;\n"),
    "types": lambda: repeated("@unit\npackage A is\n", lambda number: f"   type T{number} is range 0 .. {number};\n", "end A;\npackage body A is\nend A;\n"),
    "long names": lambda: in_body(lambda number: f"         X := X + 1; -- {'n' * 50}{number}\n"),
    "a type with 256 objects": lambda: (
        "@unit\npackage A is\n   protected type K is\n      procedure Q;\n   private\n      X : Integer := 0;\n   end K;\n   " + ", ".join(f"O{number}" for number in range(256))
        + " : K;\nend A;\npackage body A is\n   protected body K is\n      procedure Q is\n      begin\n" + "         X := X + 1;\n" * 10000 + "      end Q;\n   end K;\nend A;\n"),
    "shape lines": lambda: repeated("@shape\nunit A\n", lambda number: f"task T{number} 10\n", ""),
    "list lines": lambda: "@list\n" + "".join(f"deny U{number} O{number} * from {number} to {number + 1}\n" for number in range(512)),
    "unread brackets": lambda: in_body("         X := (((((((((((((((((((1)))))))))))))))))));\n"),
    "errors at the end": lambda: in_body("         X := X + 1;\n").replace("      end Q;\n", "         Y := 1;\n      end Q;\n"),
}


def cost(program: Path, words: list[str], text: bytes, folder: Path) -> tuple[int, int, int]:
    """The instructions of a start, its most memory in kB, and its status."""
    script = folder / "script"
    script.write_bytes(text)
    counted = subprocess.run(["valgrind", "--tool=callgrind", "--callgrind-out-file=/dev/null", str(program), *words, str(script)], stdout=subprocess.DEVNULL, stderr=subprocess.PIPE, check=False)
    found = re.search(rb"Collected : (\d+)", counted.stderr)
    assert found, counted.stderr[-300:]
    with subprocess.Popen([str(program), *words, str(script)], stdout=subprocess.DEVNULL, stderr=subprocess.DEVNULL) as start:
        _, status, used = os.wait4(start.pid, 0)
        start.returncode = os.waitstatus_to_exitcode(status)
    return int(found.group(1)), used.ru_maxrss, start.returncode


def growth(program: Path) -> int:
    """Tells how each construct does, and gives how many take more than they may."""
    faults = 0
    with tempfile.TemporaryDirectory() as name:
        folder = Path(name)
        plain, _, _ = cost(program, ["check"], CONSTRUCTS["null statements"]().encode(), folder)
        _, floor, _ = cost(program, ["check"], b"@unit\npackage A is\nend A;\npackage body A is\nend A;\n", folder)
        for what, text in CONSTRUCTS.items():
            script = text().encode()
            silent, memory, status = cost(program, ["check", "--no-explain", "--notes", "never"], script, folder)
            told, _, _ = cost(program, ["check", "--explain", "--notes", "always"], script, folder)
            times = silent / plain * SIZE / max(len(script), SIZE // 10)
            wrong = [why for why, is_wrong in (("instructions", times > TIMES), ("memory", memory - floor > MEMORY), ("notes", told > NOTED * silent)) if is_wrong]
            faults += len(wrong)
            print(f"{what}: {times:.2f} times, {(memory - floor) // 1024} MiB, notes {told / silent:.1f} times, status {status}" + (f": too many {', '.join(wrong)}" if wrong else ""), flush=True)
    print(f"{faults} faults")
    return faults
