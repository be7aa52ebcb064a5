#!/usr/bin/env python3
"""Tries each edge of the subset that the table of docs/UNITS.md names: what the program says of it, and GNAT under the profile.

    bench/subset.py [PROGRAM]           the proved program of this checkout, else its trial that is kept, where none is named

Each case is a part of one unit. The first of it isn't taken, by the word of its fault, or is (`ok`); GNAT takes it, or names the
restriction. What is to be written instead is taken by both. Statuses: 0 all is so, 1 something isn't, 127 GNAT is missing.
"""
import re
import shutil
import subprocess
import sys
import tempfile
from concurrent.futures import ThreadPoolExecutor
from pathlib import Path
from typing import NamedTuple

sys.path.insert(0, str(Path(__file__).resolve().parent))
from gnat_check import COMMAND, HOST, LINES  # noqa: E402

TOP = Path(__file__).resolve().parents[1]
UNIT = """with Ada.Real_Time, Ada.Synchronous_Task_Control, Ada.Interrupts.Names, Host;
{context} use Ada.Real_Time;
package U is
   {package}
   protected P with Priority => 20 is
      procedure Put (N : in Integer);
      {operations}
   private
      Level : Integer := 0;
      Ready : Boolean := False;
      {components}
   end P;
   task T with Priority => 10;
end U;
package body U is
   {body}
   protected body P is
      procedure Put (N : in Integer) is begin Level := N; Ready := Level > 0; end Put;
      {bodies}
   end P;
   task body T is
      X, Y : Integer := 0;
      B : Boolean := False;
      Start : Time := Clock;
      {own}
   begin
      {does}
   end T;
end U;
"""
PLACES = re.findall(r"\{(\w+)\}", UNIT)


class Edge(NamedTuple):
    """What stands where, what the program and GNAT say of it, and what is to stand there instead."""

    parts: dict[str, str]
    said: str
    gnat: str = "ok"
    instead: dict[str, str] | None = None


def own(text: str) -> dict[str, str]:
    return {"own": text}


def does(text: str) -> dict[str, str]:
    return {"does": text}


def entry(text: str, barrier: str) -> dict[str, str]:
    return {"operations": f"entry E{text};", "bodies": f"entry E when {barrier} is begin null; end E;"}


SMALL = {"package": "subtype Small is Integer range 1 .. 3;"}
NUMBERS = {"package": "Red : constant Integer := 1; Green : constant Integer := 2;"}
FIELDS = {"components": "A : Integer := 0; C : Integer := 0;"}
INNER = {"components": "procedure Inner;", "bodies": "procedure Inner is begin Level := 1; end Inner;"}
EDGES = (
    Edge({"package": "type Small is range 1 .. 3;"}, "parse", instead=SMALL),
    Edge({"package": "type Metres is new Integer;"}, "parse", instead=SMALL),
    Edge({"package": "type Byte is mod 256;"}, "parse", instead={"package": "subtype Byte is Integer range 0 .. 255;"}),
    Edge({"package": "type Colour is (Red, Green);"}, "parse", instead=NUMBERS),
    Edge({"package": "type Pair is record A, C : Integer; end record;"}, "parse", instead=FIELDS),
    Edge({"package": "type Row is array (1 .. 3) of Integer;"}, "parse", instead=FIELDS),
    Edge({"package": "type Link is access Integer;"}, "parse"),
    Edge(own("F : Float := 0.5;"), "lex", instead=own("Hundredths : Integer := 50;")),
    Edge(own("D : Duration := 1.0;"), "lex", instead=own("Milliseconds_Left : Integer := 1000;")),
    Edge(own('S : String := "abc";'), "lex"),
    Edge(own("C : Character := 'a';"), "parse"),
    Edge(own("L : Long_Long_Integer := 1;"), "names", instead=own("L : Integer := 1; N : Natural := 1; M : Positive := 1;")),
    Edge(does("X := 1E3;"), "lex", instead=does("X := 1_000; Y := 16#FF#;")),
    Edge(does("X := X ** 2;"), "lex", instead=does("X := X * X; Y := abs X mod 3 rem 2; B := B xor (X = 1 and then Y = 2);")),
    Edge(does("X := Integer'Succ (X);"), "parse", instead=does("X := X + 1;")),
    Edge(does("X := Integer'Max (X, Y);"), "parse", instead=does("if X < Y then X := Y; end if;")),
    Edge(does("X := Integer'Size;"), "names", instead=does("X := Integer'Last; X := Positive'First;")),
    Edge(does("B := X in 4 .. 8;"), "parse", instead=does("B := X >= 4 and then X <= 8;")),
    Edge(does("X := (if B then 1 else 2);"), "parse", instead=does("if B then X := 1; else X := 2; end if;")),
    Edge(does("X := (case X is when 1 => 2, when others => 3);"), "parse", instead=does("case X is when 1 => X := 2; when others => X := 3; end case;")),
    Edge(does("X := Positive'(3);"), "parse", instead=does("X := Positive (3);")),
    Edge({"body": "Count : Integer := 0;"}, "parse", instead={"components": "Count : Integer := 0;"}),
    Edge({"package": "Most : constant Time := Clock;"}, "types", instead={"package": "Most : constant Integer := 3 * 4;"}),
    Edge({"package": "private\n   Most : constant Integer := 3;"}, "parse", instead={"body": "Most : constant Integer := 3;"}),
    Edge({"package": "package Inside is end Inside;"}, "parse"),
    Edge({"package": "procedure Go;", "body": "procedure Go is begin null; end Go;"}, "parse", instead=INNER),
    Edge({"package": "function F return Integer is (1);"}, "parse",
         instead={"operations": "function F return Integer;", "bodies": "function F return Integer is begin return Level; end F;"}),
    Edge(own("procedure Go is begin null; end Go;"), "parse", instead=INNER),
    Edge({"package": "generic package G is end G;"}, "parse"),
    Edge(own("Z : Integer renames X;"), "parse"),
    Edge({"operations": "procedure Put (B : in Boolean);", "bodies": "procedure Put (B : in Boolean) is begin Ready := B; end Put;"}, "names",
         instead={"operations": "procedure Set (B : in Boolean);", "bodies": "procedure Set (B : in Boolean) is begin Ready := B; end Set;"}),
    Edge({"operations": "procedure Set (N : in Integer := 1);", "bodies": "procedure Set (N : in Integer := 1) is begin Level := N; end Set;"}, "parse",
         instead={"operations": "procedure Set (N : in Integer);", "bodies": "procedure Set (N : in Integer) is begin Level := N; end Set;"}),
    Edge({"operations": "function F (N : in out Integer) return Integer;",
          "bodies": "function F (N : in out Integer) return Integer is begin return N; end F;"}, "types",
         instead={"operations": "procedure F (N : in out Integer; Got : out Integer);",
                  "bodies": "procedure F (N : in out Integer; Got : out Integer) is begin Got := N; end F;"}),
    Edge({"package": "protected type Q (N : Integer) is procedure Go; end Q;", "body": "protected body Q is procedure Go is begin null; end Go; end Q;"}, "parse",
         instead={"package": "protected type Q is procedure Go; end Q; Q1, Q2 : Q;", "body": "protected body Q is procedure Go is begin null; end Go; end Q;"}),
    Edge({"package": "task type V; W : V;", "body": "task body V is begin null; end V;"}, "parse",
         instead={"package": "task V;", "body": "task body V is begin null; end V;"}),
    Edge({"package": "Full : exception;"}, "parse", instead=does("raise Program_Error;")),
    Edge(does('raise Program_Error with "why";'), "lex", instead=does("raise Constraint_Error;")),
    Edge(does("null; exception when E : others => null;"), "parse", instead=does("null; exception when Constraint_Error => null; when others => null;")),
    Edge({"operations": "procedure Set with Pre => True;", "bodies": "procedure Set is begin Level := 1; end Set;"}, "names",
         instead={"operations": "procedure Set;", "bodies": "procedure Set is begin if not Ready then raise Program_Error; end if; end Set;"}),
    Edge({"context": "with Ada.Text_IO;"}, "names"),
    Edge({"package": "use type Ada.Real_Time.Time;"}, "parse", instead={"context": "use type Ada.Real_Time.Time;"}),
    Edge(does("P.Put (N => 1);"), "parse", instead=does("P.Put (1);")),
    Edge(does("declare Z : Integer := 1; begin X := Z; end;"), "parse", instead={"own": "Z : Integer := 1;", "does": "X := Z;"}),
    Edge(does("begin X := 1; exception when others => null; end;"), "parse", instead=does("X := 1; exception when others => null;")),
    Edge(does("Outer : loop exit Outer; end loop Outer;"), "parse", instead=does("loop exit when X > 3; X := X + 1; end loop;")),
    Edge(does("<<Again>> goto Again;"), "parse", instead=does("for I in reverse 1 .. 3 loop X := I; end loop; while X < 3 loop X := X + 1; end loop;")),
    Edge(does("pragma Assert (X = 0);"), "parse", instead=does("if X /= 0 then raise Program_Error; end if;")),
    Edge(does("delay 1;"), "restriction No_Relative_Delay", "violation", does("delay until Clock + Milliseconds (1000);")),
    Edge(does("delay until Clock + Seconds (1);"), "names", instead=does("delay until Clock + Milliseconds (1000);")),
    Edge(does("delay until Clock + Microseconds (1000);"), "names", instead=does("delay until Clock + Milliseconds (1);")),
    Edge(does("B := Clock - Start > Milliseconds (3);"), "types", instead=does("B := Clock > Start + Milliseconds (3);")),
    Edge(does("Start := Start + 2 * Milliseconds (3);"), "types", instead=does("Start := Start + Milliseconds (2 * X);")),
    Edge(does("Start := Time_First;"), "names"),
    Edge(entry("", "Level > 0"), "restriction Simple_Barriers", "violation", entry("", "Ready")),
    Edge(entry("", "not Ready"), "restriction Simple_Barriers", "violation", entry("", "Ready")),
    Edge(entry("; entry F", "Ready"), "restriction Max_Protected_Entries", "violation"),
    Edge({"operations": "entry E;", "bodies": "entry E when Ready is begin Level := E'Count; end E;"}, "names"),
    Edge({"package": "task V is entry E; end V;", "body": "task body V is begin null; end V;"}, "restriction Max_Task_Entries", "violation"),
    Edge(entry("", "Ready") | does("select P.E; else null; end select;"), "restriction No_Select_Statements", "violation"),
    Edge({"operations": "entry E;", "bodies": "entry E when Ready is begin requeue E; end E;"}, "restriction No_Requeue_Statements", "violation"),
    Edge(does("abort T;"), "restriction No_Abort_Statements", "violation"),
    Edge({"context": "with Ada.Dynamic_Priorities;"}, "restriction No_Dynamic_Priorities", "violation"),
    Edge(does("loop null; end loop;"), "ok"),
    Edge({"package": "task V is pragma Priority (11); end V;", "body": "task body V is begin null; end V;"}, "ok"),
)


def unit(parts: dict[str, str]) -> str:
    return UNIT.format(**({place: "null;" if place == "does" else "" for place in PLACES} | parts))


def told_by_program(program: Path, text: str) -> str:
    done = subprocess.run([str(program), "check"], input="@unit\n" + text, capture_output=True, text=True, timeout=60, check=False)
    return "ok" if done.returncode == 0 else done.stderr.strip()


def told_by_gnat(text: str) -> str:
    with tempfile.TemporaryDirectory() as place:
        folder, cut = Path(place), text.index("package body U")
        for name, lines in (("ravenscar.adc", "pragma Profile (Ravenscar);\n"), ("host.ads", HOST), ("a-intnam.ads", LINES), ("u.ads", text[:cut]), ("u.adb", text[cut:])):
            (folder / name).write_text(lines)
        done = subprocess.run([*COMMAND, "u.adb"], cwd=folder, capture_output=True, text=True, timeout=60, check=False)
        return "ok" if done.returncode == 0 else done.stderr.strip()


def faults_of(program: Path, edge: Edge) -> list[str]:
    """What isn't as the edge has it."""
    found = []
    for parts, said, gnat in ((edge.parts, edge.said, edge.gnat), (edge.instead, "ok", "ok")):
        if parts is None:
            continue
        text = unit(parts)
        by_program, by_gnat = told_by_program(program, text), told_by_gnat(text)
        if by_program.removeprefix("script line 1: ")[:len(said)] != said:
            found.append(f"{parts}: the program says {by_program}, due {said}")
        if gnat not in by_gnat or gnat == "ok" and by_gnat != "ok":
            found.append(f"{parts}: GNAT says {by_gnat}, due {gnat}")
    return found


def main(words: list[str]) -> int:
    out = TOP / "crates" / "ravenhost" / "out"
    programs = [Path(word) for word in words] or [place for place in (out / "ravenhost", out / "trial" / "ravenhost") if place.exists()][:1]
    if len(programs) != 1 or words[:1] == ["--help"]:
        print(__doc__, file=sys.stderr)
        return 2
    if shutil.which("gcc") is None or shutil.which("gnatmake") is None:
        print("bench/subset.py: GNAT is missing", file=sys.stderr)
        return 127
    with ThreadPoolExecutor(2) as pool:
        found = [fault for faults in pool.map(lambda edge: faults_of(programs[0], edge), EDGES) for fault in faults]
    print("\n".join(found + [f"{len(EDGES)} edges, {len(found)} faults"]))
    return 1 if found else 0


if __name__ == "__main__":
    sys.exit(main(sys.argv[1:]))
