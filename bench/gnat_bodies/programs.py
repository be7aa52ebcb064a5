"""The two forms of drawn units: scripts that `ravenhost play` takes, and an Ada program that GNAT compiles."""

from statements import indented
from units import CALLS_OF_A_BODY, COMPONENTS

HOST = "package Host is\n   Access_Denied : exception;\nend Host;\n"

REPORT_SPECIFICATION = """with Ada.Exceptions;
package Report is
   --  How the last call ended, and a line of it with the components behind it.
   procedure Returned;
   procedure Raised (Occurrence : Ada.Exceptions.Exception_Occurrence);
   procedure Line (Call : String; A, B, D, S : Integer; F : Boolean);
end Report;
"""

REPORT_BODY = """with Ada.Strings.Fixed;
with Ada.Strings.Unbounded; use Ada.Strings.Unbounded;
with Ada.Text_IO;
with Host;
package body Report is
   Ended : Unbounded_String;

   procedure Returned is
   begin
      Ended := To_Unbounded_String ("return");
   end Returned;

   procedure Raised (Occurrence : Ada.Exceptions.Exception_Occurrence) is
      use type Ada.Exceptions.Exception_Id;
      Id : constant Ada.Exceptions.Exception_Id := Ada.Exceptions.Exception_Identity (Occurrence);
   begin
      if Id = Constraint_Error'Identity then
         Ended := To_Unbounded_String ("raise Constraint_Error");
      elsif Id = Program_Error'Identity then
         Ended := To_Unbounded_String ("raise Program_Error");
      elsif Id = Host.Access_Denied'Identity then
         Ended := To_Unbounded_String ("raise Host.Access_Denied");
      else
         Ended := To_Unbounded_String ("raise " & Ada.Exceptions.Exception_Name (Occurrence));
      end if;
   end Raised;

   function Image (Value : Integer) return String is
   begin
      return Ada.Strings.Fixed.Trim (Integer'Image (Value), Ada.Strings.Left);
   end Image;

   procedure Line (Call : String; A, B, D, S : Integer; F : Boolean) is
   begin
      Ada.Text_IO.Put_Line (Call & " -> " & Image (A) & " " & Image (B) & " " & Image (D) & " " & Image (S) & " "
         & Image (Boolean'Pos (F)) & " : " & To_String (Ended));
   end Line;
end Report;
"""


def value_of(actual):
    """An actual as a journal prints it."""
    return {"True": "1", "False": "0"}.get(actual, actual)


def call_line(call):
    return f"{call.object} {call.operation} {' '.join(value_of(actual) for actual in call.actuals)}"


def package(unit, declared, bodies):
    lines = ["with Host;", f"package {unit.name} is", *indented(declared), f"end {unit.name};"]
    return "\n".join([*lines, f"package body {unit.name} is", *indented(bodies), f"end {unit.name};", ""])


DRIVEN = """   begin
      {statement}
      Report.Returned;
   exception
      when Error : others => Report.Raised (Error);
   end;
   Report.Line ("{line}", {read});
"""

BOX_DECLARED = ["protected Box is", "   procedure Call (K : in Integer);", "end Box;"]

BOX_HEAD = ["protected body Box is", "   procedure Call (K : in Integer) is", "   begin", "      case K is"]

BOX_END = [
    "         when others => null;",
    "      end case;",
    "   exception",
    "      when others => null;",
    "   end Call;",
    "end Box;",
]


def ada_files(units):
    """The texts of the Ada program; the main procedure is Compared."""
    packages = [package(unit, unit.declared, unit.bodies) for unit in units]
    main = "".join(f"with Drive_{unit.name};\n" for unit in units) + "procedure Compared is\nbegin\n"
    main += "".join(f"   Drive_{unit.name};\n" for unit in units) + "end Compared;\n"
    return [HOST, REPORT_SPECIFICATION, REPORT_BODY, *packages, *[_driver(unit) for unit in units], main]


def _driver(unit):
    """A procedure that makes each call of a unit and tells how it ended."""
    text = f"with Report;\nwith {unit.name};\nprocedure Drive_{unit.name} is\nbegin\n"
    for call in unit.calls:
        read = ", ".join(f"{call.object}.Get_{name}" for name, _, _ in COMPONENTS)
        text += DRIVEN.format(statement=call.statement(), line=call_line(call), read=read)
    return text + f"end Drive_{unit.name};\n"


def script(units):
    """A script whose units are the same, but that tasks make the calls, through an object that handles what they raise.

    Each compared body has a task of its own, since at each `go` all that a task's text did before is gone through again.
    """
    sections, steps = [], []
    for unit in units:
        tries = [f"         when {number} => {call.statement()}" for number, call in enumerate(unit.calls, 1)]
        declared, bodies = list(BOX_DECLARED), [*BOX_HEAD, *tries, *BOX_END]
        for first in range(1, len(unit.calls) + 1, CALLS_OF_A_BODY):
            task, last = f"Caller_{first}", first + CALLS_OF_A_BODY - 1
            declared.append(f"task {task};")
            bodies += [f"task body {task} is", "begin", f"   for K in {first} .. {last} loop", "      Box.Call (K);"]
            bodies += ["   end loop;", f"end {task};"]
            steps.append(f"{unit.name}.{task} go {4 * CALLS_OF_A_BODY + 1}")
        sections.append("@unit\n" + package(unit, [*unit.declared, *declared], [*unit.bodies, *bodies]))
    return "".join(sections) + "@list\nallow * * *\n@steps\n" + "\n".join(steps) + "\n"


def lines_of_journal(journal):
    """What a journal says of the compared calls, in the form of the Ada program's lines."""
    told, under_way = [], {}
    for line in journal.splitlines():
        words = line.split(" -> ")[0].split(" ")
        actor, request = words[1], words[2]
        if request == "call":
            under_way.setdefault(actor, []).append(" ".join(words[3:]))
        elif request == "end":
            call = under_way[actor].pop()
            if ".Box " not in call:
                told.append(f"{call} -> {' '.join(words[3:])}")
    return told
