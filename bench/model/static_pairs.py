"""Parts of a unit text that speaks of a unit before it, in the same form as those of static_pieces.py."""

BEFORE = """with Ada.Synchronous_Task_Control;
package Plant is
   Limit : constant Integer := 10;
   Flag : Ada.Synchronous_Task_Control.Suspension_Object;
   protected Valve with Priority => 20 is
      function Get return Integer;
      procedure Set (X : in Integer; Y : out Integer);
      procedure Bump;
      entry Wait (N : out Integer);
   private
      procedure Hidden;
      Level : Integer := 0;
      Ready : Boolean := False;
   end Valve;
   protected type Gate is
      procedure Pass;
   end Gate;
   First_Gate : Gate;
end Plant;
package body Plant is
   protected Inside is
      procedure Turn;
   end Inside;
   protected body Valve is
      function Get return Integer is begin return Level; end Get;
      procedure Set (X : in Integer; Y : out Integer) is begin Y := X; end Set;
      procedure Bump is begin Level := Level + 1; Ready := True; end Bump;
      entry Wait (N : out Integer) when Ready is begin N := Level; end Wait;
      procedure Hidden is begin null; end Hidden;
   end Valve;
   protected body Gate is procedure Pass is begin null; end Pass; end Gate;
   protected body Inside is procedure Turn is begin null; end Turn; end Inside;
end Plant;
"""
FRAME = """$context
package $N is
   protected Gauge is
      procedure Read;
   end Gauge;
   task Pilot;
end $N;
package body $N is
   protected body Gauge is
      procedure Read is begin Plant.Valve.Bump; $procedure end Read;
   end Gauge;
   task body Pilot is
      A : Integer := 0;
      B : Boolean := False;
   begin
      A := 1; B := A = 2;
      $statements
   end Pilot;
end $N;
"""
DEFAULTS: dict[str, str] = {}  # of slots that can't be empty
CONTEXT = ("with Ada.Synchronous_Task_Control;", "with Plant;")
NAMES = ("Nav", "Engine_Room", "y")

GOOD = """context: with Ada.Real_Time;
statements: Plant.Valve.Bump;
statements: A := Plant.Valve.Get + 1;
statements: Plant.Valve.Set (A, A);
statements: Plant.Valve.Wait (A);
statements: Plant.First_Gate.Pass;
statements: Gauge.Read; $N.Gauge.Read;
statements: Ada.Synchronous_Task_Control.Set_True (Plant.Flag);
statements: B := Ada.Synchronous_Task_Control.Current_State (Plant.Flag);
statements: Ada.Synchronous_Task_Control.Suspend_Until_True (Plant.Flag);
procedure: Plant.First_Gate.Pass;
procedure: if Plant.Valve.Get > 3 then null; end if;"""

WRONG = {
    "names WrongKind": "context: use ^Plant;\nstatements: ^Plant;\nstatements: ^Plant.Flag;",
    "names NotVisible": """statements: ^Plant.Valve.Hidden;
statements: ^Plant.Inside.Turn;
procedure: ^Plant.Valve.Hidden;""",
    "names Unknown": """statements: A := ^Plant.Valve.Level;
statements: ^Plant.Valve.Level := 1;
statements: ^Plant.Nothing;
statements: ^Plant.Valve.Nothing;
statements: A := ^Plant.Nothing.Get;
procedure: ^Plant.Nothing.Bump;""",
    "types Mismatch": """statements: B := ^Plant.Valve.Get;
statements: B := B and ^Plant.Valve.Get;
statements: ^Plant.Valve.Bump (1);
statements: ^Plant.Valve.Wait;
statements: Plant.Valve.Set (^B, A);
statements: Ada.Synchronous_Task_Control.Set_True (^A);""",
    "types BadMode": "statements: Plant.Valve.Set (1, ^2);\nstatements: Plant.Valve.Wait (^(A));\nstatements: Plant.Valve.Set (1, ^A + 1);",
}
