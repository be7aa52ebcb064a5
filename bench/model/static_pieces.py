"""Parts of unit texts for static_rules.py: good ones, and wrong ones with a ^ right before the place of their one fault.

A part is a text for each slot of the frame, `slot: text`, with || between; $N stands for the unit's name. A fault of the shape has no place."""

# the task has four variables of 64, the protected object three components of 32
SIXTY = ", ".join(f"V{number}" for number in range(1, 61))
FIFTY = ", ".join(f"V{number}" for number in range(1, 51))
FIFTEEN = ", ".join(f"K{number}" for number in range(1, 16))
THIRTY = ", ".join(f"C{number}" for number in range(1, 31))

FRAME = """$context
package $N is
   subtype Small is Integer range 0 .. 9;
   Limit : constant Integer := 10;
   Wide : constant Boolean := True;
   $spec
   Flag : Ada.Synchronous_Task_Control.Suspension_Object;
   protected Valve with Priority => 20 is
      function Get return Integer;
      procedure Set (X : in Integer; Y : out Integer);
      procedure Bump;
      entry Wait (N : out Integer);
      $operations
   private
      Level : Integer := 0;
      Ready : Boolean := False;
      Few : Small := 3;
      $private
   end Valve;
   protected type Gate is
      procedure Pass;
   end Gate;
   First_Gate : Gate;
   task Pilot with Priority => 10;
   $tasks
end $N;
package body $N is
   protected body Valve is
      function Get return Integer is begin $function return Level; end Get;
      procedure Set (X : in Integer; Y : out Integer) is begin Y := X; $procedure end Set;
      procedure Bump is begin Level := Level + 1; end Bump;
      entry Wait (N : out Integer) when $barrier is begin N := Level; Ready := False; $entry end Wait;
      $operation_bodies
   end Valve;
   protected body Gate is procedure Pass is begin null; end Pass; end Gate;
   task body Pilot is
      A : Integer := 0;
      B : Boolean := False;
      S : Small := 1;
      T : Ada.Real_Time.Time := Ada.Real_Time.Clock;
      $locals
   begin
      A := A + 1;
      $statements
   $handlers
   end $pilot_end;
   $bodies
end $N;
"""
BEFORE = ""  # a unit that the text speaks of
NAMES = ("Plant", "Nav", "U_1", "Engine_Room", "i_7")
CONTEXT = ("with Ada.Real_Time;", "with Ada.Synchronous_Task_Control;")
DEFAULTS = {"barrier": "Ready", "pilot_end": "Pilot"}  # of slots that can't be empty

GOOD = """context: with Ada.Interrupts;
operations: procedure Positive (N : Positive); || operation_bodies: procedure Positive (N : Standard.Positive) is begin Level := N; end Positive;
spec: subtype Digit is Integer range 0 .. 9; || operations: procedure Put (D : Digit); || operation_bodies: procedure Put (D : Small) is begin Level := D; end Put;
spec: subtype Whole is Integer; || operations: function Top return Whole; || operation_bodies: function Top return Integer is begin return 3; end Top;
statements: Pilot.A := $N.Pilot.A + A;
procedure: Set.Y := Set.X + Valve.Set.X;
context: with Ada.Interrupts.Names;
context: with System;
context: with Host;
context: use type Ada.Real_Time.Time;
context: pragma Profile (Ravenscar);
spec: pragma Inline (Whatever, X => 1);
spec: Ten : constant := 10;
spec: Half : constant Integer := Limit / 2; Neg : constant Integer := - Half;
spec: subtype Tiny is Small range 2 .. 3;
spec: subtype Any is Boolean;
spec: Top : constant Integer := Integer'Last - 1;
spec: Odd : constant Boolean := Limit mod 2 = 1 or else 1 / Limit = 0;
spec: Safe : constant Boolean := Limit = 0 or else Limit / 2 > 1;
spec: Cut : constant Boolean := Limit > 0 or else 1 / 0 = 1;
spec: Slow : constant Ada.Real_Time.Time_Span := Ada.Real_Time.Milliseconds (5);
tasks: Second_Gate, Third_Gate : Gate;
operations: procedure More (Z : in out Integer); || operation_bodies: procedure More (Z : in out Integer) is begin Z := Z + Level; end More;
operations: function Is_Ready (Z : Integer) return Boolean; || operation_bodies: function Is_Ready (Z : Integer) return Boolean is begin return Ready; end;
private: procedure Hidden; || operation_bodies: procedure Hidden is begin Few := 2; end Hidden; || procedure: Hidden;
private: Low, High : Integer range 0 .. 5 := 2;
private: Early : Boolean := Limit > 3;
tasks: task Other; || bodies: task body Other is begin null; end Other;
tasks: task Other with Priority => 40; || bodies: task body Other is begin loop null; end loop; end Other;
tasks: task Other is pragma Priority (3); end Other; || bodies: task body Other is begin null; end;
function: if Level > 3 then return 0; end if;
function: return Get;
procedure: Level := X;
procedure: Valve.Level := 2; $N.Valve.Few := 3;
procedure: Bump; Valve.Bump;
procedure: First_Gate.Pass;
procedure: Ready := Level > Few or X = Y;
procedure: if X > 3 then return; end if;
entry: Level := N;
entry: N := Get;
barrier: Valve.Ready
barrier: $N.Valve.Ready
barrier: True
barrier: Wide
barrier: Limit > 5
barrier: not Wide or Limit = 10
barrier: Small'Last > Limit
barrier: $N.Limit > $N.Small'First
barrier: Standard.True
locals: Z1, Z2 : Integer := 3;
locals: Z3 : constant Small := 9;
locals: Z4 : Integer range 0 .. 5 := 5;
locals: Z5 : Ada.Real_Time.Time_Span := Ada.Real_Time.Milliseconds (20);
locals: Z6 : Natural := 0; Z7 : Positive := 1;
statements: null;
statements: A := Valve.Get; $N.Valve.Bump;
statements: Valve.Set (A + 1, A);
statements: Valve.Wait (A);
statements: First_Gate.Pass;
statements: if B then A := 1; elsif not B then A := 2; else null; end if;
statements: case S is when 0 .. 4 => null; when 5 | 6 => A := 1; when others => null; end case;
statements: case B is when True => null; when False => A := 0; end case;
statements: case (S) is when 0 .. 9 => null; when others => null; end case;
statements: for I in 1 .. 3 loop A := I; end loop;
statements: for I in reverse Small loop S := I; end loop;
statements: for I in Small range 1 .. 2 loop exit when I = 2; end loop;
statements: for C in Boolean loop B := C; end loop;
statements: while A < Limit loop A := A + 1; exit; end loop;
statements: loop exit; end loop;
statements: delay until T + Ada.Real_Time.Milliseconds (5);
statements: delay until Ada.Real_Time.Milliseconds (5) + Ada.Real_Time.Clock;
statements: B := T < Ada.Real_Time.Clock or T = T;
statements: A := Integer (S) + Small'Last - Integer'First / 2;
statements: A := abs A * (3 + A) mod 7 rem 2;
statements: S := Small (A);
statements: B := A /= 3 xor B; B := B and then 1 / A = 2;
statements: B := True > False;
statements: raise Constraint_Error;
statements: if B then raise Program_Error; end if;
statements: raise Host.Access_Denied; || context: with Host;
statements: raise Access_Denied; || context: with Host; || context: use Host;
statements: T := Clock; || context: use Ada.Real_Time;
statements: A := System.Default_Priority; || context: with System;
statements: A := Priority'Last; || context: with System; || context: use System;
statements: Ada.Synchronous_Task_Control.Set_True (Flag); Ada.Synchronous_Task_Control.Suspend_Until_True (Flag);
statements: B := Ada.Synchronous_Task_Control.Current_State ($N.Flag);
statements: Set_False (Flag); || context: use Ada.Synchronous_Task_Control;
handlers: exception when Constraint_Error | Program_Error => A := 0; when others => raise;
handlers: exception when Standard.Constraint_Error => null;
handlers: exception when Host.Access_Denied => null; || context: with Host;
handlers: exception when Program_Error | others => null; when Constraint_Error => A := 0;
operations: procedure Swap (K, L : in out Integer); || operation_bodies: procedure Swap (K, L : in out Integer) is begin K := L; end Swap; || procedure: Swap (Level, Level);
operations: function Extra return Integer; || operation_bodies: function Extra return Integer is begin null; end Extra;
operations: function Extra return Integer; || operation_bodies: function Extra return Integer is Z : Integer; begin Wait (Z); return Z; end Extra;
locals: Z : Integer range 5 .. 1;
statements: if False and then 1 / 0 * A > 0 then A := A * 2 / 0; end if;
statements: A := 2147483647 + A + 1; S := 1 - 2 + A;
""" + f"locals: {FIFTY} : Integer; {FIFTEEN} : constant Integer := A;"

WRONG = {  # what is said, and the parts of which it is said
    "restriction No_Abort_Statements": "statements: ^abort Pilot;\nstatements: if B then ^abort $N.Pilot, Pilot; end if;\nentry: ^abort Pilot;",
    "restriction No_Requeue_Statements": "entry: ^requeue Wait;\nentry: ^requeue Valve.Wait with abort;\nentry: if Ready then ^requeue Wait; end if;",
    "restriction No_Select_Statements": """statements: ^select Valve.Wait (A); else null; end select;
statements: ^select Valve.Wait (A); or delay until T; end select;
statements: loop ^select delay until T; then abort A := 1; end select; end loop;""",
    "restriction No_Relative_Delay": """statements: ^delay 1;
statements: ^delay Ada.Real_Time.Milliseconds (5);
statements: for I in 1 .. 3 loop ^delay I; end loop;
handlers: exception when others => ^delay 1;""",
    "restriction No_Local_Protected_Objects": """locals: ^Inner : Gate;
locals: ^Inner, Inner_Two : $N.Gate;
locals: ^protected Inner is procedure Q; end Inner;""",
    "restriction No_Task_Hierarchy": "locals: ^task Inner;\nlocals: ^task Inner is end Inner;",
    "restriction Max_Protected_Entries": """operations: ^entry Late; || operation_bodies: entry Late when Ready is begin null; end Late;
private: ^entry Late (Z : Integer); || operation_bodies: entry Late (Z : Integer) when Ready is begin null; end Late;""",
    "restriction Max_Task_Entries": "tasks: task Other is ^entry Go; end Other; || bodies: task body Other is begin null; end Other;",
    "restriction Simple_Barriers": """barrier: ^(Ready)
barrier: ^not Ready
barrier: ^Ready and Wide
barrier: ^Level > 5
barrier: ^N > 0
barrier: ^Get > 0
barrier: ^Limit > Few
barrier: ^Valve.Ready or Wide
barrier: ^Is_Set || operations: function Is_Set return Boolean; || operation_bodies: function Is_Set return Boolean is begin return True; end Is_Set;
barrier: ^(Limit > 3) and (Level > 3)""",
    "restriction No_Dynamic_Priorities": """context: with ^Ada.Dynamic_Priorities;
context: with Ada.Interrupts, ^ada.Dynamic_PRIORITIES;
statements: A := ^Valve'Priority;
statements: A := 1 + ^Pilot'Priority;
procedure: Level := ^Valve'Priority;""",
    "restriction No_Dependence": """context: with ^Ada.Calendar;
context: with ^Ada.Calendar.Formatting;
context: with ^Ada.Asynchronous_Task_Control;
context: with ^Ada.Execution_Time.Group_Budgets;
context: with ^Ada.Execution_Time.Timers;
context: with Ada.Interrupts, ^Ada.Synchronous_Barriers;
context: with ^Ada.Task_Attributes;
context: with ^System.Multiprocessors.Dispatching_Domains;
context: with ^ADA.calendar;""",
    "names Unknown": """context: with ^Nowhere;
context: with ^Ada.Nothing;
spec: Z : ^Nothing;
spec: subtype Z is ^Nothing;
spec: Z : constant Integer := 1 + ^Nothing;
private: Z : ^Nothing := 0;
locals: Z : ^Nothing;
locals: Z : Integer := ^Nothing;
statements: ^Nothing := 1;
statements: ^Nothing (1);
statements: A := ^Nothing;
statements: A := A + ^Nothing;
statements: ^Nobody.Bump;
statements: ^Valve.Nothing;
statements: A := ^Valve.Nothing;
statements: ^$N.Nothing;
statements: ^$N.Valve.Nothing;
statements: raise ^No_Error;
statements: for I in 1 .. ^Nothing loop null; end loop;
handlers: exception when ^No_Error => null;
operation_bodies: procedure ^Extra is begin null; end Extra;
tasks: task Other with ^Foo => 1; || bodies: task body Other is begin null; end Other;
procedure: ^Nothing;
statements: A := ^Valve.Set.X;
procedure: Y := ^Get.X;""",
    "names NotVisible": """context: use Ada; use ^Real_Time;
context: use Ada, ^Synchronous_Task_Control;
statements: A := ^Valve.Level;
tasks: task Other with Priority => ^Later; Later : constant := 5; || bodies: task body Other is begin null; end Other;
statements: A := ^$N.Valve.Level;
statements: ^Valve.Hidden; || private: procedure Hidden; || operation_bodies: procedure Hidden is begin null; end Hidden;
statements: T := ^Clock; || bars: use Ada.Real_Time;
statements: A := ^Default_Priority; || context: with System; || bars: use System;
statements: A := ^System.Default_Priority; || bars: with System;
statements: raise ^Host.Access_Denied; || bars: with Host;
statements: raise ^Access_Denied; || context: with Host; || bars: use Host;
statements: ^Set_True (Flag); || bars: use Ada.Synchronous_Task_Control;
handlers: exception when ^Host.Access_Denied => null; || bars: with Host;
locals: Z1 : Integer := ^Z2; Z2 : Integer := 0;
spec: Z1 : constant Integer := ^Z2; Z2 : constant Integer := 0;
private: Z1 : Integer := 0; Z2 : ^Time; || bars: use Ada.Real_Time;""",
    "names Duplicate": """locals: ^A : Integer := 1;
locals: Z, ^Z : Integer := 1;
spec: ^Limit : constant Integer := 3;
private: ^level : Boolean := True;
tasks: task Other with Priority => 3, ^Priority => 4; || bodies: task body Other is begin null; end Other;
bodies: task body ^Pilot is begin null; end Pilot;
bodies: protected body ^Gate is procedure Pass is begin null; end Pass; end Gate;
operation_bodies: procedure ^Bump is begin null; end Bump;
spec: subtype ^Small is Integer;
tasks: task ^Pilot;
operations: procedure More (Z, ^Z : Integer); || operation_bodies: procedure More (Z : Integer) is begin null; end More;""",
    "names WrongKind": """operations: ^procedure Extra;
spec: subtype Digit is Integer range 0 .. 8; || operations: procedure Put (D : Digit); || operation_bodies: procedure ^Put (D : Small) is begin Level := D; end Put;
locals: Gate : Integer := 0; Z : ^Gate;
private: ^function Extra return Integer;
tasks: ^task Other;
spec: ^protected Other is procedure Q; end Other;
statements: ^exit;
statements: ^raise;
statements: if B then ^exit when A = 1; end if;
statements: ^Limit (3);
statements: ^Pilot;
statements: ^A;
statements: raise ^Limit;
handlers: exception when ^Limit => null;
locals: Z : ^Limit := 1;
operations: procedure Extra (Z : Integer); || operation_bodies: procedure ^Extra (Z : out Integer) is begin Z := 1; end Extra;
operations: procedure Extra (Z : Integer); || operation_bodies: procedure ^Extra (Y : Integer) is begin null; end Extra;
operations: procedure Extra (Z : Integer); || operation_bodies: procedure ^Extra (Z : Natural) is begin null; end Extra;
operations: procedure Extra (Z : Integer); || operation_bodies: procedure ^Extra is begin null; end Extra;
operations: function Extra return Integer; || operation_bodies: function ^Extra return Natural is begin return 1; end Extra;
operations: procedure Extra; || operation_bodies: function ^Extra return Integer is begin return 1; end Extra;
spec: pragma ^Priority (20);
spec: pragma ^Interrupt_Priority;
locals: pragma ^Priority (20);""",
    "names EndName": "pilot_end: ^Pilots\npilot_end: ^Valve\n"
                     "tasks: task Other is pragma Priority (3); end ^Pilot; "
                     "|| bodies: task body Other is begin null; end Other;\nbodies: task body Other is begin null; end ^Pilot; || tasks: task Other;",
    "types Mismatch": """statements: A := ^True;
private: Z : Boolean range True .. True := True; || barrier: ^Z
statements: B := ^1;
statements: A := ^B;
statements: A := A + ^True;
statements: A := ^True + A;
statements: A := A * 2 + ^B;
statements: B := A = ^True;
statements: B := ^A and B;
statements: B := B or else ^A;
statements: B := not ^A;
statements: if ^A then null; end if;
statements: while ^1 loop null; end loop;
statements: loop exit when ^A; end loop;
statements: ^Valve.Set (1);
statements: ^Valve.Bump (1);
statements: Valve.Set (^True, A);
statements: delay until ^5;
statements: T := ^5;
statements: T := T + ^5;
statements: B := T < ^5;
statements: Ada.Synchronous_Task_Control.Set_True (^A);
locals: Z : Ada.Real_Time.Time := ^5;
locals: Z : Integer := ^False;
private: Z : Boolean := ^0;
spec: Z : constant Boolean := ^3;
function: return ^True;
barrier: ^Level
barrier: ^Limit
statements: case A is when ^True => null; when others => null; end case;
locals: ^Z : constant Small;""",
    "types ConstantWritten": """statements: ^Limit := 3;
statements: $N.Valve.Bump; ^$N.Limit := 3;
statements: for I in 1 .. 3 loop ^I := 2; end loop;
locals: Z : constant Integer := 1; || statements: ^Z := 2;
procedure: ^X := 3;
function: ^Level := 1;
function: ^Valve.Level := 1;
function: ^Bump;
function: ^Valve.Bump;""",
    "types BadMode": """statements: Valve.Set (1, ^2);
statements: Valve.Set (1, ^A + 1);
statements: Valve.Set (1, ^Limit);
statements: for I in 1 .. 3 loop Valve.Set (1, ^I); end loop;
statements: Valve.Wait (^(A));
procedure: Set (1, ^X);
entry: Set (N, ^Limit);
operations: function Extra (^Z : out Integer) return Integer; || operation_bodies: function Extra (Z : out Integer) return Integer is begin Z := 1; return 1; end Extra;""",
    "types BadChoice": """statements: case A is when 1 => null; when ^1 => null; when others => null; end case;
statements: case A is when 1 .. 5 => null; when ^3 => null; when others => null; end case;
statements: case A is when 1 | ^1 => null; when others => null; end case;
statements: case B is when True => null; when ^True => null; when others => null; end case;
statements: case ^A is when 1 => null; end case;
statements: case ^S is when 0 .. 8 => null; end case;
statements: case ^S is when 1 .. 4 | 6 .. 9 | 0 => null; end case;
statements: case ^B is when True => null; end case;
statements: case ^(S) is when 0 .. 9 => null; end case;
statements: case ^Valve.Get is when 0 => null; end case;
statements: case ^Small (A) is when 0 .. 8 => null; end case;
statements: for I in 1 .. 3 loop case ^I is when 1 | 3 => null; end case; end loop;
statements: case A is when ^others => null; when 1 => null; end case;
statements: case A is when 1 | ^others => null; end case;
statements: case A is when 1 => null; when ^others => null; when others => null; end case;""",
    "types TooLarge": f"""spec: Z : constant Integer := ^2147483647 + 1;
spec: Z : constant Integer := ^1 / 0;
spec: Z : constant Integer := 1 + ^3 mod (Limit - 10);
spec: Z : constant Small := ^10;
private: Z : Small := ^10;
private: Z : Integer range 0 .. 3 := ^4;
statements: A := ^2147483647 * 2;
statements: A := A + (^Integer'Last + 1);
statements: A := ^1 / 0 * A;
statements: A := A - ^7 mod 0 * A;
statements: A := ^2147483647 + 1 + A;
statements: A := ^-2147483647 - 2 + A;
statements: A := abs (^65536 * 32768 * A);
spec: Z : constant := ^2147483647 * 2 / 4;
tasks: task Other with Priority => ^41; || bodies: task body Other is begin null; end Other;
tasks: task Other with Priority => ^0; || bodies: task body Other is begin null; end Other;
locals: {SIXTY}, ^Last : Integer;
locals: {SIXTY}, W1, W2, W3, W4, ^Last : constant Integer := A;""",
    "types NotStatic": """statements: case A is when ^A => null; when others => null; end case;
statements: case A is when 1 .. ^A => null; when others => null; end case;
statements: case A is when ^Valve.Get => null; when others => null; end case;
locals: Z : Integer range 0 .. ^A;
spec: Z : constant Ada.Real_Time.Time := ^Ada.Real_Time.Clock;
private: Z : Integer := ^Level;
private: Z : Integer range 0 .. ^Level;""",
    "shape TooMany": f"""private: {THIRTY} : Integer;
operations: procedure Extra (V, W, X, Y, Z : Integer); || operation_bodies: procedure Extra (V, W, X, Y, Z : Integer) is begin null; end Extra;""",
    "shape LineTaken": "operations: procedure Ring with Attach_Handler => Ada.Interrupts.Names.Int_3; "
                       "procedure Chime with Attach_Handler => Ada.Interrupts.Names.Int_3; || operation_bodies: procedure Ring is begin null; end Ring; "
                       "procedure Chime is begin null; end Chime; || context: with Ada.Interrupts.Names;",
    "shape CeilingTooLow": "operations: procedure Ring with Attach_Handler => Ada.Interrupts.Names.Int_3; "
                           "|| operation_bodies: procedure Ring is begin null; end Ring; || context: with Ada.Interrupts.Names;",
}
