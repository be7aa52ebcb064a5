--  A host that the tasks of an Ada program share, under pragma Profile (Ravenscar): each task of the loaded units is a task of the program,
--  which calls, waits and runs its bodies by the calls below. An instance stands at library level, and has one host.
--
--  One protected object, the gate, makes one call at a time on the host, as ravenhost.ads demands. A task whose call is answered Busy, Queued,
--  Suspended or Waiting is noted in the gate by that same protected action, and then waits on a suspension object of its own (D.10), which
--  the gate sets behind each answer that may end such a wait. So no wake-up is lost, and a task that was woken for nothing asks again.
--  Bodies are the program's, and run outside the gate: so records, arrays and Float stay in Ada, and the host has the barrier and some
--  components. Behind an end that drops a caller the queue is served on (Settle), one caller after another.
--
--  Nothing of this is proved: not that a task which waits goes on, nor that no two deadlock. What the host answered is, whatever the tasks
--  do: its journal is that of one task's history, and Ravenhost.Audit judges it. An actor's calls are made by one task.
--
--  Tried with GNAT 12 on x86-64 (examples/ada_plant).

with System;

generic
   --  The greatest number of an actor that waits here: tasks have the numbers from 11 on, in the order of their loads.
   Last_Actor : Interfaces.C.size_t := 63;

   --  The gate's ceiling: at least the priority of each task that calls (D.3).
   Ceiling : System.Any_Priority := System.Priority'Last;
package Ravenhost.Gates is

   --  A body: what it is given, and what it gives back.
   type Body_State is record
      Given        : Values (0 .. 3) := (others => 0);
      Given_Count  : Interfaces.C.size_t := 0;
      --  The values of the call.
      Scalars      : Values (0 .. 31) := (others => 0);
      Count        : Interfaces.C.size_t := 0;
      --  The object's components, and how many there are. A body may change them, unless it is a function's.
      Is_Function  : Boolean := False;
      --  Given by the body: whether it is a function's, whose end leaves the components as they are.
      By           : Ending := By_Return;
      --  Given by the body: how it ends.
      Result       : Values (0 .. 3) := (others => 0);
      Result_Count : Interfaces.C.size_t := 0;
      --  Given by the body: the result, or the values of the `out` and `in out` parameters.
   end record;

   type Body_Access is access procedure (State : in out Body_State);

   --  Makes the host: Done, or why there is none.
   procedure Create (Capacity, Queue_Limit : Interfaces.C.size_t; Came : out Kind);

   --  Runs an action of the program's on the host in the gate, and wakes those that wait. It must not block.
   procedure Use_Host (Action : not null access procedure (Of_Host : in out Host));

   --  Calls an operation of an object, and waits for what comes of it. Where the call is let in, Runs is run between the start and the
   --  end of its body. Came is Ended once the body has ended; of a suspension object Accepted or Woken; else what kept the call out:
   --  Refused with its rule, or a number below 0. State has the values of the call, and at the end what the body gave.
   procedure Call
     (Actor  : Interfaces.C.size_t;
      Called : Target;
      State  : in out Body_State;
      Runs   : not null Body_Access;
      Told   : in out Answer;
      Came   : out Kind)
     with Pre => Actor <= Last_Actor and then State.Given_Count <= 4;

   --  An interrupt of a line, 0 .. 9, whose actor has the number Line + 1: as Call, by whoever stands for the line's handler.
   procedure Fire
     (Line  : Interfaces.Unsigned_32;
      State : in out Body_State;
      Runs  : not null Body_Access;
      Told  : in out Answer;
      Came  : out Kind)
     with Pre => Interfaces.C.size_t (Line) < Last_Actor;

   --  One request of the actor's text (rh_go), and what comes of it: a request that finds its object busy, or waits, is asked again once that may
   --  end. Came is Misuse where the text has nothing to ask.
   procedure Go (Actor : Interfaces.C.size_t; Told : in out Answer; Came : out Kind)
     with Pre => Actor <= Last_Actor;

   --  Waits until a time in ticks, which Tick moves: Accepted, Woken, or what kept the delay out.
   procedure Delay_Until
     (Actor : Interfaces.C.size_t; Tick : Interfaces.Integer_64; Told : in out Answer; Came : out Kind)
     with Pre => Actor <= Last_Actor;

   --  The end of a task.
   procedure Finish (Actor : Interfaces.C.size_t; Told : in out Answer; Came : out Kind)
     with Pre => Actor <= Last_Actor;

end Ravenhost.Gates;
