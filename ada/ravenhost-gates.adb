with Ada.Synchronous_Task_Control; use Ada.Synchronous_Task_Control;

package body Ravenhost.Gates is

   use type Interfaces.Unsigned_32;

   subtype Actor_Number is Interfaces.C.size_t range 0 .. Last_Actor;

   type Marks is array (Actor_Number) of Boolean;

   --  Where an actor's task waits (D.10).
   Rings : array (Actor_Number) of Suspension_Object;

   --  What starts a body: a call, or an interrupt of a line.
   type Asking (Is_Fire : Boolean := False) is record
      case Is_Fire is
         when False =>
            Called      : Target;
            Given       : Values (0 .. 3);
            Given_Count : Interfaces.C.size_t;
         when True =>
            Line : Interfaces.Unsigned_32;
      end case;
   end record;

   protected Gate with Priority => Ceiling is

      procedure Create (Capacity, Queue_Limit : Interfaces.C.size_t; Came : out Kind);

      procedure Use_Host (Action : not null access procedure (Of_Host : in out Host));

      --  Each notes the actor, where it has to wait, and rings for those that wait, where something may go on.

      procedure Ask (Actor : Actor_Number; Asked : Asking; Told : in out Answer; Came : out Kind);

      procedure Resume (Actor : Actor_Number; Told : in out Answer; Came : out Kind);

      procedure End_Body (Actor : Actor_Number; State : Body_State; Told : in out Answer; Came : out Kind);

      procedure Go (Actor : Actor_Number; Told : in out Answer; Came : out Kind);

      procedure Delay_Until (Actor : Actor_Number; Tick : Interfaces.Integer_64; Told : in out Answer; Came : out Kind);

      procedure Finish (Actor : Actor_Number; Told : in out Answer; Came : out Kind);

   private

      The_Host : Host;
      Waits    : Marks := (others => False);

   end Gate;

   --  Whether an answer may end the wait of others.
   function Lets_Go_On (Came : Kind) return Boolean is (Came = Ended or else Came = Accepted);

   --  Whether an actor that is answered so has to ask again.
   function Has_To_Wait (Came : Kind) return Boolean is
     (Came = Busy or else Came = Waiting or else Came = Queued or else Came = Suspended or else Came = Delayed);

   protected body Gate is

      procedure Ring_All is
      begin
         for Actor in Actor_Number loop
            if Waits (Actor) then
               Waits (Actor) := False;
               Set_True (Rings (Actor));
            end if;
         end loop;
      end Ring_All;

      procedure Note (Actor : Actor_Number; Came : Kind) is
      begin
         if Has_To_Wait (Came) then
            Waits (Actor) := True;
         elsif Lets_Go_On (Came) then
            Ring_All;
         end if;
      end Note;

      procedure Create (Capacity, Queue_Limit : Interfaces.C.size_t; Came : out Kind) is
      begin
         Came := Create (Capacity, Queue_Limit, The_Host);
      end Create;

      procedure Use_Host (Action : not null access procedure (Of_Host : in out Host)) is
      begin
         Action (The_Host);
         Ring_All;
      end Use_Host;

      procedure Ask (Actor : Actor_Number; Asked : Asking; Told : in out Answer; Came : out Kind) is
      begin
         if Asked.Is_Fire then
            Came := Fire (The_Host, Asked.Line, Told);
         else
            Came := Call (The_Host, Actor, Asked.Called, Asked.Given, Asked.Given_Count, Told);
         end if;
         Note (Actor, Came);
      end Ask;

      procedure Resume (Actor : Actor_Number; Told : in out Answer; Came : out Kind) is
      begin
         Came := Resume (The_Host, Actor, Told);
         Note (Actor, Came);
      end Resume;

      procedure End_Body (Actor : Actor_Number; State : Body_State; Told : in out Answer; Came : out Kind) is
         Count   : constant Interfaces.C.size_t := (if State.Is_Function then 0 else State.Count);
         Settled : Kind;
      begin
         Came := End_Body (The_Host, Actor, State.Scalars, Count, State.By, State.Result, State.Result_Count, Told);
         while Told.Kind = Ended and then Told.Rule = 1 loop
            Settled := Settle (The_Host, Actor, Told);
            exit when Settled < 0;
         end loop;
         Ring_All;
      end End_Body;

      procedure Go (Actor : Actor_Number; Told : in out Answer; Came : out Kind) is
      begin
         Came := Go (The_Host, Actor, Told);
         Note (Actor, Came);
      end Go;

      procedure Delay_Until (Actor : Actor_Number; Tick : Interfaces.Integer_64; Told : in out Answer; Came : out Kind) is
      begin
         Came := Delay_Until (The_Host, Actor, Tick, Told);
         Note (Actor, Came);
      end Delay_Until;

      procedure Finish (Actor : Actor_Number; Told : in out Answer; Came : out Kind) is
      begin
         Came := Finish (The_Host, Actor, Told);
         Note (Actor, Came);
      end Finish;

   end Gate;

   --  Waits till what an actor waits for has come.
   procedure Wait (Actor : Actor_Number; Told : in out Answer; Came : in out Kind) is
   begin
      while Came = Queued or else Came = Suspended or else Came = Delayed or else Came = Waiting loop
         Suspend_Until_True (Rings (Actor));
         Gate.Resume (Actor, Told, Came);
      end loop;
   end Wait;

   --  Asks till the object isn't busy, waits for what comes of it, and runs the body.
   procedure Perform
     (Actor : Actor_Number;
      Asked : Asking;
      State : in out Body_State;
      Runs  : not null Body_Access;
      Told  : in out Answer;
      Came  : out Kind)
   is
   begin
      loop
         Gate.Ask (Actor, Asked, Told, Came);
         exit when Came /= Busy;
         Suspend_Until_True (Rings (Actor));
      end loop;
      Wait (Actor, Told, Came);
      if Came = Started or else Came = Handed_Over then
         State.Count := Told.Count;
         State.Scalars := Told.Scalars;
         State.Is_Function := False;
         State.By := By_Return;
         State.Result_Count := 0;
         Runs (State);
         Gate.End_Body (Actor, State, Told, Came);
      end if;
   end Perform;

   procedure Create (Capacity, Queue_Limit : Interfaces.C.size_t; Came : out Kind) is
   begin
      Gate.Create (Capacity, Queue_Limit, Came);
   end Create;

   procedure Use_Host (Action : not null access procedure (Of_Host : in out Host)) is
   begin
      Gate.Use_Host (Action);
   end Use_Host;

   procedure Call
     (Actor  : Interfaces.C.size_t;
      Called : Target;
      State  : in out Body_State;
      Runs   : not null Body_Access;
      Told   : in out Answer;
      Came   : out Kind)
   is
   begin
      Perform (Actor, (False, Called, State.Given, State.Given_Count), State, Runs, Told, Came);
   end Call;

   procedure Fire
     (Line  : Interfaces.Unsigned_32;
      State : in out Body_State;
      Runs  : not null Body_Access;
      Told  : in out Answer;
      Came  : out Kind)
   is
   begin
      Perform (Actor_Number (Line + 1), (True, Line), State, Runs, Told, Came);
   end Fire;

   procedure Go (Actor : Interfaces.C.size_t; Told : in out Answer; Came : out Kind) is
   begin
      loop
         Gate.Go (Actor, Told, Came);
         exit when Came /= Busy and then Came /= Waiting;
         Suspend_Until_True (Rings (Actor));
      end loop;
   end Go;

   procedure Delay_Until
     (Actor : Interfaces.C.size_t; Tick : Interfaces.Integer_64; Told : in out Answer; Came : out Kind)
   is
   begin
      Gate.Delay_Until (Actor, Tick, Told, Came);
      Wait (Actor, Told, Came);
   end Delay_Until;

   procedure Finish (Actor : Interfaces.C.size_t; Told : in out Answer; Came : out Kind) is
   begin
      Gate.Finish (Actor, Told, Came);
   end Finish;

end Ravenhost.Gates;
