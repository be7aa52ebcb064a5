with Ada.Real_Time; use Ada.Real_Time;
with Interfaces;    use Interfaces;
with Plant_Gate;    use Plant_Gate;

package body Plant_Tasks is

   use type Ravenhost.Kind;

   --  How many calls a task makes at most.
   Most : constant array (Job) of Positive := (Sensor => Fills, Actuator => Fills / 10, Display => 1_000_000);

   --  Bodies. The first component is the level, the second the barrier of Take.

   procedure Fill (State : in out Body_State) is
   begin
      if State.Scalars (0) + State.Given (0) > 1000 then
         State.By := Ravenhost.Constraint_Error;
      else
         State.Scalars (0) := State.Scalars (0) + State.Given (0);
         State.Scalars (1) := (if State.Scalars (0) > 0 then 1 else 0);
      end if;
   end Fill;

   procedure Take (State : in out Body_State) is
   begin
      State.Result (0) := State.Scalars (0);
      State.Result_Count := 1;
      State.Scalars (0) := 0;
      State.Scalars (1) := 0;
   end Take;

   procedure Level (State : in out Body_State) is
   begin
      State.Is_Function := True;
      State.Result (0) := State.Scalars (0);
      State.Result_Count := 1;
   end Level;

   Bodies : constant array (Job) of not null Body_Access := (Sensor => Fill'Access, Actuator => Take'Access, Display => Level'Access);

   --  Calls until the turns are over or a call is kept out. The display rests between its calls, and not in its body, which holds the
   --  tank: else it would fill the journal before the sensor comes to its turn on a busy machine.
   procedure Work (Which : Job) is
      State : Body_State;
      Told  : Ravenhost.Answer;
      Came  : Ravenhost.Kind;
   begin
      if Which = Sensor then
         State.Given (0) := 2;
         State.Given_Count := 1;
      end if;
      loop
         Call (Posts (Which).Actor, Posts (Which).Called, State, Bodies (Which), Told, Posts (Which).Last);
         exit when Posts (Which).Last /= Ravenhost.Ended;
         Posts (Which).Turns := Posts (Which).Turns + 1;
         exit when Posts (Which).Turns = Most (Which);
         if Which = Display then
            delay until Clock + Milliseconds (1);
         end if;
      end loop;
      Finish (Posts (Which).Actor, Told, Came);
   end Work;

   Nevers : array (Job) of Suspension_Object;

   task type Worker (Which : Job);

   --  No task ends, as the profile has it (D.13): behind its work it waits for what never comes.
   task body Worker is
   begin
      Suspend_Until_True (Starts (Which));
      Work (Which);
      Set_True (Ends (Which));
      loop
         Suspend_Until_True (Nevers (Which));
      end loop;
   end Worker;

   pragma Warnings (Off, "*is not referenced*");
   Sensor_Task   : Worker (Sensor);
   Actuator_Task : Worker (Actuator);
   Display_Task  : Worker (Display);
   pragma Warnings (On, "*is not referenced*");

end Plant_Tasks;
