with Texts_Gate; use Texts_Gate;

package body Texts_Tasks is

   use type Ravenhost.Kind;

   --  Goes by the text until it has nothing more to ask.
   procedure Work (Which : Job) is
      Told : Ravenhost.Answer;
   begin
      loop
         Go (Posts (Which).Actor, Told, Posts (Which).Last);
         exit when Posts (Which).Last < 0;
         Posts (Which).Entries := Posts (Which).Entries + 1;
      end loop;
   end Work;

   Nevers : array (Job) of Suspension_Object;

   task type Worker (Which : Job);

   --  No task ends, as the profile has it (D.13): behind its work it waits for what never comes.
   task body Worker is
   begin
      Suspend_Until_True (Starts (Which));
      Work (Which);
      Set_True (Ends (Which));
      loop
         Suspend_Until_True (Nevers (Which));
      end loop;
   end Worker;

   pragma Warnings (Off, "*is not referenced*");
   Feeder_Task : Worker (Feeder);
   Drain_Task  : Worker (Drain);
   pragma Warnings (On, "*is not referenced*");

end Texts_Tasks;
