--  Two tasks, each of which stands for a task of a unit text, and goes by that: a feeder fills a tank, a drain takes from it by an entry.

pragma Profile (Ravenscar);

with Ada.Synchronous_Task_Control; use Ada.Synchronous_Task_Control;
with Interfaces.C;
with Ravenhost;

package Texts_Tasks is

   pragma Elaborate_Body;

   type Job is (Feeder, Drain);

   --  The number of a task, which is there before it starts, and what became of it, which is there once its text has ended.
   type Post is record
      Actor   : Interfaces.C.size_t := 0;
      Entries : Natural := 0;
      --  How many of its requests the journal has.
      Last    : Ravenhost.Kind := 0;
      --  What the last came to.
   end record;

   Posts : array (Job) of Post;

   --  Starts a task; is set once its text has ended.
   Starts : array (Job) of Suspension_Object;
   Ends   : array (Job) of Suspension_Object;

end Texts_Tasks;
