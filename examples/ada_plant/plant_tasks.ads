--  Three tasks, each of which stands for a task of a unit: a sensor fills a tank, an actuator takes from it by an entry and waits while it is
--  empty, a display reads it. Their bodies are this package's.

pragma Profile (Ravenscar);

with Ada.Synchronous_Task_Control; use Ada.Synchronous_Task_Control;
with Interfaces.C;
with Ravenhost;

package Plant_Tasks is

   pragma Elaborate_Body;

   type Job is (Sensor, Actuator, Display);

   --  What a task needs, which is there before it starts, and what became of it, which is there once it has ended.
   type Post is record
      Actor  : Interfaces.C.size_t := 0;
      Called : Ravenhost.Target;
      Turns  : Natural := 0;
      --  How many of its calls were carried out.
      Last   : Ravenhost.Kind := 0;
      --  What its last call came to.
   end record;

   --  How often the sensor fills.
   Fills : constant := 500;

   Posts : array (Job) of Post;

   --  Starts a task; is set once its work is done.
   Starts : array (Job) of Suspension_Object;
   Ends   : array (Job) of Suspension_Object;

end Plant_Tasks;
