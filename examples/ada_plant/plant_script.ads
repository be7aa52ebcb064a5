--  The texts of the plant, and the script that its journal is judged by.

pragma Profile (Ravenscar);

with Interfaces.C; use Interfaces.C;

package Plant_Script is

   --  How many entries the journal has room for.
   Capacity : constant := 100_000;

   LF : constant char := char (ASCII.LF);

   Plant : constant char_array :=
     "unit Plant" & LF & "protected Tank 20" & LF & "scalar 0 1000 0" & LF
     & "scalar 0 1 0" & LF & "procedure Fill in 0 100" & LF & "entry Take 2 out 0 1000" & LF
     & "function Level 0 1000" & LF;

   Devices : constant char_array :=
     "unit Devices" & LF & "task Sensor 15" & LF & "task Actuator 15" & LF;

   Panel : constant char_array := "unit Panel" & LF & "task Display 10" & LF;

   List : constant char_array :=
     "allow Devices Plant.Tank *" & LF & "allow Panel Plant.Tank Level" & LF;

   Denial : constant char_array := "deny Panel * *";

   --  The first Length characters are the script.
   Script : char_array (0 .. 16 * 1024 * 1024);
   Length : size_t := 0;

   --  Begins with the settings and the shapes, up to where the journal stands.
   procedure Begin_Script;

   procedure Add (Part : char_array);

end Plant_Script;
