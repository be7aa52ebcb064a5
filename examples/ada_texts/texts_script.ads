--  The texts of the units, and the script that the journal is judged by.

pragma Profile (Ravenscar);

with Interfaces.C; use Interfaces.C;

package Texts_Script is

   --  How many entries the journal has room for.
   Capacity : constant := 10_000;

   LF : constant char := char (ASCII.LF);

   Plant : constant char_array :=
     "package Plant is" & LF
     & "   protected Tank with Priority => 20 is" & LF
     & "      procedure Fill (By : in Integer);" & LF
     & "      entry Take (All_Of_It : out Integer);" & LF
     & "   private" & LF
     & "      Level : Integer range 0 .. 1000 := 0;" & LF
     & "      Is_Filled : Boolean := False;" & LF
     & "   end Tank;" & LF
     & "end Plant;" & LF
     & "package body Plant is" & LF
     & "   protected body Tank is" & LF
     & "      procedure Fill (By : in Integer) is" & LF
     & "      begin" & LF
     & "         Level := Level + By;" & LF
     & "         Is_Filled := True;" & LF
     & "      end Fill;" & LF
     & "      entry Take (All_Of_It : out Integer) when Is_Filled is" & LF
     & "      begin" & LF
     & "         All_Of_It := Level;" & LF
     & "         Level := 0;" & LF
     & "         Is_Filled := False;" & LF
     & "      end Take;" & LF
     & "   end Tank;" & LF
     & "end Plant;" & LF;

   Devices : constant char_array :=
     "with Plant;" & LF
     & "package Devices is" & LF
     & "   task Feeder with Priority => 15;" & LF
     & "   task Drain with Priority => 15;" & LF
     & "end Devices;" & LF
     & "package body Devices is" & LF
     & "   task body Feeder is" & LF
     & "   begin" & LF
     & "      for Turn in 1 .. 50 loop" & LF
     & "         Plant.Tank.Fill (2);" & LF
     & "      end loop;" & LF
     & "   end Feeder;" & LF
     & "   task body Drain is" & LF
     & "      Sum : Integer := 0;" & LF
     & "      Taken : Integer;" & LF
     & "   begin" & LF
     & "      while Sum < 100 loop" & LF
     & "         Plant.Tank.Take (Taken);" & LF
     & "         Sum := Sum + Taken;" & LF
     & "      end loop;" & LF
     & "   end Drain;" & LF
     & "end Devices;" & LF;

   List : constant char_array := "allow Devices Plant.Tank *" & LF;

   --  The first Length characters are the script.
   Script : char_array (0 .. 2 * 1024 * 1024);
   Length : size_t := 0;

   --  Begins with the settings and the texts, up to where the journal stands.
   procedure Begin_Script;

   procedure Add (Part : char_array);

end Texts_Script;
