--  Says of the script in a file what `ravenhost audit` or, with the word play, what `ravenhost play` prints of it, with the line of
--  its fault behind. It is a test of ravenhost.ads, and an example: tell audit FILE, or tell play FILE.

pragma Profile (Ravenscar);

with Ada.Command_Line;     use Ada.Command_Line;
with Ada.Directories;
with Ada.Streams.Stream_IO; use Ada.Streams;
with Ada.Text_IO.Text_Streams;
with Interfaces.C;         use Interfaces.C;
with Ravenhost;            use type Interfaces.Integer_32;

procedure Tell is

   --  The characters of a file, and one more, so that there is one.
   function Read (Name : String) return char_array is
      Length : constant size_t := size_t (Ada.Directories.Size (Name));
      File   : Stream_IO.File_Type;
   begin
      return Script : char_array (0 .. Length) do
         Script (Length) := nul;
         Stream_IO.Open (File, Stream_IO.In_File, Name);
         if Length > 0 then
            char_array'Read (Stream_IO.Stream (File), Script (0 .. Length - 1));
         end if;
         Stream_IO.Close (File);
      end return;
   end Read;

   function Ask (Script : char_array; Told : in out Ravenhost.Text) return Ravenhost.Status is
     (if Argument (1) = "play" then Ravenhost.Play (Script, Script'Length - 1, 0, Told)
      else Ravenhost.Audit (Script, Script'Length - 1, Told));

   Script : constant char_array := Read (Argument (2));
   One    : char_array (0 .. 0);
   Short  : Ravenhost.Text := Ravenhost.Over (One);
   Status : Ravenhost.Status := Ask (Script, Short);
   All_Of : char_array (0 .. Short.Length);
   Told   : Ravenhost.Text := Ravenhost.Over (All_Of);

begin
   if Status /= Ravenhost.No_Memory then
      Status := Ask (Script, Told);
      if Told.Length > 0 then
         char_array'Write (Ada.Text_IO.Text_Streams.Stream (Ada.Text_IO.Standard_Output), All_Of (0 .. Told.Length - 1));
      end if;
   end if;
   Set_Exit_Status (Exit_Status (Status));
end Tell;
