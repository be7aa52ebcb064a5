package body Texts_Script is

   procedure Add (Part : char_array) is
   begin
      Script (Length .. Length + Part'Length - 1) := Part;
      Length := Length + Part'Length;
   end Add;

   procedure Begin_Script is
      Opening : constant char_array := "@unit" & LF;
   begin
      Length := 0;
      Add ("@host.toml" & LF & "capacity =" & To_C (Integer'Image (Capacity), False) & LF);
      Add (Opening & Plant);
      Add (Opening & Devices);
      Add ("@journal" & LF);
   end Begin_Script;

end Texts_Script;
