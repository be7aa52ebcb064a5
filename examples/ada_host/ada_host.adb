--  A host of an Ada program's own, as examples/c_host has one: two units share a tank under a list. A pilot fills it, and is refused once
--  its right is taken away. The bodies are this program's. It prints the journal.

pragma Profile (Ravenscar);

with Ada.Command_Line;
with Ada.Text_IO.Text_Streams;
with Interfaces;   use Interfaces;
with Interfaces.C; use Interfaces.C;
with Ravenhost;    use Ravenhost;

procedure Ada_Host is

   LF : constant char := To_C (ASCII.LF);

   Plant  : constant char_array :=
     To_C ("unit Plant", False) & LF & To_C ("protected Tank 20", False) & LF & To_C ("scalar 0 100 10", False) & LF
     & To_C ("procedure Fill in 0 100", False) & LF & To_C ("function Level 0 100", False) & LF;
   Nav    : constant char_array := To_C ("unit Nav", False) & LF & To_C ("task Pilot 15", False) & LF;
   List   : constant char_array := To_C ("allow Nav Plant.Tank *", False) & LF;
   Denial : constant char_array := To_C ("deny Nav Plant.Tank Fill", False);
   Pilot_Name : constant char_array := To_C ("Nav.Pilot", False);
   Tank_Name  : constant char_array := To_C ("Plant.Tank", False);
   Fill_Name  : constant char_array := To_C ("Fill", False);

   Words   : char_array (0 .. 127);
   Told    : Text := Over (Words);
   Of_Host : Host;
   Pilot   : size_t := 0;
   Fill    : Target;
   Last    : Answer;

   --  Ends the program where something isn't as it should be.
   Not_As_Due : exception;

   procedure Due (Wanted, Got : Kind) is
   begin
      if Got /= Wanted then
         raise Not_As_Due with Got'Image;
      end if;
   end Due;

   --  Fills the tank: the body adds what it is given to the level.
   function Filled (Amount : Integer_64) return Kind is
      Given   : constant Values := (0 => Amount);
      Started : constant Kind := Call (Of_Host, Pilot, Fill, Given, 1, Last);
   begin
      if Started /= Ravenhost.Started then
         return Started;
      end if;
      return End_Body (Of_Host, Pilot, (0 => Last.Scalars (0) + Amount), 1, By_Return, Given, 0, Last);
   end Filled;

   --  Prints the journal, page by page.
   procedure Print_Journal is
      Lines : char_array (0 .. 8191);
      Page  : Text := Over (Lines);
      From  : size_t;
      Next  : size_t := 1;
   begin
      loop
         From := Next;
         Due (Done, Journal (Of_Host, From, Next, Page));
         exit when Next = From;
         char_array'Write (Ada.Text_IO.Text_Streams.Stream (Ada.Text_IO.Standard_Output), Lines (0 .. Page.Length - 1));
      end loop;
   end Print_Journal;

begin
   Due (Done, Create (1000, 1, Of_Host));
   Due (Accepted, Load_Shape (Of_Host, Plant, Plant'Length, Told));
   Due (Accepted, Load_Shape (Of_Host, Nav, Nav'Length, Told));
   Due (Accepted, Set_List (Of_Host, List, List'Length, Told));
   Due (Done, Find_Actor (Of_Host, Pilot_Name, Pilot_Name'Length, Pilot));
   Due (Done, Find_Target (Of_Host, Tank_Name, Tank_Name'Length, Fill_Name, Fill_Name'Length, Fill));
   Due (Ended, Filled (25));
   Due (Accepted, Append_Line (Of_Host, Denial, Denial'Length, Told));
   Due (Refused, Filled (25));
   Print_Journal;
   Free (Of_Host);
exception
   when others =>
      Ada.Command_Line.Set_Exit_Status (1);
      raise;
end Ada_Host;
