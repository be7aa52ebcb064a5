--  A plant whose bodies are Ada texts, which the host runs: a feeder fills a tank fifty times, a drain takes from it by an entry until all of that
--  has come. Each is the task of a unit text, and a task of this program goes by it (Texts_Tasks). At the end the journal is audited over
--  the texts. It prints what came of it, and ends with 0 where all was as it should be.

pragma Profile (Ravenscar);

with Ada.Exceptions;
with Ada.Synchronous_Task_Control; use Ada.Synchronous_Task_Control;
with Ada.Text_IO;
with GNAT.OS_Lib;
with Interfaces.C; use Interfaces.C;
with Ravenhost;    use Ravenhost;
with Texts_Gate;
with Texts_Script; use Texts_Script;
with Texts_Tasks;  use Texts_Tasks;

procedure Ada_Texts is

   use type Ravenhost.Kind;

   --  Ends the program where something isn't as it should be.
   Not_As_Due : exception;

   procedure Due (Wanted, Got : Kind; What : String) is
   begin
      if Got /= Wanted then
         raise Not_As_Due with What & Got'Image;
      end if;
   end Due;

   Words : char_array (0 .. 255);
   Told  : Text := Over (Words);

   procedure Find (Of_Host : in out Host; Which : Job; Name : String) is
      Actor : constant char_array := To_C (Name, False);
   begin
      Due (Done, Find_Actor (Of_Host, Actor, Actor'Length, Posts (Which).Actor), Name);
   end Find;

   procedure Load (Of_Host : in out Host) is
   begin
      Due (Accepted, Load_Unit (Of_Host, Plant, Plant'Length, Told), "Plant");
      Due (Accepted, Load_Unit (Of_Host, Devices, Devices'Length, Told), "Devices");
      Due (Accepted, Set_List (Of_Host, List, List'Length, Told), "the list");
      Find (Of_Host, Feeder, "Devices.Feeder");
      Find (Of_Host, Drain, "Devices.Drain");
   end Load;

   --  The script that an audit takes: the texts, and behind them the journal.
   procedure Audit_Journal (Of_Host : in out Host) is
      From    : size_t;
      Next    : size_t := 1;
      Lines   : char_array (0 .. 8191);
      Page    : Text := Over (Lines);
      Verdict : Status;
   begin
      Begin_Script;
      loop
         From := Next;
         Due (Done, Journal (Of_Host, From, Next, Page), "the journal");
         exit when Next = From;
         Add (Lines (0 .. Page.Length - 1));
      end loop;
      Verdict := Audit (Script, Length, Told);
      if Verdict /= Done then
         raise Not_As_Due with "the journal isn't legal";
      end if;
   end Audit_Journal;

   Made : Kind;

begin
   Texts_Gate.Create (Capacity, 1, Made);
   Due (Done, Made, "no host");
   Texts_Gate.Use_Host (Load'Access);
   for Which in Job loop
      Set_True (Starts (Which));
   end loop;
   for Which in Job loop
      Suspend_Until_True (Ends (Which));
      Due (Misuse, Posts (Which).Last, "a text didn't end");
   end loop;
   --  Fifty calls, each with its end, and the end of the task.
   Due (101, Kind (Posts (Feeder).Entries), "the feeder");
   Ada.Text_IO.Put_Line ("the feeder filled 50 times, and the drain took all of it");
   Texts_Gate.Use_Host (Audit_Journal'Access);
   Ada.Text_IO.Put_Line ("the journal is legal");
   --  Tasks don't end under the profile, so the program is ended.
   GNAT.OS_Lib.OS_Exit (0);
exception
   when Wrong : others =>
      Ada.Text_IO.Put_Line (Ada.Text_IO.Standard_Error, "ada_texts: " & Ada.Exceptions.Exception_Message (Wrong));
      GNAT.OS_Lib.OS_Exit (1);
end Ada_Texts;
