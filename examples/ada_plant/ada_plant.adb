--  A plant of three tasks (Plant_Tasks) on one host. While they run the display's right is taken away; it finds that out by a refusal. At the
--  end the host is halted, and the journal is audited. It prints what came of it, and ends with 0 where all was as it should be.

pragma Profile (Ravenscar);

with Ada.Exceptions;
with Ada.Synchronous_Task_Control; use Ada.Synchronous_Task_Control;
with Ada.Text_IO;
with GNAT.OS_Lib;
with Interfaces.C; use Interfaces.C;
with Plant_Gate;
with Plant_Script; use Plant_Script;
with Plant_Tasks;  use Plant_Tasks;
with Ravenhost;    use Ravenhost;

procedure Ada_Plant is

   use type Ravenhost.Kind;

   --  Ends the program where something isn't as it should be.
   Not_As_Due : exception;

   procedure Due (Wanted, Got : Kind; What : String) is
   begin
      if Got /= Wanted then
         raise Not_As_Due with What & Got'Image;
      end if;
   end Due;

   Words : char_array (0 .. 127);
   Told  : Text := Over (Words);

   procedure Find (Of_Host : in out Host; Which : Job; Name, Operation : String) is
      Actor : constant char_array := To_C (Name, False);
      Tank  : constant char_array := To_C ("Plant.Tank", False);
      Asked : constant char_array := To_C (Operation, False);
   begin
      Due (Done, Find_Actor (Of_Host, Actor, Actor'Length, Posts (Which).Actor), Name);
      Due (Done, Find_Target (Of_Host, Tank, Tank'Length, Asked, Asked'Length, Posts (Which).Called), Operation);
   end Find;

   procedure Load (Of_Host : in out Host) is
   begin
      Due (Accepted, Load_Shape (Of_Host, Plant, Plant'Length, Told), "Plant");
      Due (Accepted, Load_Shape (Of_Host, Devices, Devices'Length, Told), "Devices");
      Due (Accepted, Load_Shape (Of_Host, Panel, Panel'Length, Told), "Panel");
      Due (Accepted, Set_List (Of_Host, List, List'Length, Told), "the list");
      Find (Of_Host, Sensor, "Devices.Sensor", "Fill");
      Find (Of_Host, Actuator, "Devices.Actuator", "Take");
      Find (Of_Host, Display, "Panel.Display", "Level");
   end Load;

   procedure Deny (Of_Host : in out Host) is
   begin
      Due (Accepted, Append_Line (Of_Host, Denial, Denial'Length, Told), "the denial");
   end Deny;

   procedure Stop (Of_Host : in out Host) is
   begin
      Due (Accepted, Halt (Of_Host), "the halt");
   end Stop;

   --  The script that an audit takes: the shapes, and behind them the journal.
   procedure Audit_Journal (Of_Host : in out Host) is
      From    : size_t;
      Next    : size_t := 1;
      Lines   : char_array (0 .. 8191);
      Page    : Text := Over (Lines);
      Verdict : Status;
   begin
      Begin_Script;
      loop
         From := Next;
         Due (Done, Journal (Of_Host, From, Next, Page), "the journal");
         exit when Next = From;
         Add (Lines (0 .. Page.Length - 1));
      end loop;
      Verdict := Audit (Script, Length, Told);
      if Verdict /= Done then
         raise Not_As_Due with "the journal isn't legal";
      end if;
   end Audit_Journal;

   Made : Kind;

begin
   Plant_Gate.Create (Capacity, 1, Made);
   Due (Done, Made, "no host");
   Plant_Gate.Use_Host (Load'Access);
   for Which in Job loop
      Set_True (Starts (Which));
   end loop;
   Suspend_Until_True (Ends (Sensor));
   Plant_Gate.Use_Host (Deny'Access);
   Suspend_Until_True (Ends (Display));
   Plant_Gate.Use_Host (Stop'Access);
   Suspend_Until_True (Ends (Actuator));
   Due (Fills, Kind (Posts (Sensor).Turns), "the sensor");
   Due (Refused, Posts (Display).Last, "the display");
   Ada.Text_IO.Put_Line ("the sensor filled" & Posts (Sensor).Turns'Image & " times, and the display was refused");
   Plant_Gate.Use_Host (Audit_Journal'Access);
   Ada.Text_IO.Put_Line ("the journal is legal");
   --  Tasks don't end under the profile, so the program is ended.
   GNAT.OS_Lib.OS_Exit (0);
exception
   when Wrong : others =>
      Ada.Text_IO.Put_Line (Ada.Text_IO.Standard_Error, "ada_plant: " & Ada.Exceptions.Exception_Message (Wrong));
      GNAT.OS_Lib.OS_Exit (1);
end Ada_Plant;
